//! Accepted jobs at the limits, with listings that can be worked out by hand.

use crate::draft::{not, plain, Draft};
use crate::edges::Edges;

pub fn edges_of_limits(edges: &mut Edges) {
    let mut long = Draft::new(2, 1);
    long.rule(0, &vec![not(1); 16_384]);
    long.ask(0, 0);
    edges.whole(
        "accepted: one rule of 16,384 literals",
        long.bytes(),
        // opened 0; opened 1; completed 1; 16,383 passed; completed 0; answered.
        "claims 2\n0 true\n1 false\nquestions 1\n0 0 true\ntally 0 0 2 0 0 16383 2 1\n",
    );
    let mut many = Draft::new(1, 1);
    for _ in 0..6144 {
        many.rule(0, &[]);
    }
    many.ask(0, 0);
    edges.whole(
        "accepted: 6,144 equal rules",
        many.bytes(),
        "claims 1\n0 true\nquestions 1\n0 0 true\ntally 0 0 1 0 0 0 1 1\n",
    );
    let mut asks = Draft::new(1, 32);
    for question in 0..1024 {
        asks.ask(question % 32, 0);
    }
    edges.begins(
        "accepted: 1,024 questions of 32 workers",
        asks.bytes(),
        "claims 1\n0 false\nquestions 1024\n0 0 false\n1 0 false\n",
    );
    let mut chain = Draft::new(4096, 1);
    for claim in 0..4095 {
        chain.rule(claim, &[plain(claim + 1)]);
    }
    chain.rule(4095, &[]);
    chain.ask(0, 0);
    edges.begins("accepted: a chain of 4,096", chain.bytes(), "claims 4096\n0 true\n1 true\n");
    let mut ring = Draft::new(4096, 32);
    for claim in 0..4096 {
        ring.rule(claim, &[plain((claim + 1) % 4096)]);
    }
    for worker in 0..32 {
        ring.ask(worker, worker * 128);
    }
    edges.begins("accepted: a ring of 4,096 asked by 32 workers", ring.bytes(), "claims 4096\n0 false\n1 false\n");
    let mut loops = Draft::new(3, 2);
    loops.rule(0, &[plain(0), plain(0)]);
    loops.rule(0, &[plain(0), plain(0)]);
    loops.ask(1, 0);
    loops.ask(1, 0);
    edges.whole(
        "accepted: repeated rules, literals and questions",
        loops.bytes(),
        // Worker 1: opened, four passed, completed, answered twice; worker 0 idle before each.
        "claims 3\n0 false\n1 unopened\n2 unopened\nquestions 2\n1 0 false\n1 0 false\ntally 8 0 1 0 0 4 1 2\n",
    );
}
