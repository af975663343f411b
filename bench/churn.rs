//! Jobs of many rounds in each of which much is taken out of U and comes back.

use oracle::checks::{MAX_CLAIMS, MAX_LITERALS, MAX_RULES};
use oracle::draft::{not, plain, Draft, Random};

/// What such a job is made of.  A driver decides a true and a false claim a round.
/// The hub has a rule for each round, which fails in it, and a last one that keeps
/// it undefined; the load is all that rests on the hub.
#[derive(Clone, Debug)]
pub struct Churn {
    pub rounds: usize,
    /// The false claims of the driver hold themselves up, each with another claim.
    pub pairs: bool,
    /// The hub's rules fail from the last in the file to the first, or the other way.
    pub backwards: bool,
    /// How often the hub stands in each rule of the driver's false claims.
    pub carried: usize,
    /// Claims of the load, and how many literals each rule of theirs has.
    pub loaded: usize,
    pub length: usize,
    /// Of a hundred literals of the load, so many name other claims of the load.
    pub deep: usize,
    /// Claims are numbered in no order.
    pub mixed: bool,
}

/// A job being made within the limits.
struct Filling {
    draft: Draft,
    literals: usize,
}

impl Filling {
    /// Adds a rule, unless there is no room for it.
    fn rule(&mut self, head: usize, body: &[u16]) -> bool {
        let fits = self.draft.rules.len() < MAX_RULES as usize && self.literals + body.len() <= MAX_LITERALS as usize;
        if fits {
            self.draft.rule(head, body);
            self.literals += body.len();
        }
        fits
    }
}

impl Churn {
    /// Claims that the driver has in each round.
    fn width(&self) -> usize {
        2 + usize::from(self.pairs)
    }

    /// Makes it fit: claims for the driver, the hub and a claim of the load.
    pub fn fitted(mut self) -> Churn {
        let most = MAX_CLAIMS as usize;
        self.rounds = self.rounds.clamp(1, (most - 2) / self.width());
        self.loaded = self.loaded.clamp(1, most - 1 - self.rounds * self.width());
        self.length = self.length.clamp(1, MAX_LITERALS as usize);
        self
    }

    fn drive(&self, filling: &mut Filling, hub: usize) {
        for round in 0..self.rounds {
            let (held, lost) = (self.width() * round, self.width() * round + 1);
            filling.rule(held, &[not(lost)]);
            if self.pairs {
                filling.rule(lost, &[plain(lost + 1)]);
                filling.rule(lost + 1, &[plain(lost)]);
            }
            if round > 0 {
                let mut body = vec![not(held - self.width())];
                body.extend(vec![plain(hub); self.carried]);
                filling.rule(lost, &body);
            }
        }
    }

    fn join_hub(&self, filling: &mut Filling, hub: usize) {
        filling.rule(hub, &[not(hub)]);
        for i in 0..self.rounds {
            let round = if self.backwards { self.rounds - 1 - i } else { i };
            filling.rule(hub, &[not(self.width() * round)]);
        }
    }

    /// Rules below the hub, until one has no room.
    fn load(&self, filling: &mut Filling, random: &mut Random, hub: usize) {
        for count in 0.. {
            let head = count % self.loaded;
            let literal = |random: &mut Random| {
                if head > 0 && random.percent(self.deep) {
                    plain(hub + 1 + random.below(head))
                } else {
                    plain(hub)
                }
            };
            let body: Vec<u16> = (0..self.length).map(|_| literal(random)).collect();
            if !filling.rule(hub + 1 + head, &body) {
                return;
            }
        }
    }

    pub fn job(&self) -> Vec<u8> {
        let random = &mut Random::new("churn", 1);
        let hub = self.rounds * self.width();
        let mut filling = Filling { draft: Draft::new(hub + 1 + self.loaded, 1), literals: 0 };
        self.drive(&mut filling, hub);
        self.join_hub(&mut filling, hub);
        self.load(&mut filling, random, hub);
        if self.mixed {
            filling.draft.permute_claims(random);
        }
        filling.draft.job_bytes()
    }
}
