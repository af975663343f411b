//! Tables before a takeover from all other workers, who own further claims.

use crate::draft::{plain, Draft, Random};
use crate::order_edges::table_of;
use crate::orders::Orders;

/// A ring of rules through all workers.  Each has a stretch of it and awaits the next
/// one's; worker 0, which has met all but the next one's, takes the ring over in its
/// turn.  Claims outside, which have no rule, are the other workers', complete or
/// fresh.
struct Ring {
    draft: Draft,
    /// The ring's claims in its direction, and those outside.
    ring: Vec<usize>,
    outside: Vec<usize>,
}

impl Ring {
    fn make(random: &mut Random) -> Ring {
        let workers = random.within(2, 6);
        let (length, more) = (random.within(workers, 2 * workers + 2), random.within(1, 10));
        let mut ring: Vec<usize> = (0..length + more).collect();
        random.shuffle(&mut ring);
        let outside = ring.split_off(length);
        let mut draft = Draft::new(length + more, workers);
        for (i, &claim) in ring.iter().enumerate() {
            draft.rule(claim, &[plain(ring[(i + 1) % length])]);
        }
        let asks = random.within(0, 4);
        draft.ask_randomly(random, asks);
        Ring { draft, ring, outside }
    }

    /// Where a worker's stretch begins.
    fn first(&self, worker: usize) -> usize {
        (worker * self.ring.len()).div_ceil(self.draft.workers)
    }

    /// The claims of the ring with their owners' marks and cursors.
    fn stretches(&self) -> Vec<(usize, [usize; 2])> {
        let meets = self.first(1) - 1;
        let stretch = |worker: usize| (self.first(worker)..self.first(worker + 1)).map(move |i| (worker, i));
        let all = (0..self.draft.workers).flat_map(stretch);
        all.map(|(worker, i)| (self.ring[i], [worker + 1, usize::from(i != meets)])).collect()
    }

    /// Each worker but the first awaits the next one's stretch.
    fn waits(&self) -> Vec<(u32, u32)> {
        let next = |worker: usize| self.ring[self.first(worker + 1) % self.ring.len()];
        (1..self.draft.workers).map(|worker| (worker as u32, next(worker) as u32)).collect()
    }
}

/// The job and the words of such a table; many opening numbers are equal.
pub fn make_takeover(random: &mut Random, orders: Orders) -> Vec<u8> {
    let made = Ring::make(random);
    let mut claims = made.stretches();
    for &claim in &made.outside {
        match random.below(8) {
            0 => {}
            1 => claims.push((claim, [random.within(256, 258), 0])),
            _ => claims.push((claim, [random.within(2, made.draft.workers), 0])),
        }
    }
    let highest = random.pick(&[1, 2, 4, made.draft.claims]).min(made.draft.claims);
    let number = |_: &(usize, [usize; 2])| random.within(1, highest) as u32;
    let numbers: Vec<u32> = claims.iter().map(number).collect();
    let records = claims.iter().zip(numbers);
    let records =
        records.map(|(&(claim, [mark, cursor]), number)| (claim as u32, [mark as u32, cursor as u32, number]));
    let words = table_of(orders, &made.draft, &records.collect::<Vec<(u32, [u32; 3])>>(), &made.waits());
    let mut bytes = made.draft.job_bytes();
    bytes.extend(words.iter().flat_map(|word| word.to_le_bytes()));
    bytes
}
