//! Lists of calls from a freshly started table: the made schedule, then rounds
//! until all is answered, then turns that must be idle, with readings and
//! refused calls anywhere between them.

use oracle::checks::{check_schedule, part_input, Job};
use oracle::draft::Random;
use oracle::model::{well_founded, Program, Verdict};
use oracle::orders::Orders;
use oracle::promises::{check_end, check_values};
use oracle::table::{Layout, Table};

use crate::beside::Beside;
use crate::calls::Call;
use crate::single;
use crate::totals::Totals;

/// How a list is cut into calls.
#[derive(Clone, Copy)]
struct Style {
    /// Of a hundred calls, so many are single turns; the others are runs.
    single: usize,
    longest_run: usize,
    /// Of a hundred calls, so many have a reading or a refused call before them.
    others: usize,
}

const STYLES: [Style; 6] = [
    Style { single: 100, longest_run: 0, others: 0 },
    Style { single: 100, longest_run: 0, others: 25 },
    Style { single: 0, longest_run: usize::MAX, others: 0 },
    Style { single: 0, longest_run: 60, others: 50 },
    Style { single: 50, longest_run: 12, others: 10 },
    Style { single: 50, longest_run: 4, others: 60 },
];

/// Of a turn's cost: a completion asks for a whole evaluation.
const COMPLETION: usize = 20;

/// At most so many turns are made to see that they are idle.
const IDLE_TURNS: usize = 1000;

/// At most so many claims are read in the end.
const MOST_READINGS: usize = 300;

pub struct List<'a> {
    pub beside: Beside<'a>,
    pub job: &'a Job,
    pub bytes: &'a [u8],
    pub random: Random,
    style: Style,
    verdicts: Vec<Verdict>,
    /// How much may still be done; a turn costs about a pass over the job.
    work: usize,
}

/// A made input: a list of calls where the job is accepted, else each call once.
pub fn compare_input(totals: &mut Totals, name: &str, input: &[u8], work: usize) {
    let (bytes, schedule) = part_input(input);
    totals.jobs += 1;
    let mut random = Random::new(name, 1);
    let job = match Job::check(bytes, Orders::in_force()) {
        Err(_) => return single::compare_refused_job(totals, name, bytes, &mut random),
        Ok(job) => job,
    };
    totals.count_job(&job);
    let used = Layout::of_job(&job, Orders::in_force()).used;
    let tail = random.pick(&[0, 0, 1, 2, 5, 40]);
    let words: Vec<u32> = (0..used + tail).map(|_| random.next() as u32).collect();
    let verdicts = well_founded(&Program::of_job(&job));
    let style = random.pick(&STYLES);
    let beside = Beside::new(name, bytes, &job, words, totals);
    List { beside, job: &job, bytes, random, style, verdicts, work }.compare(schedule);
}

impl List<'_> {
    fn compare(&mut self, schedule: &[u8]) {
        self.start();
        if check_schedule(self.job, schedule).is_err() {
            self.beside.make(&Call::Run(schedule.to_vec()));
        }
        let known: Vec<u8> = schedule.iter().copied().filter(|&byte| usize::from(byte) < self.job.workers).collect();
        self.take(&known);
        self.answer_all();
        if self.beside.table.all_answered() && !self.beside.apart {
            self.beside.totals.finished += 1;
            self.expect_answers();
            self.stay_idle();
        }
        self.read_claims();
        self.beside.expect_job_kept();
    }

    fn start(&mut self) {
        let used = self.beside.table.layout.used;
        let short = [0, used - 1, self.random.below(used)];
        for length in short {
            self.beside.make_short(&Call::Start, length);
        }
        self.beside.make(&Call::Start);
    }

    fn going(&self) -> bool {
        self.work > 0 && !self.beside.apart
    }

    /// Takes the turns of a schedule, in calls of the list's style.
    fn take(&mut self, schedule: &[u8]) {
        let mut at = 0;
        while at < schedule.len() && self.going() {
            if self.random.percent(self.style.others) {
                self.other_call();
            }
            if self.random.percent(self.style.single) {
                self.call(&Call::Turn(usize::from(schedule[at])), 1);
                at += 1;
            } else {
                let most = self.style.longest_run.min(schedule.len() - at).min(1 + self.work / self.weight());
                let length = if self.style.longest_run == usize::MAX { most } else { self.random.within(0, most) };
                self.call(&Call::Run(schedule[at..at + length].to_vec()), length);
                at += length;
            }
        }
    }

    /// A call that makes so many turns; complete claims then have their verdicts.
    fn call(&mut self, call: &Call, turns: usize) {
        let given = self.beside.make(call);
        let completed = match call {
            Call::Turn(_) => usize::from(given.code == 6),
            _ => given.tally[6] as usize,
        };
        let passes = 1 + turns + COMPLETION * completed;
        self.work = self.work.saturating_sub(passes * self.weight());
        if completed > 0 {
            self.expect_verdicts();
        }
    }

    fn weight(&self) -> usize {
        100 + self.job.claims + self.job.rules.len() + self.job.literals.len() + self.job.questions.len()
    }

    /// A round: every worker has a turn, in order, shuffled, or with others between.
    fn round(&mut self) -> Vec<u8> {
        let workers = self.job.workers;
        let mut turns: Vec<u8> = (0..workers as u8).collect();
        match self.random.below(3) {
            0 => {}
            1 => self.random.shuffle(&mut turns),
            _ => {
                let more = self.random.below(workers + 1);
                turns.extend((0..more).map(|_| self.random.below(workers) as u8).collect::<Vec<u8>>());
                self.random.shuffle(&mut turns);
            }
        }
        turns
    }

    /// Rounds until all is answered, in stretches; 2L + A + 3Q must be enough.
    fn answer_all(&mut self) {
        let mut rounds = 0;
        while !self.beside.table.all_answered() && self.going() {
            if rounds >= self.job.promised_rounds() {
                return self.beside.differ(&format!("not all is answered after {rounds} rounds"));
            }
            let stretch = self.random.within(1, 8).min(self.job.promised_rounds() - rounds);
            let turns: Vec<u8> = (0..stretch).flat_map(|_| self.round()).collect();
            self.take(&turns);
            rounds += stretch;
        }
    }

    /// Once all is answered, every turn is idle and changes nothing.
    fn stay_idle(&mut self) {
        let before = self.beside.lent_words().to_vec();
        for worker in 0..self.job.workers {
            self.call(&Call::Turn(worker), 1);
        }
        let rounds = self.job.promised_rounds().clamp(1, 1 + IDLE_TURNS / self.job.workers);
        let turns: Vec<u8> = (0..rounds).flat_map(|_| self.round()).collect();
        let given = self.beside.make(&Call::Run(turns.clone()));
        if given.tally[0] != turns.len() as u64 || self.beside.lent_words() != before {
            self.beside.differ("a turn after all was answered isn't idle or changes a word");
        }
    }

    /// Reads every claim, or some where there are many.
    fn read_claims(&mut self) {
        let claims = self.job.claims;
        for i in 0..claims.min(MOST_READINGS) {
            if !self.beside.apart {
                let claim = if claims <= MOST_READINGS { i } else { self.random.below(claims) };
                self.beside.make(&Call::Read(claim));
            }
        }
    }

    /// Complete claims have the verdicts of the whole job.
    fn expect_verdicts(&mut self) {
        let marks: Vec<u32> = (0..self.job.claims).map(|claim| self.beside.lent_words()[8 + 3 * claim]).collect();
        let wrong = (0..marks.len()).find(|&claim| marks[claim] >= 256 && marks[claim] != self.verdicts[claim].mark());
        if let Some(claim) = wrong {
            let verdict = self.verdicts[claim].name();
            self.beside.differ(&format!("claim {claim} has mark {}, but its verdict is {verdict}", marks[claim]));
        }
    }

    /// All questions are answered, with the verdicts of the claims they ask for;
    /// what is complete is what demand 3 promises.
    fn expect_answers(&mut self) {
        let words = self.beside.lent_words().to_vec();
        let promised = match Table::from_words(self.job, Orders::in_force(), words) {
            Err(refusal) => Err(format!("its table is refused: {refusal:?}")),
            Ok(table) => {
                check_values(&table, &self.verdicts).and_then(|()| check_end(&table, &self.job.asked_closure()))
            }
        };
        if let Err(fault) = promised {
            self.beside.differ(&format!("all is answered, and {fault}"));
        }
    }
}
