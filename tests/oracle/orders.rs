//! Which change orders are in force.

use std::sync::OnceLock;

/// The orders that have landed and change what calls from before them give.  Orders
/// 1, 7, 8, 11 and 12, which add calls, and 9, which says more of the model, don't.
const CHANGING: [u32; 3] = [2, 3, 5];

/// Names other ones than these, for a library from before one of them: their
/// numbers, commas between; 0 or nothing for none.
const VARIABLE: &str = "ZESTCHINTZ_ORDERS";

/// Order 2, and other readings of its wording that `selfcheck` shows to be
/// wrong.
#[derive(Clone, Copy, Debug, PartialEq, Eq)]
pub enum Missing {
    /// A body length of 65,535 counts in the sum under 6 as any other does.
    Off,
    /// A record of that length has no literals, and its head counts as having
    /// one more rule, whose only literal is undefined.
    AsWorded,
    /// Wrong: the record is a rule with an empty body.
    EmptyBody,
    /// Wrong: the record is no rule.
    NoRule,
    /// Wrong: its length counts in the sum.
    CountedInSum,
    /// Wrong: the record is lost where its head has another rule.
    LostBesideRules,
    /// Wrong: the exchange of a complete claim's rules leaves its records there.
    KeptAtExchange,
}

/// The wrong readings of order 2 that an evaluation can show.
pub const MISREADINGS: [(&str, Missing); 4] = [
    ("a missing record is an empty body", Missing::EmptyBody),
    ("a missing record is no rule", Missing::NoRule),
    ("a missing record counts in the sum under 6", Missing::CountedInSum),
    ("a missing record is lost beside another rule", Missing::LostBesideRules),
];

/// Order 3, and other readings of its wording that `selfcheck` shows to be
/// wrong.
#[derive(Clone, Copy, Debug, PartialEq, Eq)]
pub enum Newest {
    /// A worker has two words.
    Off,
    /// It has a third one, its newest open claim + 1 or 0, which is what a search
    /// finds: highest opening number, then highest claim.
    AsWorded,
    /// Wrong: a takeover leaves the losers' words as they were.
    LosersKept,
    /// Wrong: a completion leaves the word as it was.
    KeptAtCompletion,
    /// Wrong: opening puts in the claim opened, although a newer one is owned.
    LastOpened,
    /// Wrong: of claims with equal opening numbers the lowest is the newest.
    LowestOfEqual,
    /// Wrong: check 10 looks at the word's range alone.
    RangeOnly,
}

/// Order 5, and two other readings of its wording that `selfcheck` shows to be
/// wrong.
#[derive(Clone, Copy, Debug, PartialEq, Eq)]
pub enum Skip {
    Off,
    /// A literal is false if it is plain and its claim complete false, or
    /// negated and its claim complete true.
    AsWorded,
    /// Wrong: literals behind a complete false one still lead.
    StillLeading,
    /// Wrong: a literal counts as false if its claim is, negated or not.
    ByClaim,
}

#[derive(Clone, Copy, Debug, PartialEq, Eq)]
pub struct Orders {
    /// Order 2: a missing measurement is undefined.
    pub missing: Missing,
    /// Order 3: each worker's newest claim is kept.
    pub newest: Newest,
    /// Order 5: a rule that has failed is read no further.
    pub skip: Skip,
}

impl Orders {
    /// The orders of these numbers, as they are worded; without one, the base.
    pub fn of(numbers: &[u32]) -> Orders {
        Orders {
            missing: if numbers.contains(&2) { Missing::AsWorded } else { Missing::Off },
            newest: if numbers.contains(&3) { Newest::AsWorded } else { Newest::Off },
            skip: if numbers.contains(&5) { Skip::AsWorded } else { Skip::Off },
        }
    }

    /// The same orders as they are worded.
    pub fn as_worded(self) -> Orders {
        Orders {
            missing: if self.missing == Missing::Off { Missing::Off } else { Missing::AsWorded },
            newest: if self.newest == Newest::Off { Newest::Off } else { Newest::AsWorded },
            skip: if self.skip == Skip::Off { Skip::Off } else { Skip::AsWorded },
        }
    }

    /// How many words of a table a worker has.
    pub fn worker_words(self) -> usize {
        if self.newest == Newest::Off {
            2
        } else {
            3
        }
    }

    /// All of `CHANGING`, or those that ZESTCHINTZ_ORDERS names.
    pub fn in_force() -> Orders {
        static IN_FORCE: OnceLock<Orders> = OnceLock::new();
        *IN_FORCE.get_or_init(|| match std::env::var(VARIABLE) {
            Err(_) => Orders::of(&CHANGING),
            Ok(list) => {
                Orders::named(&list).unwrap_or_else(|| panic!("{VARIABLE}={list}: its orders are {CHANGING:?}"))
            }
        })
    }

    fn named(list: &str) -> Option<Orders> {
        let words = list.split(',').filter(|&word| !word.is_empty() && word != "0");
        let numbers: Vec<u32> = words.map(str::parse).collect::<Result<_, _>>().ok()?;
        numbers.iter().all(|number| CHANGING.contains(number)).then(|| Orders::of(&numbers))
    }
}
