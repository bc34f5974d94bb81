// What a call answered, in one form for every call: the number, its row, and what some calls answer besides.
// The original's answers are put in the same form, so that the two can be compared.

use port::{Outcome, Solved, Summed};

use crate::words;

/// What a call answers besides its number and row.
#[derive(Clone, Copy, PartialEq, Eq)]
pub enum Besides {
    Nothing,
    /// The word of a sum.
    Sum(u64),
    Solve(Solve),
}

/// What a solve answers.
#[derive(Clone, Copy, PartialEq, Eq)]
pub struct Solve {
    /// How many numbers of the history are written.
    pub count: u32,
    pub verdict: u32,
    /// The word of the last of them, that of +0 if there is none.
    pub last: u64,
}

impl Besides {
    /// As `dot` and the solvers answer a refusal.
    pub const NO_SUM: Besides = Besides::Sum(0);
    pub const NO_SOLVE: Besides = Besides::Solve(Solve {
        count: 0,
        verdict: 0,
        last: 0,
    });

    /// As they stand in a line of the fixed list.
    pub fn words(self) -> Vec<u64> {
        match self {
            Besides::Nothing => Vec::new(),
            Besides::Sum(sum) => vec![sum],
            Besides::Solve(solve) => {
                vec![u64::from(solve.count), u64::from(solve.verdict), solve.last]
            }
        }
    }

    /// What these words are.
    pub fn about(self) -> &'static [&'static str] {
        match self {
            Besides::Nothing => &[],
            Besides::Sum(_) => &["the sum (1 word)"],
            Besides::Solve(_) => &["count (1 word)", "verdict (1 word)", "last (1 word)"],
        }
    }

    /// The words that are doubles.
    pub fn values(self) -> Vec<u64> {
        match self {
            Besides::Nothing => Vec::new(),
            Besides::Sum(word) => vec![word],
            Besides::Solve(solve) => vec![solve.last],
        }
    }

    pub fn show(self) -> String {
        match self {
            Besides::Nothing => String::new(),
            Besides::Sum(sum) => format!(", sum {}", words::show_words(&[sum])),
            Besides::Solve(solve) => format!(
                ", count {}, verdict {}, last {}",
                solve.count,
                solve.verdict,
                words::show_words(&[solve.last])
            ),
        }
    }
}

/// What a call answered.
#[derive(Clone, Copy)]
pub struct Answered {
    pub number: u32,
    pub row: u32,
    pub besides: Besides,
}

impl From<Outcome> for Answered {
    fn from(outcome: Outcome) -> Answered {
        Answered {
            number: outcome.number,
            row: outcome.row,
            besides: Besides::Nothing,
        }
    }
}

impl From<Summed> for Answered {
    fn from(summed: Summed) -> Answered {
        Answered {
            number: summed.number,
            row: summed.row,
            besides: Besides::Sum(words::word_of(summed.sum)),
        }
    }
}

impl From<Solved> for Answered {
    fn from(solved: Solved) -> Answered {
        Answered {
            number: solved.number,
            row: 0,
            besides: Besides::Solve(Solve {
                count: solved.count,
                verdict: solved.verdict,
                last: words::word_of(solved.last),
            }),
        }
    }
}

/// The number alone, as timed calls answer.
impl From<u32> for Answered {
    fn from(number: u32) -> Answered {
        Answered {
            number,
            row: 0,
            besides: Besides::Nothing,
        }
    }
}
