// Counts of what was compared, by call, N and answer, and of every difference that was found.
// A run passes if there is no difference and each answer that can occur did occur.

use std::collections::BTreeMap;
use std::fmt;

/// The N of a case; a `dim` that is none of 1, 2, 3 counts as `Other`, a call without N as `None`.
#[derive(Clone, Copy, Debug, PartialEq, Eq, PartialOrd, Ord)]
pub enum Dim {
    Is(u32),
    Other,
    None,
}

impl Dim {
    pub fn of(dim: u32) -> Dim {
        if (1..=3).contains(&dim) {
            Dim::Is(dim)
        } else {
            Dim::Other
        }
    }
}

impl fmt::Display for Dim {
    fn fmt(&self, f: &mut fmt::Formatter) -> fmt::Result {
        match self {
            Dim::Is(dim) => write!(f, "{dim}"),
            Dim::Other => write!(f, "other"),
            Dim::None => write!(f, "-"),
        }
    }
}

#[derive(Default)]
struct Counts {
    /// How often each answer was given; one that can occur stands here with 0 until it does.
    answers: BTreeMap<u32, u64>,
    /// How often a solve ended so, likewise, in the order in which they were named.
    ends: Vec<(&'static str, u64)>,
    words: u64,
    nans: u64,
    differences: u64,
}

/// Of each call and N at most this many differences are shown in full.
const SHOWN: u64 = 2;

#[derive(Default)]
pub struct Tally {
    order: Vec<(&'static str, Dim)>,
    rows: BTreeMap<(&'static str, Dim), Counts>,
}

impl Tally {
    pub fn new() -> Tally {
        Tally::default()
    }

    fn row(&mut self, call: &'static str, dim: Dim) -> &mut Counts {
        let key = (call, dim);
        self.rows.entry(key).or_insert_with(|| {
            self.order.push(key);
            Counts::default()
        })
    }

    /// Says that a call can answer so: the run fails if it never does.
    pub fn can_answer(&mut self, call: &'static str, dim: Dim, numbers: &[u32]) {
        for &number in numbers {
            self.row(call, dim).answers.entry(number).or_insert(0);
        }
    }

    /// Counts cases that were answered by `number`.
    pub fn answered(&mut self, call: &'static str, dim: Dim, number: u32, cases: u64) {
        *self.row(call, dim).answers.entry(number).or_insert(0) += cases;
    }

    /// Says that a solve can end so: the run fails if none does.
    pub fn can_end(&mut self, call: &'static str, dim: Dim, ends: &[&'static str]) {
        for &end in ends {
            self.ended(call, dim, end, 0);
        }
    }

    /// Counts solves that ended so.
    pub fn ended(&mut self, call: &'static str, dim: Dim, end: &'static str, cases: u64) {
        let ends = &mut self.row(call, dim).ends;
        match ends.iter_mut().find(|(name, _)| *name == end) {
            Some((_, count)) => *count += cases,
            None => ends.push((end, cases)),
        }
    }

    /// Counts words that were compared, and how many of them were to be a NaN.
    pub fn compared(&mut self, call: &'static str, dim: Dim, words: u64, nans: u64) {
        let row = self.row(call, dim);
        row.words += words;
        row.nans += nans;
    }

    /// Reports a difference. The message is made only if it is shown.
    pub fn differs(&mut self, call: &'static str, dim: Dim, message: impl FnOnce() -> String) {
        let row = self.row(call, dim);
        row.differences += 1;
        if row.differences <= SHOWN {
            println!("DIFFERENCE in {call}, N = {dim}\n{}", message());
        }
    }

    pub fn differences(&self) -> u64 {
        self.rows.values().map(|row| row.differences).sum()
    }

    pub fn cases(&self) -> u64 {
        let all = self.rows.values().flat_map(|row| row.answers.values());
        all.sum()
    }

    /// Calls with an N and an answer, or an end of a solve, that can occur and did not.
    pub fn missing(&self) -> Vec<String> {
        let mut missing = Vec::new();
        for key in &self.order {
            let row = &self.rows[key];
            let answers = row
                .answers
                .iter()
                .map(|(no, &cases)| (no.to_string(), cases));
            let ends = row
                .ends
                .iter()
                .map(|&(end, cases)| (end.to_string(), cases));
            for (what, _) in answers.chain(ends).filter(|(_, cases)| *cases == 0) {
                missing.push(format!("{}, N = {}: {what} did not occur", key.0, key.1));
            }
        }
        missing
    }

    pub fn print(&self) {
        println!(
            "{:<41} {:>5} {:>10} {:>10} {:>9} {:>7}  cases by answer",
            "call", "N", "cases", "words", "NaN words", "differ"
        );
        for key in &self.order {
            let row = &self.rows[key];
            let cases: u64 = row.answers.values().sum();
            let answers: Vec<String> = row
                .answers
                .iter()
                .map(|(number, cases)| format!("{number}: {cases}"))
                .collect();
            println!(
                "{:<41} {:>5} {cases:>10} {:>10} {:>9} {:>7}  {}",
                key.0,
                key.1.to_string(),
                row.words,
                row.nans,
                row.differences,
                answers.join(", ")
            );
        }
        self.print_ends();
    }

    fn print_ends(&self) {
        println!("{:<41} {:>5}  cases by end", "solver", "N");
        for key in &self.order {
            let ends = self.rows[key].ends.iter();
            let ends: Vec<String> = ends.map(|(end, cases)| format!("{end}: {cases}")).collect();
            if !ends.is_empty() {
                println!(
                    "{:<41} {:>5}  {}",
                    key.0,
                    key.1.to_string(),
                    ends.join(", ")
                );
            }
        }
    }
}

#[cfg(test)]
mod tests {
    use super::*;

    #[test]
    fn what_has_not_occurred_is_missing() {
        let mut tally = Tally::new();
        tally.can_answer("solve", Dim::Is(1), &[0]);
        tally.can_end("solve", Dim::Is(1), &["Empty", "Settled"]);
        tally.answered("solve", Dim::Is(1), 0, 1);
        tally.ended("solve", Dim::Is(1), "Settled", 1);
        assert_eq!(tally.missing(), ["solve, N = 1: Empty did not occur"]);
    }
}
