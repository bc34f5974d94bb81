// Holds what the port made of a case to what was expected: the answer, every lent slice, and the bytes beside.
// Every call is judged here, whatever slices it is lent; a difference is shown with all that was given.

use crate::answered::{Answered, Besides};
use crate::lent::Lent;
use crate::rules;
use crate::tally::{Dim, Tally};
use crate::words;

/// What a lent slice has to hold after the call.
pub enum After {
    /// What it held before.
    Unchanged,
    /// These bytes.
    Bytes(Vec<u8>),
    /// These doubles; any NaN is equal to any NaN, but has to be written in the one pattern.
    Values(Vec<u64>),
    /// These doubles, of a slice that the call reads too: here a NaN may also stay as it was lent.
    Kept(Vec<u64>),
    /// Its first words are these doubles, and what comes after them is as before. A NaN may stay as it was lent.
    Begun(Vec<u64>),
}

impl After {
    fn values(&self) -> Option<&[u64]> {
        match self {
            After::Values(values) | After::Kept(values) | After::Begun(values) => Some(values),
            After::Unchanged | After::Bytes(_) => None,
        }
    }
}

/// What has to come of a case.
pub struct Expected {
    pub number: u32,
    pub row: u32,
    pub besides: Besides,
    /// How a solve ends, to be counted.
    pub end: Option<&'static str>,
    /// For each lent slice, in the order in which they are lent.
    pub after: Vec<After>,
}

impl Expected {
    /// A refusal after which no lent word has changed.
    pub fn refused(number: u32, slices: usize) -> Expected {
        assert!(rules::UNCHANGED.contains(&number));
        Expected {
            number,
            row: 0,
            besides: Besides::Nothing,
            end: None,
            after: (0..slices).map(|_| After::Unchanged).collect(),
        }
    }
}

/// A number that a call is given by value.
pub enum Given {
    Count(u64),
    Value(u64),
}

/// A call that was made.
pub struct Case<'a> {
    pub call: &'static str,
    pub dim: Dim,
    /// The numbers that it was given, by name.
    pub given: &'a [(&'static str, Given)],
    /// Every slice that it was lent, as it is after the call.
    pub lent: &'a [Lent],
}

/// Counts the case, and reports it if it differs from what was expected.
pub fn judge(case: &Case, expected: &Expected, got: Answered, tally: &mut Tally) {
    assert_eq!(case.lent.len(), expected.after.len());
    tally.answered(case.call, case.dim, got.number, 1);
    for words in expected.after.iter().filter_map(After::values) {
        count_words(case, words, tally);
    }
    if expected.number == rules::DONE {
        count_words(case, &expected.besides.values(), tally);
    }
    if let Some(end) = expected.end {
        tally.ended(case.call, case.dim, end, 1);
    }
    if let Some(fault) = fault(case, expected, got) {
        tally.differs(case.call, case.dim, || show(&fault, case, expected, got));
    }
}

fn count_words(case: &Case, words: &[u64], tally: &mut Tally) {
    let nans = words.iter().filter(|&&word| words::is_nan(word)).count();
    tally.compared(case.call, case.dim, words.len() as u64, nans as u64);
}

/// What is wrong, if anything is.
fn fault(case: &Case, expected: &Expected, got: Answered) -> Option<String> {
    if (got.number, got.row) != (expected.number, expected.row) {
        return Some("another answer".to_string());
    }
    match (expected.besides, got.besides) {
        (right, besides) if right == besides => (),
        (Besides::Sum(_), _) => return Some("another sum".to_string()),
        _ => return Some("another count, verdict or last number".to_string()),
    }
    let mut slices = case.lent.iter().zip(&expected.after);
    slices.find_map(|(lent, after)| slice_fault(lent, after))
}

fn slice_fault(lent: &Lent, after: &After) -> Option<String> {
    let name = lent.name();
    if !lent.guards_unchanged() {
        return Some(format!("bytes beside {name} were changed"));
    }
    match after {
        After::Unchanged if lent.unchanged() => None,
        After::Unchanged => Some(format!("{name} was changed")),
        After::Bytes(bytes) if lent.bytes() == bytes => None,
        After::Bytes(_) => Some(format!("{name} has other bytes")),
        After::Values(expected) => values_fault(lent, lent.len(), expected, false),
        After::Kept(expected) => values_fault(lent, lent.len(), expected, true),
        After::Begun(expected) => begun_fault(lent, expected),
    }
}

fn begun_fault(lent: &Lent, expected: &[u64]) -> Option<String> {
    let (count, name) = (expected.len(), lent.name());
    if lent.len() < 8 * count {
        return Some(format!("{name} has no room for {count} words"));
    }
    if lent.bytes()[8 * count..] != lent.entry()[8 * count..] {
        return Some(format!("{name} was changed past its {count} words"));
    }
    values_fault(lent, 8 * count, expected, true)
}

/// Of so many bytes from the first; `kept` says whether a NaN may stay as it was lent.
fn values_fault(lent: &Lent, bytes: usize, expected: &[u64], kept: bool) -> Option<String> {
    let name = lent.name();
    let [entry, got] = [lent.entry(), lent.bytes()].map(|slice| words::words_in(&slice[..bytes]));
    if expected.len() != got.len() {
        return Some(format!("{name} has another length"));
    }
    for (at, (&expected, &got)) in expected.iter().zip(&got).enumerate() {
        if !words::agree(expected, got) {
            return Some(format!("another word at place {at} of {name}"));
        }
        if words::is_nan(got) && got != words::NAN && !(kept && got == entry[at]) {
            let right = words::NAN;
            return Some(format!(
                "a NaN not written as {right:016X} at place {at} of {name}"
            ));
        }
    }
    None
}

fn show(fault: &str, case: &Case, expected: &Expected, got: Answered) -> String {
    let mut lines = vec![fault.to_string()];
    for (name, given) in case.given {
        lines.push(match given {
            Given::Count(count) => format!("given {name}: {count}"),
            Given::Value(word) => format!("given {name}: {}", words::show_words(&[*word])),
        });
    }
    for lent in case.lent {
        let entry = lent.show(lent.entry());
        lines.push(format!("lent {}: {entry}", lent.name()));
    }
    let right = show_answer(expected.number, expected.row, expected.besides);
    lines.push(format!("expected: {right}"));
    let answered = show_answer(got.number, got.row, got.besides);
    lines.push(format!("got:      {answered}"));
    for (lent, after) in case.lent.iter().zip(&expected.after) {
        if !matches!(after, After::Unchanged) || !lent.unchanged() {
            let name = lent.name();
            lines.push(format!("expected {name}: {}", show_after(lent, after)));
            let got = lent.show(lent.bytes());
            lines.push(format!("got      {name}: {got}"));
        }
    }
    format!("  {}\n", lines.join("\n  "))
}

fn show_answer(number: u32, row: u32, besides: Besides) -> String {
    format!("number {number}, row {row}{}", besides.show())
}

fn show_after(lent: &Lent, after: &After) -> String {
    match after {
        After::Unchanged => lent.show(lent.entry()),
        After::Bytes(bytes) => lent.show(bytes),
        After::Values(values) | After::Kept(values) => lent.show(&words::bytes_of(values)),
        After::Begun(values) => {
            let mut bytes = words::bytes_of(values);
            bytes.extend(lent.entry().iter().skip(8 * values.len()));
            lent.show(&bytes)
        }
    }
}
