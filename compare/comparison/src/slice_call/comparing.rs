// How a call on lent slices is compared: the rules say first whether the original is asked, the port is called,
// and its timed entry points go along on the same input.

use super::{Access, Given, Slice, SliceCall, Take, TypedCall, Worked};
use crate::answered::Answered;
use crate::judge::{judge, After, Case, Expected, Given as Shown};
use crate::lent::Lent;
use crate::panics::answer_of_original;
use crate::random::Random;
use crate::rules;
use crate::tally::{Dim, Tally};
use crate::typed::Typed;
use crate::words::Element;

/// Values of `dim` that are none of 1, 2, 3; and those of them that slices of their own lengths are tried at.
const OTHER_DIMS: [u32; 4] = [0, 4, 7, u32::MAX];
const OWN_LENGTHS: [u32; 3] = [0, 4, 7];

impl SliceCall {
    fn label(&self, dim: u32) -> Dim {
        if self.has_dim {
            Dim::of(dim)
        } else {
            Dim::None
        }
    }

    /// Says which answers can occur, of the call and of its timed entry points.
    pub fn can_answer(&self, tally: &mut Tally) {
        for &dim in self.dims() {
            tally.can_answer(self.name, self.label(dim), self.answers);
            for typed in self.typed {
                tally.can_answer(typed.name, self.label(dim), typed.answers);
            }
        }
        if self.has_dim {
            let checked = self.typed.iter().filter(|typed| typed.is_checked());
            let names = [self.name].into_iter();
            let asked = [rules::SIZE, rules::LIMIT, rules::SHAPE].into_iter();
            let asked: Vec<u32> = asked.filter(|no| self.answers.contains(no)).collect();
            for name in names.chain(checked.map(|typed| typed.name)) {
                tally.can_answer(name, Dim::Other, &asked);
            }
        }
    }

    /// One call of the port, and of its timed entry points, held to what the rules and the original say.
    pub fn try_given(&self, given: &Given, random: &mut Random, tally: &mut Tally) {
        let Some(expected) = self.expect(given, tally) else {
            return;
        };
        let mut lent = self.lend(given, random);
        let got = (self.port)(given, &mut lent);
        self.judge(self.name, given, &lent, &expected, got, tally);
        for typed in self.typed {
            if self.fits(typed, given, &expected) {
                let mut lent = self.lend_typed(given, random);
                let got = (typed.port)(given, &mut lent);
                let lent: Vec<Lent> = lent.into_iter().map(Typed::into_lent).collect();
                self.judge(typed.name, given, &lent, &expected, got, tally);
            }
        }
    }

    pub(super) fn lend(&self, given: &Given, random: &mut Random) -> Vec<Lent> {
        let slices = self.slices().zip(&given.slices);
        slices
            .map(|(slice, bytes)| Lent::new(slice.name, slice.element, bytes, random))
            .collect()
    }

    fn lend_typed(&self, given: &Given, random: &mut Random) -> Vec<Typed> {
        let slices = self.slices().zip(&given.slices);
        slices
            .map(|(slice, bytes)| Typed::new(slice.name, slice.element, bytes, random))
            .collect()
    }

    /// Whether a timed entry point can be given this: whole words, and accepted if it does not check.
    fn fits(&self, typed: &TypedCall, given: &Given, expected: &Expected) -> bool {
        let mut slices = self.slices().zip(&given.slices);
        slices.all(|(slice, bytes)| bytes.len().is_multiple_of(slice.element.bytes()))
            && (typed.is_checked() || expected.number == rules::DONE)
    }

    fn judge(
        &self,
        name: &'static str,
        given: &Given,
        lent: &[Lent],
        expected: &Expected,
        got: Answered,
        tally: &mut Tally,
    ) {
        let case = Case {
            call: name,
            dim: self.label(given.dim),
            given: &self.shown(given),
            lent,
        };
        judge(&case, expected, got, tally);
    }

    /// The numbers by value, for a message.
    fn shown(&self, given: &Given) -> Vec<(&'static str, Shown)> {
        let mut shown = Vec::new();
        if self.has_dim {
            shown.push(("dim", Shown::Count(u64::from(given.dim))));
        }
        let mut numbers = given.numbers.iter().copied();
        for take in self.takes {
            match take {
                Take::Count(name) => shown.extend(numbers.next().map(|n| (*name, Shown::Count(n)))),
                Take::Number(name) => {
                    shown.extend(numbers.next().map(|n| (*name, Shown::Value(n))))
                }
                Take::Slice(_) => (),
            }
        }
        shown
    }

    /// What has to come of it; None, and a difference, if the original and the rules do not go together.
    fn expect(&self, given: &Given, tally: &mut Tally) -> Option<Expected> {
        let reading = self.reading(given);
        let number = (self.refusal)(&reading);
        let asked = number == rules::DONE || (self.panics)(&reading, number);
        let worked = asked.then(|| answer_of_original(|| (self.oracle)(&reading)));
        match worked.flatten() {
            Some(worked) if number == rules::DONE => Some(self.worked(worked)),
            None if number != rules::DONE => Some(self.refused(number, given)),
            worked => {
                let lengths: Vec<usize> = given.slices.iter().map(Vec::len).collect();
                tally.differs(self.name, self.label(given.dim), || {
                    let panics = worked.is_none();
                    format!("  the rules answer {number}, the original panics: {panics}\n  slices of {lengths:?} bytes\n")
                });
                None
            }
        }
    }

    fn refused(&self, number: u32, given: &Given) -> Expected {
        let besides = self.besides;
        if !rules::CLEARED.contains(&number) {
            return Expected {
                besides,
                ..Expected::refused(number, self.slices().count())
            };
        }
        let slices = self.slices().zip(&given.slices);
        let after = slices.map(|(slice, bytes)| match slice.access {
            Access::Read => After::Unchanged,
            _ => After::Bytes(vec![0; bytes.len()]),
        });
        Expected {
            number,
            row: 0,
            after: after.collect(),
            besides,
            end: None,
        }
    }

    /// Done, or stopped at a row by 9.
    fn worked(&self, worked: Worked) -> Expected {
        let (number, row) = worked.answer();
        let mut written = worked.written.into_iter();
        let after = self.slices().map(|slice| match slice.access {
            Access::Read => After::Unchanged,
            _ => slice.after(written.next().expect("words of every written slice")),
        });
        Expected {
            number,
            row,
            after: after.collect(),
            besides: worked.besides,
            end: worked.end,
        }
    }

    /// Each slice in turn a byte and a word short and long, empty, and twice as long, the others as they are.
    pub fn try_lengths(&self, given: &Given, random: &mut Random, tally: &mut Tally) {
        for (at, slice) in self.slices().enumerate() {
            let (length, word) = (given.slices[at].len(), slice.element.bytes());
            let short = [1, word].map(|less| length.saturating_sub(less));
            let long = [length + 1, length + word, 2 * length];
            for wrong in [0].into_iter().chain(short).chain(long) {
                let mut given = given.clone();
                resize(&mut given.slices[at], wrong, random);
                self.try_given(&given, random, tally);
            }
        }
    }

    /// Some slices a little longer or shorter, each by itself.
    pub fn try_some_lengths(&self, given: &Given, random: &mut Random, tally: &mut Tally) {
        let mut given = given.clone();
        for (slice, bytes) in self.slices().zip(&mut given.slices) {
            let word = slice.element.bytes();
            let change = *random.pick(&[1, 2, word, word + 1, 2 * word]);
            match random.below(6) {
                0 => resize(bytes, bytes.len() + change, random),
                1 => resize(bytes, bytes.len().saturating_sub(change), random),
                _ => (),
            }
        }
        self.try_given(&given, random, tally);
    }

    /// At every `dim` that is none, with the lengths that it would have itself.
    pub fn try_own_lengths(
        &self,
        random: &mut Random,
        tally: &mut Tally,
        given_at: impl Fn(u32, &mut Random) -> Given,
    ) {
        if self.has_dim {
            for dim in OWN_LENGTHS {
                let given = given_at(dim, random);
                self.try_given(&given, random, tally);
            }
        }
    }

    /// The same at every `dim` that is none.
    pub fn try_other_dims(&self, given: &Given, random: &mut Random, tally: &mut Tally) {
        if self.has_dim {
            for dim in OTHER_DIMS {
                let given = Given {
                    dim,
                    ..given.clone()
                };
                self.try_given(&given, random, tally);
            }
        }
    }
}

impl Slice {
    /// What the slice has to hold if these are its words.
    fn after(&self, words: Vec<u64>) -> After {
        match (self.access, self.element) {
            (Access::Write, Element::Value) => After::Values(words),
            (Access::Begin, Element::Value) => After::Begun(words),
            (_, Element::Value) => After::Kept(words),
            (_, element) => After::Bytes(element.bytes_of(&words)),
        }
    }
}

/// Bytes cut off, or any bytes added.
pub fn resize(bytes: &mut Vec<u8>, length: usize, random: &mut Random) {
    let kept = bytes.len().min(length);
    bytes.resize(length, 0);
    random.fill(&mut bytes[kept..]);
}
