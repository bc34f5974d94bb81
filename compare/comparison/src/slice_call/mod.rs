// The form that calls on several lent slices share, of values, indexes, flags and levels: what such a call takes,
// what it is given, and what the original makes of it. How it is compared and listed is in the modules below.

mod comparing;
mod listing;
mod reading;

pub use comparing::resize;
pub use listing::{about, input_words, replay};
pub use reading::Reading;

use crate::answered::{Answered, Besides};
use crate::lent::Lent;
use crate::random::Random;
use crate::rules::{self, Counts, Length};
use crate::typed::Typed;
use crate::values::{self, Kind};
use crate::words::{self, Element};

pub struct SliceCall {
    pub name: &'static str,
    /// Whether it is given N, before all else.
    pub has_dim: bool,
    pub takes: &'static [Take],
    /// What it answers besides its number and row, as it is after a refusal.
    pub besides: Besides,
    /// The answers that can occur at each N.
    pub answers: &'static [u32],
    /// What document 01 refuses the input by, or 0.
    pub refusal: fn(&Reading) -> u32,
    /// What the original makes of it; asked if it is not refused.
    pub oracle: fn(&Reading) -> Worked,
    /// Whether the original has to panic on an input that is refused by this number.
    pub panics: fn(&Reading, u32) -> bool,
    pub port: fn(&Given, &mut [Lent]) -> Answered,
    pub typed: &'static [TypedCall],
}

/// What a call takes after N, in the order of its declaration.
pub enum Take {
    /// A count by value.
    Count(&'static str),
    /// A double by value.
    Number(&'static str),
    Slice(Slice),
}

pub struct Slice {
    pub name: &'static str,
    pub element: Element,
    pub length: Length,
    pub access: Access,
}

/// What a call does with a lent slice.
#[derive(Clone, Copy, PartialEq, Eq)]
pub enum Access {
    Read,
    /// Reads it and writes it.
    Change,
    /// Only writes it.
    Write,
    /// Writes its first words, as many as the input makes; what comes after them stays.
    Begin,
}

const fn lend(name: &'static str, element: Element, length: Length, access: Access) -> Take {
    Take::Slice(Slice {
        name,
        element,
        length,
        access,
    })
}

pub const fn read(name: &'static str, element: Element, length: Length) -> Take {
    lend(name, element, length, Access::Read)
}

pub const fn change(name: &'static str, element: Element, length: Length) -> Take {
    lend(name, element, length, Access::Change)
}

pub const fn write(name: &'static str, element: Element, length: Length) -> Take {
    lend(name, element, length, Access::Write)
}

pub const fn begin(name: &'static str, element: Element, length: Length) -> Take {
    lend(name, element, length, Access::Begin)
}

/// A timed entry point that does what the call does, on slices of numbers.
pub struct TypedCall {
    pub name: &'static str,
    /// The answers that can occur at each N. If it does not check its input, it is called with accepted input
    /// only, and 0 is the only one.
    pub answers: &'static [u32],
    pub port: fn(&Given, &mut [Typed]) -> Answered,
}

impl TypedCall {
    fn is_checked(&self) -> bool {
        self.answers != UNCHECKED
    }
}

/// The answers of an entry point that does not check.
pub const UNCHECKED: &[u32] = &[rules::DONE];

/// All slices that a call is lent, to be named one by one.
pub fn every<T, const L: usize>(slices: &mut [T]) -> &mut [T; L] {
    slices.try_into().expect("as many slices as the call takes")
}

/// What a call is given: N, the numbers by value in order, and the bytes of its slices in order.
#[derive(Clone)]
pub struct Given {
    pub dim: u32,
    pub numbers: Vec<u64>,
    pub slices: Vec<Vec<u8>>,
}

impl Given {
    pub fn count(&self, at: usize) -> u32 {
        self.numbers[at] as u32
    }

    pub fn number(&self, at: usize) -> f64 {
        f64::from_bits(self.numbers[at])
    }
}

/// What the original makes of an accepted input.
pub struct Worked {
    /// The words of each slice that the call writes, in order: of one that it begins, those that it writes.
    pub written: Vec<Vec<u64>>,
    pub besides: Besides,
    /// How a solve ends, to be counted.
    pub end: Option<&'static str>,
    /// The row at which it stopped, since its pivot cannot be inverted; the words are those of that moment.
    pub singular: Option<u32>,
}

impl Worked {
    /// Slices of doubles in groups, as the original has them.
    pub fn values<const L: usize>(slices: &[&[[f64; L]]]) -> Worked {
        let words = |slice: &&[[f64; L]]| words::words_of(slice.as_flattened());
        Worked {
            written: slices.iter().map(words).collect(),
            ..Worked::default()
        }
    }

    pub fn sum(sum: f64) -> Worked {
        Worked {
            besides: Besides::Sum(words::word_of(sum)),
            ..Worked::default()
        }
    }

    /// The number that the call answers, and its row.
    fn answer(&self) -> (u32, u32) {
        match self.singular {
            Some(row) => (rules::SINGULAR, row),
            None => (rules::DONE, 0),
        }
    }
}

impl Default for Worked {
    fn default() -> Worked {
        Worked {
            written: Vec::new(),
            besides: Besides::Nothing,
            end: None,
            singular: None,
        }
    }
}

/// Makes an oracle of a function over N and N*N.
#[macro_export]
macro_rules! original_by_dim {
    ($work:ident) => {
        |reading| match reading.dim() {
            1 => $work::<1, 1>(reading),
            2 => $work::<2, 4>(reading),
            3 => $work::<3, 9>(reading),
            _ => unreachable!("the rules let only 1, 2 and 3 by"),
        }
    };
}

/// The values that inputs are made of.
#[derive(Clone, Copy)]
pub enum Fill {
    Mixed,
    Of(Kind),
}

impl Fill {
    /// Mixed values, or all of one finite kind: mixed values in many slices at once make many sums a NaN.
    pub fn any(random: &mut Random) -> Fill {
        match random.below(4) {
            0 => Fill::Of(*random.pick(&values::FINITE)),
            1 => Fill::Of(Kind::Ordinary),
            _ => Fill::Mixed,
        }
    }

    /// A third of all kinds, so that the fixed list has every kind at some N.
    pub fn listed(dim: u32) -> impl Iterator<Item = Fill> {
        let kinds = values::KINDS.into_iter().enumerate();
        let kinds = kinds.filter(move |(at, _)| at % 3 == dim as usize % 3);
        kinds.map(|(_, kind)| Fill::Of(kind))
    }

    fn values(self, count: usize, random: &mut Random) -> Vec<u64> {
        match self {
            Fill::Mixed => values::mixed(count, random),
            Fill::Of(kind) => values::of_kind(kind, count, random),
        }
    }

    fn factor(self, random: &mut Random) -> u64 {
        match self {
            Fill::Mixed => values::factor(random),
            Fill::Of(kind) => values::word(kind, random),
        }
    }
}

/// Slices of indexes, by name.
pub type Indexes<'a> = [(&'static str, &'a [u32])];

impl SliceCall {
    pub fn slices(&self) -> impl Iterator<Item = &'static Slice> {
        self.takes.iter().filter_map(|take| match take {
            Take::Slice(slice) => Some(slice),
            _ => None,
        })
    }

    fn number_names(&self) -> impl Iterator<Item = &'static str> {
        self.takes.iter().filter_map(|take| match take {
            Take::Count(name) | Take::Number(name) => Some(*name),
            Take::Slice(_) => None,
        })
    }

    /// The N that the call is compared at: once, written as 1, if it is not given N.
    pub fn dims(&self) -> &'static [u32] {
        if self.has_dim {
            &[1, 2, 3]
        } else {
            &[1]
        }
    }

    /// Gives a number by value this word.
    pub fn put_number(&self, given: &mut Given, name: &str, word: u64) {
        let at = self.number_names().position(|other| other == name);
        given.numbers[at.expect("a number of this call")] = word;
    }

    /// Gives a slice of values these words.
    pub fn put(&self, given: &mut Given, name: &str, words: &[u64]) {
        let at = self.slices().position(|slice| slice.name == name);
        given.slices[at.expect("a slice of this call")] = words::bytes_of(words);
    }

    /// What has right lengths for these counts: values and flags, these indexes, any bits where the call
    /// only writes.
    pub fn given(
        &self,
        counts: &Counts,
        indexes: &Indexes,
        fill: Fill,
        random: &mut Random,
    ) -> Given {
        let mut given = Given {
            dim: counts.dim,
            numbers: Vec::new(),
            slices: Vec::new(),
        };
        for take in self.takes {
            match take {
                Take::Count("limit") => given.numbers.push(u64::from(counts.limit)),
                Take::Count(_) => given.numbers.push(counts.rows as u64),
                Take::Number(_) => given.numbers.push(fill.factor(random)),
                Take::Slice(slice) => {
                    let words = slice.words(counts, indexes, fill, random);
                    given.slices.push(slice.element.bytes_of(&words));
                }
            }
        }
        given
    }
}

impl Slice {
    fn words(
        &self,
        counts: &Counts,
        indexes: &Indexes,
        fill: Fill,
        random: &mut Random,
    ) -> Vec<u64> {
        if self.element == Element::Index && self.access != Access::Write {
            let named = indexes.iter().find(|(name, _)| *name == self.name);
            let (_, indexes) = named.expect("every slice of indexes that is read is given");
            return indexes.iter().map(|&index| u64::from(index)).collect();
        }
        let right = self.length.right(counts).expect("a length by the counts");
        let mut count = right.min(MOST_WORDS) as usize;
        if self.length == Length::RowsOrMore && random.flip() {
            count += random.below(3 * counts.dim as usize + 1);
        }
        match (self.element, self.access) {
            (Element::Flag, _) => values::flags(count, random),
            (Element::Value, Access::Write) => (0..count).map(|_| random.bits()).collect(),
            (Element::Value, Access::Begin) => values::mixed(count, random),
            (_, Access::Write) => dirt(count, random),
            _ => fill.values(count, random),
        }
    }
}

/// No slice is made longer than that; only a history for a limit that is refused would be.
const MOST_WORDS: u128 = 1 << 20;

/// What indexes and levels hold before they are written: any bits, or small numbers, which the call might take
/// for its own.
fn dirt(count: usize, random: &mut Random) -> Vec<u64> {
    let limit = *random.pick(&[2, 8, 1 << 32]);
    (0..count).map(|_| random.below(limit) as u64).collect()
}
