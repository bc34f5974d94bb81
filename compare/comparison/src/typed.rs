// Slices of doubles, indexes, flags and levels as they are lent to the timed entry points, between guard words.
// After the call they become bytes again, so that they are judged as the slices of other calls are.

use std::hint::black_box;

use crate::lent::Lent;
use crate::random::Random;
use crate::words::{self, Element};

/// Guard words on each side.
const GUARD: usize = 4;

pub struct Typed {
    name: &'static str,
    words: Words,
    /// The bytes of all words, guards too, when they were lent.
    before: Vec<u8>,
}

enum Words {
    Values(Vec<f64>),
    Indexes(Vec<u32>),
    Flags(Vec<i32>),
    Levels(Vec<u16>),
}

/// What stands between the guards.
fn inside<T>(words: &[T]) -> &[T] {
    &words[GUARD..words.len() - GUARD]
}

fn inside_mut<T>(words: &mut [T]) -> &mut [T] {
    let end = words.len() - GUARD;
    &mut words[GUARD..end]
}

impl Typed {
    /// Of bytes that are whole words.
    pub fn new(name: &'static str, element: Element, bytes: &[u8], random: &mut Random) -> Typed {
        let guard = GUARD * element.bytes();
        let mut before = vec![0; guard + bytes.len() + guard];
        random.fill(&mut before);
        before[guard..guard + bytes.len()].copy_from_slice(bytes);
        let words = element.words_in(&before).into_iter();
        let words = match element {
            Element::Value => Words::Values(words.map(f64::from_bits).collect()),
            Element::Index => Words::Indexes(words.map(|word| word as u32).collect()),
            Element::Flag => Words::Flags(words.map(|word| word as u32 as i32).collect()),
            Element::Level => Words::Levels(words.map(|word| word as u16).collect()),
        };
        Typed {
            name,
            words,
            before,
        }
    }

    pub fn values(&self) -> &[f64] {
        match &self.words {
            Words::Values(values) => inside(values),
            _ => panic!("{} is no slice of values", self.name),
        }
    }

    pub fn values_mut(&mut self) -> &mut [f64] {
        match &mut self.words {
            Words::Values(values) => inside_mut(values),
            _ => panic!("{} is no slice of values", self.name),
        }
    }

    pub fn indexes(&self) -> &[u32] {
        match &self.words {
            Words::Indexes(indexes) => inside(indexes),
            _ => panic!("{} is no slice of indexes", self.name),
        }
    }

    pub fn indexes_mut(&mut self) -> &mut [u32] {
        match &mut self.words {
            Words::Indexes(indexes) => inside_mut(indexes),
            _ => panic!("{} is no slice of indexes", self.name),
        }
    }

    pub fn levels_mut(&mut self) -> &mut [u16] {
        match &mut self.words {
            Words::Levels(levels) => inside_mut(levels),
            _ => panic!("{} is no slice of levels", self.name),
        }
    }

    pub fn flags(&self) -> &[i32] {
        match &self.words {
            Words::Flags(flags) => inside(flags),
            _ => panic!("{} is no slice of flags", self.name),
        }
    }

    fn element(&self) -> Element {
        match self.words {
            Words::Values(_) => Element::Value,
            Words::Indexes(_) => Element::Index,
            Words::Flags(_) => Element::Flag,
            Words::Levels(_) => Element::Level,
        }
    }

    /// The words after the call. A NaN that is new has whatever pattern; the judge wants the one pattern.
    fn words_after(&self) -> Vec<u64> {
        let before = self.element().words_in(&self.before);
        let one_nan = |(value, before): (&f64, u64)| match value.to_bits() {
            kept if kept == before => kept,
            _ => words::word_of(*value),
        };
        // As with bytes: the port may have written where it was lent to read only.
        match black_box(&self.words) {
            Words::Values(values) => values.iter().zip(before).map(one_nan).collect(),
            Words::Indexes(indexes) => indexes.iter().map(|&index| u64::from(index)).collect(),
            Words::Flags(flags) => flags.iter().map(|&flag| u64::from(flag as u32)).collect(),
            Words::Levels(levels) => levels.iter().map(|&level| u64::from(level)).collect(),
        }
    }

    pub fn into_lent(self) -> Lent {
        let element = self.element();
        let after = element.bytes_of(&self.words_after());
        let guard = GUARD * element.bytes();
        Lent::returned(self.name, element, self.before, after, guard)
    }
}
