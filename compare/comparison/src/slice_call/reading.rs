// A call on lent slices with what it is given, as the rules and the original read it: numbers and slices by name.
// Lengths are measured here, by what document 01 says of each slice.

use super::{Given, SliceCall};
use crate::rules::{self, Counts, Measured};
use crate::words::{self, Element};

pub struct Reading<'a> {
    call: &'a SliceCall,
    given: &'a Given,
}

impl SliceCall {
    pub fn reading<'a>(&'a self, given: &'a Given) -> Reading<'a> {
        Reading { call: self, given }
    }
}

impl Reading<'_> {
    /// The call's name.
    pub fn name(&self) -> &'static str {
        self.call.name
    }

    pub fn dim(&self) -> u32 {
        self.given.dim
    }

    pub fn count(&self, name: &str) -> u32 {
        self.given.count(self.number_at(name))
    }

    pub fn number(&self, name: &str) -> f64 {
        self.given.number(self.number_at(name))
    }

    fn number_at(&self, name: &str) -> usize {
        let mut names = self.call.number_names();
        names.position(|other| other == name).expect("a number")
    }

    fn has_number(&self, name: &str) -> bool {
        self.call.number_names().any(|other| other == name)
    }

    fn has_slice(&self, name: &str) -> bool {
        self.call.slices().any(|slice| slice.name == name)
    }

    pub fn bytes(&self, name: &str) -> &[u8] {
        let at = self.call.slices().position(|slice| slice.name == name);
        &self.given.slices[at.expect("a slice of this call")]
    }

    /// The whole words of a slice of indexes.
    pub fn indexes(&self, name: &str) -> Vec<u32> {
        let words = self.bytes(name).as_chunks::<4>().0.iter();
        words.map(|word| u32::from_le_bytes(*word)).collect()
    }

    /// The same as the original has them.
    pub fn wide(&self, name: &str) -> Vec<usize> {
        let indexes = self.indexes(name).into_iter();
        indexes.map(|index| index as usize).collect()
    }

    /// The whole words of a slice of values, in groups of L.
    pub fn values<const L: usize>(&self, name: &str) -> Vec<[f64; L]> {
        let values = words::values_of(&Element::Value.words_in(self.bytes(name)));
        values.as_chunks().0.to_vec()
    }

    /// The whole words of a slice of flags, in groups of N.
    pub fn flags<const N: usize>(&self, name: &str) -> Vec<[i32; N]> {
        let words = self.indexes(name).into_iter();
        let flags: Vec<i32> = words.map(|word| word as i32).collect();
        flags.as_chunks().0.to_vec()
    }

    /// How many indexes a slice has; 0 if the call has no such slice.
    fn length(&self, name: &str) -> usize {
        if self.has_slice(name) {
            self.bytes(name).len() / 4
        } else {
            0
        }
    }

    /// n is given, or one less than the offsets of the pattern that is read: `starts` if there is another one too.
    fn rows(&self) -> usize {
        if self.has_number("n") {
            return self.count("n") as usize;
        }
        let read = if self.has_slice("starts") {
            "starts"
        } else {
            "offsets"
        };
        self.length(read).saturating_sub(1)
    }

    /// The limit of a solver's steps; 0 if the call is none.
    fn limit(&self) -> u32 {
        if self.has_number("limit") {
            self.count("limit")
        } else {
            0
        }
    }

    /// How many entries there is room for.
    pub fn room(&self) -> usize {
        self.length("columns")
    }

    /// What lengths are worked out from. An element's nodes are counted in its first list.
    fn counts(&self) -> Counts {
        Counts {
            dim: self.dim(),
            rows: self.rows(),
            entries: self.length("columns"),
            entries_of_a: self.length("entries"),
            nodes: self.length("nodes") + self.length("rows"),
            limit: self.limit(),
        }
    }

    pub fn is_misshapen(&self) -> bool {
        let slices = self.call.slices().zip(&self.given.slices);
        let measured: Vec<Measured> = slices
            .map(|(slice, bytes)| Measured {
                bytes: bytes.len(),
                word: slice.element.bytes(),
                length: slice.length,
            })
            .collect();
        rules::is_misshapen(&self.counts(), &measured)
    }
}
