// A slice of bytes as it is lent to the port: at any alignment, between guard bytes, with what it held
// before kept apart. So a byte that changes, inside or outside, is found.

use std::hint::black_box;

use crate::random::Random;
use crate::words::{self, Element};

/// Guard bytes on each side, and up to 7 more before for the alignment.
const GUARD: usize = 16;

pub struct Lent {
    name: &'static str,
    element: Element,
    whole: Vec<u8>,
    before: Vec<u8>,
    from: usize,
    length: usize,
}

impl Lent {
    pub fn new(name: &'static str, element: Element, bytes: &[u8], random: &mut Random) -> Lent {
        let from = GUARD + random.below(8);
        let length = bytes.len();
        let mut whole = vec![0; from + length + GUARD];
        random.fill(&mut whole);
        whole[from..from + length].copy_from_slice(bytes);
        let before = whole.clone();
        Lent {
            name,
            element,
            whole,
            before,
            from,
            length,
        }
    }

    /// A slice that was lent as something else than bytes: the bytes of it and of its guards, before and after.
    pub fn returned(
        name: &'static str,
        element: Element,
        before: Vec<u8>,
        after: Vec<u8>,
        guard: usize,
    ) -> Lent {
        assert_eq!(before.len(), after.len());
        Lent {
            name,
            element,
            from: guard,
            length: before.len() - 2 * guard,
            whole: after,
            before,
        }
    }

    /// Bytes of values that hold anything, as those of an output do before the call.
    pub fn dirty(name: &'static str, length: usize, random: &mut Random) -> Lent {
        let mut bytes = vec![0; length];
        random.fill(&mut bytes);
        Lent::new(name, Element::Value, &bytes, random)
    }

    pub fn name(&self) -> &'static str {
        self.name
    }

    /// Bytes as words of this slice, for a message.
    pub fn show(&self, bytes: &[u8]) -> String {
        words::show_bytes(self.element, bytes)
    }

    pub fn len(&self) -> usize {
        self.length
    }

    pub fn is_empty(&self) -> bool {
        self.length == 0
    }

    pub fn bytes(&self) -> &[u8] {
        // The port may have written where it was lent to read only: do not let the reader assume not.
        &black_box(&self.whole)[self.from..self.from + self.length]
    }

    pub fn bytes_mut(&mut self) -> &mut [u8] {
        &mut self.whole[self.from..self.from + self.length]
    }

    /// What the slice held when it was lent.
    pub fn entry(&self) -> &[u8] {
        &self.before[self.from..self.from + self.length]
    }

    pub fn unchanged(&self) -> bool {
        black_box(&self.whole) == &self.before
    }

    /// Whether nothing beside the slice has changed.
    pub fn guards_unchanged(&self) -> bool {
        let end = self.from + self.length;
        let whole = black_box(&self.whole);
        whole[..self.from] == self.before[..self.from] && whole[end..] == self.before[end..]
    }
}
