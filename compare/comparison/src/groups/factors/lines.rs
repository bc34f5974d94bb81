// Lines of the fixed list for the calls on a factor: small factors with every kind of value and pivot, document
// 01's cases 8 and 9, and every refusal, alone and with others.

use super::{Patterns, CALLS, COPY_VALUE, DECOMPOSE, SOLVE};
use crate::factored::{self, Factor, Pivot, Way, Words, WAYS};
use crate::list::{is_short, Line};
use crate::random::Random;
use crate::slice_call::{resize, Fill, Given, SliceCall};
use crate::sparse::{self, Damage, Sparse, OFFSET_DAMAGES};
use crate::words;

pub fn sample(seed: u64) -> Vec<Line> {
    CALLS.iter().flat_map(|call| lines(call, seed)).collect()
}

fn lines(call: &SliceCall, seed: u64) -> Vec<Line> {
    let random = &mut Random::named(seed, call.name);
    let mut listing = Listing {
        call,
        dim: 0,
        random,
        lines: Vec::new(),
    };
    for &dim in call.dims() {
        listing.dim = dim;
        listing.push_values();
        listing.push_cases();
        if call.name != COPY_VALUE.name {
            listing.push_pivots();
        }
        listing.push_sizes();
        listing.push_lengths();
        listing.push_patterns();
        listing.push_splits();
        if call.name == COPY_VALUE.name {
            listing.push_places();
        }
    }
    listing.lines
}

struct Listing<'a> {
    call: &'a SliceCall,
    dim: u32,
    random: &'a mut Random,
    lines: Vec<Line>,
}

impl Listing<'_> {
    /// Takes the line if it is short enough, and says so.
    fn push(&mut self, given: &Given) -> bool {
        let line = self.call.line(given);
        let short = is_short(&line);
        if short {
            self.lines.push(line);
        }
        short
    }

    fn given(&mut self, patterns: &Patterns, fill: Fill) -> Given {
        patterns.given(self.call, self.dim, fill, self.random)
    }

    fn push_mixed(&mut self, patterns: &Patterns) {
        let given = self.given(patterns, Fill::Mixed);
        self.push(&given);
    }

    /// Patterns of two or three rows for which a line of this call at this N has room.
    fn base(&self) -> Patterns {
        match (self.call.name, self.dim) {
            ("copy_value", 3) => Patterns::filled(one_entry(), Way::Full),
            ("copy_value", 2) => Patterns::alike(sparse::chain(2)),
            (_, 3) => Patterns::alike(sparse::chain(2)),
            _ => Patterns::filled(sparse::arrow(3, 0), Way::Iluk(1)),
        }
    }

    /// Small factors of every way, with a third of all kinds of values at each N, and mixed ones.
    fn push_values(&mut self) {
        let most = if self.dim == 1 { 4 } else { 3 };
        for fill in Fill::listed(self.dim).chain([Fill::Mixed; 2]) {
            loop {
                let n = 1 + self.random.below(most);
                let a = sparse::scattered(n, 10, self.random).shuffled(self.random);
                let patterns = Patterns::filled(a, *self.random.pick(&WAYS));
                let given = self.given(&patterns, fill);
                if self.push(&given) {
                    break;
                }
            }
        }
    }

    /// 01's cases 8 and 9, with each value as the diagonal of a block. A copy at N = 3 has no room for them.
    fn push_cases(&mut self) {
        let patterns = Patterns::alike(sparse::chain(2));
        let case_8 = self.blocks([4.0, 5.0], [2.0, 2.0]);
        let case_9 = self.blocks([1.0, 1.0], [1.0, 1.0]);
        for words in [case_8, case_9] {
            let mut given = self.given(&patterns, Fill::Mixed);
            match self.call.name {
                "copy_value" => {
                    self.call.put(&mut given, "a_diagonal", &words.diagonal);
                    self.call.put(&mut given, "a_values", &words.entries);
                }
                "decompose" => self.put(&mut given, &words),
                _ => {
                    let words = factored::decomposed(self.dim, &patterns.factor, &words);
                    self.put(&mut given, &words);
                    let side = [8.0, 12.0].map(|value| vec![value; self.dim as usize]);
                    self.call
                        .put(&mut given, "vec", &words::words_of(&side.concat()));
                }
            }
            self.push(&given);
        }
    }

    fn put(&self, given: &mut Given, words: &Words) {
        self.call.put(given, "diagonal", &words.diagonal);
        self.call.put(given, "values", &words.entries);
    }

    /// Each value times the unit block.
    fn blocks(&self, diagonal: [f64; 2], entries: [f64; 2]) -> Words {
        let dim = self.dim as usize;
        let block = |value: f64| -> Vec<f64> {
            let place = |at: usize| if at % dim == at / dim { value } else { 0.0 };
            (0..dim * dim).map(place).collect()
        };
        Words {
            diagonal: words::words_of(&diagonal.map(block).concat()),
            entries: words::words_of(&entries.map(block).concat()),
        }
    }

    /// Regular pivots, then each other one in row 0, in the middle or in the last row.
    fn push_pivots(&mut self) {
        let patterns = self.base();
        let n = patterns.factor.n();
        let mut tried = vec![vec![Pivot::Regular; n]];
        let odd = [
            (0, Pivot::Zero),
            (n - 1, Pivot::Zero),
            (n / 2, Pivot::Dependent),
            (n - 1, Pivot::Dependent),
            (0, Pivot::MinusZero),
            (n - 1, Pivot::MinusZero),
            (0, Pivot::Infinite),
            (n / 2, Pivot::NotANumber),
            (0, Pivot::Subnormal),
        ];
        for (at, (row, pivot)) in odd.into_iter().enumerate() {
            // Singular ones come at every N.
            if at >= 6 && !self.lists(at) {
                continue;
            }
            tried.push(vec![Pivot::Regular; n]);
            let last = tried.len() - 1;
            tried[last][row] = pivot;
        }
        if self.call.name == SOLVE.name {
            tried.truncate(4);
        }
        for pivots in tried {
            let mut given = self.given(&patterns, Fill::Mixed);
            let factor = &patterns.factor;
            let mut words = factored::with_pivots(self.dim, factor, &pivots, self.random);
            if self.call.name == SOLVE.name {
                words = factored::decomposed(self.dim, factor, &words);
            }
            self.put(&mut given, &words);
            self.push(&given);
        }
    }

    /// No row, and no offset at all, of either pattern, with other faults beside it.
    fn push_sizes(&mut self) {
        for length in [1, 0] {
            let mut patterns = self.base();
            patterns.factor.pattern.offsets.truncate(length);
            self.push_mixed(&patterns);
            if self.call.name == COPY_VALUE.name {
                let mut patterns = self.base();
                patterns.a.offsets.truncate(length);
                self.push_mixed(&patterns);
            }
        }
    }

    /// At N = 1 all of a kind are listed, at the others a third.
    fn lists(&self, at: usize) -> bool {
        self.dim == 1 || (at + self.dim as usize).is_multiple_of(3)
    }

    /// A slice a word short or long. Then patterns that differ in n.
    fn push_lengths(&mut self) {
        let patterns = self.base();
        for (at, slice) in self.call.slices().enumerate() {
            for longer in [false, true] {
                if !self.lists(2 * at + usize::from(longer)) {
                    continue;
                }
                let mut given = self.given(&patterns, Fill::Mixed);
                let (length, word) = (given.slices[at].len(), slice.element.bytes());
                let wrong = if longer { length + word } else { length - word };
                resize(&mut given.slices[at], wrong, self.random);
                self.push(&given);
            }
        }
        if self.call.name == COPY_VALUE.name {
            let factor = Factor::of(sparse::empty(1));
            let (a, empty) = (sparse::empty(2), sparse::empty(1));
            self.push_mixed(&Patterns { a, factor });
            let factor = Factor::of(sparse::empty(2));
            self.push_mixed(&Patterns { a: empty, factor });
        }
    }

    /// Faults of a pattern, of A's too; one with a wrong length beside it, and one with a wrong split.
    fn push_patterns(&mut self) {
        let base = self.base();
        let faults = OFFSET_DAMAGES.into_iter();
        let faults: Vec<Damage> = faults
            .chain([Damage::OwnColumn, Damage::TooLarge, Damage::TwiceAdjacent])
            .collect();
        for (at, &damage) in faults.iter().enumerate() {
            if !self.lists(at) {
                continue;
            }
            let damaged = sparse::damaged(&base.factor.pattern, damage, self.random);
            if let Some(pattern) = damaged {
                let mut wrong = base.clone();
                wrong.factor.pattern = pattern;
                self.push_mixed(&wrong);
            }
            let damaged = sparse::damaged(&base.a, damage, self.random);
            if let (Some(a), true) = (damaged, self.call.name == COPY_VALUE.name) {
                let factor = base.factor.clone();
                self.push_mixed(&Patterns { a, factor });
            }
        }
        let mut wrong = base.clone();
        wrong.factor.pattern.offsets[0] = 1;
        wrong.factor.splits[0] += 1;
        self.push_mixed(&wrong);
        let mut given = self.given(&wrong, Fill::Mixed);
        let last = given.slices.len() - 1;
        given.slices[last].truncate(8);
        self.push(&given);
    }

    /// A split that is one more or less, and a row that is not sorted; with singular pivots, which are asked last.
    fn push_splits(&mut self) {
        let base = self.base();
        let last = base.factor.n() - 1;
        for (row, step) in [(0, 1), (last, u32::MAX)] {
            let mut wrong = base.clone();
            let split = &mut wrong.factor.splits[row];
            *split = split.wrapping_add(step);
            let mut given = self.given(&wrong, Fill::Mixed);
            if self.call.name == DECOMPOSE.name {
                given.slices[3].fill(0);
            }
            self.push(&given);
        }
        let mut wrong = Patterns::alike(sparse::where_stands(3, |i, j| i == 0 && j > 0));
        wrong.factor.pattern.columns.reverse();
        self.push_mixed(&wrong);
    }

    /// An entry of A that is absent from the factor: the first one and the last one, and with a wrong split too.
    fn push_places(&mut self) {
        let a = sparse::chain(2);
        for (row, column) in [(0, 1), (1, 0)] {
            let factor = Factor::of(a.without(row, column));
            let mut patterns = Patterns {
                a: only(&a, row, self.dim),
                factor,
            };
            self.push_mixed(&patterns);
            patterns.factor.splits[0] ^= 1;
            self.push_mixed(&patterns);
        }
        let a = sparse::arrow(3, 2).shuffled(self.random);
        let factor = Factor::of(a.without(2, 1));
        self.push_mixed(&Patterns { a, factor });
    }
}

/// Two rows with the entry (1, 0) alone.
fn one_entry() -> Sparse {
    sparse::where_stands(2, |i, j| (i, j) == (1, 0))
}

/// At N = 3 only that row of A has entries, so that the line stays short.
fn only(a: &Sparse, row: u32, dim: u32) -> Sparse {
    match dim {
        3 => a.without(1 - row, row),
        _ => a.clone(),
    }
}
