// What the solvers refuse: wrong lengths, limits, patterns, splits and sizes, each by itself and several at once,
// so that the order in which they are asked shows.

use super::cases::{Maker, Run};
use super::is_preconditioned;
use crate::factored::Factor;
use crate::groups::factors::{with_faults, Patterns};
use crate::slice_call::{resize, Fill, Given};
use crate::sparse::{self, Damage, DAMAGES};
use crate::systems::{self, REFUSED_LIMITS};

/// Cases of which every slice is tried at every wrong length; that have some wrong lengths at once; whose patterns
/// are tried with every fault; and that have any faults at once.
const WRONG_LENGTHS: usize = 8;
const SOME_LENGTHS: usize = 200;
const DAMAGED: usize = 20;
const FAULTS: usize = 2_500;

impl Run<'_> {
    pub fn compare_refused(&mut self) {
        self.compare_lengths();
        self.compare_limits();
        self.compare_damaged();
        self.compare_faults();
        self.compare_ends();
    }

    /// Right lengths and any values, for patterns of any kind.
    fn filled(&mut self, patterns: &Patterns, limit: u32) -> Given {
        let (call, dim) = (self.call, self.dim);
        let fill = Fill::any(self.random);
        Maker { call, dim }.filled(patterns, limit, fill, self.random)
    }

    fn compare_lengths(&mut self) {
        for _ in 0..self.settings.cases(WRONG_LENGTHS) {
            let patterns = self.any_patterns();
            let given = self.any_given(&patterns);
            self.call.try_lengths(&given, self.random, self.tally);
            self.call.try_other_dims(&given, self.random, self.tally);
        }
        for _ in 0..self.settings.cases(SOME_LENGTHS) {
            let patterns = self.any_patterns();
            let given = self.any_given(&patterns);
            self.call.try_some_lengths(&given, self.random, self.tally);
        }
        for a in [sparse::chain(3), sparse::dense(4), sparse::empty(2)] {
            let (call, dim) = (self.call, self.dim);
            let patterns = Maker { call, dim }.patterns_of(a, self.random);
            // The lengths of another N.
            for like in 1..=3 {
                let maker = Maker { call, dim: like };
                let given = maker.filled(&patterns, 3, Fill::Mixed, self.random);
                self.try_given(&Given { dim, ..given });
            }
            call.try_own_lengths(self.random, self.tally, |other, random| {
                Maker { call, dim: other }.filled(&patterns, 3, Fill::Mixed, random)
            });
        }
    }

    /// Limits that are refused, with a history that would be long enough and with one that would not; and with
    /// right ones a history that is a word or a byte short.
    fn compare_limits(&mut self) {
        for limit in REFUSED_LIMITS {
            for length in [0, 8, 8 * 4097, 8 * 4099, 8 * 70_000] {
                let patterns = self.any_patterns();
                let mut given = self.filled(&patterns, 0);
                self.call.put_number(&mut given, "limit", u64::from(limit));
                let last = given.slices.len() - 1;
                resize(&mut given.slices[last], length, self.random);
                self.try_given(&given);
                self.call.try_other_dims(&given, self.random, self.tally);
                self.call.try_some_lengths(&given, self.random, self.tally);
            }
        }
        for limit in [1, 2, 5, 50, 4095, 4096] {
            for less in [1, 8, 16, 24] {
                let patterns = self.any_patterns();
                let mut given = self.given(&patterns, None, limit);
                let last = given.slices.len() - 1;
                let length = given.slices[last].len().saturating_sub(less);
                given.slices[last].truncate(length);
                self.try_given(&given);
            }
        }
    }

    /// One pattern wrong by one rule, or a split: values are as many as it has, so that nothing else is wrong.
    fn compare_damaged(&mut self) {
        for _ in 0..self.settings.cases(DAMAGED) {
            let patterns = self.any_patterns();
            for damage in DAMAGES {
                self.try_damaged(&patterns, damage);
            }
            for row in 0..patterns.factor.splits.len() {
                for step in [1, u32::MAX] {
                    let mut wrong = patterns.clone();
                    let split = &mut wrong.factor.splits[row];
                    *split = split.wrapping_add(step);
                    self.try_fault(&wrong);
                }
            }
        }
        let (call, dim) = (self.call, self.dim);
        let plate = Maker { call, dim }.patterns_of(sparse::plate(16), self.random);
        for damage in DAMAGES {
            self.try_damaged(&plate, damage);
        }
    }

    fn try_damaged(&mut self, patterns: &Patterns, damage: Damage) {
        let mut wrong = patterns.clone();
        if let Some(pattern) = sparse::damaged(&patterns.factor.pattern, damage, self.random) {
            wrong.factor.pattern = pattern;
            self.try_fault(&wrong);
        }
        if !is_preconditioned(self.call) {
            return;
        }
        if let Some(pattern) = sparse::damaged(&patterns.a, damage, self.random) {
            let factor = patterns.factor.clone();
            self.try_fault(&Patterns { a: pattern, factor });
        }
    }

    fn try_fault(&mut self, wrong: &Patterns) {
        let limit = systems::any_limit(3, self.random);
        let given = self.filled(wrong, limit);
        self.try_given(&given);
    }

    /// Any faults at once, of either pattern, of splits, lengths, limit, n and sizes.
    fn compare_faults(&mut self) {
        for _ in 0..self.settings.cases(FAULTS) {
            let mut patterns = self.any_patterns();
            if patterns.factor.splits.is_empty() {
                // The plain solver has none; the faults want some.
                patterns.factor.splits = vec![0; patterns.factor.n()];
            }
            let wrong = with_faults(patterns, self.random);
            let limit = systems::any_limit(3, self.random);
            let mut given = self.filled(&wrong, limit);
            if self.random.below(5) == 0 {
                let limit = *self.random.pick(&REFUSED_LIMITS);
                self.call.put_number(&mut given, "limit", u64::from(limit));
            }
            if self.random.below(4) == 0 {
                self.call.try_some_lengths(&given, self.random, self.tally);
            } else {
                self.try_given(&given);
            }
        }
    }

    /// Both limits of a pattern and what is next to them, of A and of the factor, each beside one that is right.
    fn compare_ends(&mut self) {
        for end in sparse::ends(self.random) {
            let rows = end.n() > 0;
            let sorted = end.clone().sorted();
            let factor = Factor {
                splits: if rows { sorted.splits() } else { Vec::new() },
                pattern: sorted,
            };
            let mut tried = vec![Patterns {
                a: end.clone(),
                factor: factor.clone(),
            }];
            if is_preconditioned(self.call) {
                let small = Patterns::alike(sparse::chain(3));
                let a = end.clone();
                tried.push(Patterns { a, ..small.clone() });
                tried.push(Patterns { factor, ..small });
            }
            for patterns in tried {
                self.try_end(&patterns);
            }
        }
    }

    /// With a limit that is refused, at another N and with wrong lengths too the size is asked first.
    fn try_end(&mut self, patterns: &Patterns) {
        let mut given = self.filled(patterns, 1);
        self.try_given(&given);
        if given.slices.iter().map(Vec::len).sum::<usize>() < 1 << 20 {
            self.call.try_other_dims(&given, self.random, self.tally);
            self.call.try_some_lengths(&given, self.random, self.tally);
        }
        self.call.put_number(&mut given, "limit", 4097);
        self.try_given(&given);
    }
}
