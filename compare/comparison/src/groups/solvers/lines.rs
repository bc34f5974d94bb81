// Lines of the fixed list for the solvers: small systems with every end, document 01's cases 10 and 11, right sides
// of every kind, and every refusal, alone and with others.

use super::cases::Maker;
use super::{is_preconditioned, CALLS};
use crate::factored::{self, Words};
use crate::groups::factors::Patterns;
use crate::list::{is_short, Line};
use crate::random::Random;
use crate::slice_call::{resize, Fill, Given, SliceCall};
use crate::sparse::{self, Damage, Sparse, OFFSET_DAMAGES};
use crate::systems::{self, System, SYSTEMS};
use crate::values::{self, Kind, KINDS};
use crate::words;

pub fn sample(seed: u64) -> Vec<Line> {
    CALLS.iter().flat_map(|call| lines(call, seed)).collect()
}

fn lines(call: &SliceCall, seed: u64) -> Vec<Line> {
    let random = &mut Random::named(seed, call.name);
    let mut listing = Listing {
        maker: Maker { call, dim: 0 },
        random,
        lines: Vec::new(),
    };
    for &dim in call.dims() {
        listing.maker.dim = dim;
        listing.push_systems();
        listing.push_cases();
        listing.push_steps();
        listing.push_right_sides();
        listing.push_before();
        listing.push_sizes();
        listing.push_limits();
        listing.push_lengths();
        listing.push_patterns();
        if is_preconditioned(call) {
            listing.push_splits();
        }
    }
    listing.lines
}

struct Listing<'a> {
    maker: Maker<'a>,
    random: &'a mut Random,
    lines: Vec<Line>,
}

impl Listing<'_> {
    fn call(&self) -> &SliceCall {
        self.maker.call
    }

    fn dim(&self) -> u32 {
        self.maker.dim
    }

    /// Takes the line if it is short enough, and says so.
    fn push(&mut self, given: &Given) -> bool {
        let line = self.call().line(given);
        let short = is_short(&line);
        if short {
            self.lines.push(line);
        }
        short
    }

    /// What is one of many is listed at one N.
    fn lists(&self, at: usize) -> bool {
        (at + self.dim() as usize).is_multiple_of(3)
    }

    /// Rows for which a line of this call at this N has room.
    fn rows(&mut self) -> Sparse {
        let random = &mut *self.random;
        let preconditioned = is_preconditioned(self.maker.call);
        match (preconditioned, self.maker.dim) {
            (true, 3) => sparse::empty(1 + random.below(2)),
            (true, 2) | (false, 3) => sparse::where_stands(2, |i, j| i != j && random.below(4) > 0),
            (_, 2) => sparse::chain(1 + random.below(3)),
            _ => sparse::scattered(1 + random.below(3), 12, random).both_ways(),
        }
    }

    /// The same each time: two or three rows, with entries if there is room.
    fn base(&mut self) -> Patterns {
        let a = match (is_preconditioned(self.maker.call), self.maker.dim) {
            (true, 3) => sparse::empty(2),
            (true, 2) | (false, 3) => sparse::chain(2),
            _ => sparse::arrow(3, 0),
        };
        self.maker.unfilled(a)
    }

    fn given(&mut self, patterns: &Patterns, system: Option<System>, limit: u32) -> Given {
        self.maker.given(patterns, system, limit, self.random)
    }

    /// One that is refused: any values in right lengths, as if the limit were 1.
    fn push_filled(&mut self, patterns: &Patterns) {
        let given = self.filled(patterns);
        self.push(&given);
    }

    fn filled(&mut self, patterns: &Patterns) -> Given {
        self.maker.filled(patterns, 1, Fill::Mixed, self.random)
    }

    /// Any values of A, then some systems, with as many steps as the line has room for.
    fn push_systems(&mut self) {
        let systems = SYSTEMS.into_iter().enumerate();
        let systems = systems.filter(|&(at, _)| at < 2 || self.lists(at));
        let systems: Vec<Option<System>> = systems.map(|(_, system)| Some(system)).collect();
        for system in [None; 3].into_iter().chain(systems) {
            let mut limit = 1 + self.random.below(4) as u32;
            loop {
                let rows = self.rows();
                let patterns = self.maker.patterns_of(rows, self.random);
                let mut given = self.given(&patterns, system, limit);
                let longer = self.random.below(2);
                self.maker.put_limit(&mut given, limit, longer, self.random);
                if self.push(&given) {
                    break;
                }
                limit = 1;
            }
        }
    }

    /// 01's cases 10 and 11, with each value as the diagonal of a block: A = 2 with its own factor.
    fn push_cases(&mut self) {
        let patterns = self.maker.unfilled(sparse::empty(1));
        let two = self.unit(2.0);
        let power = |power: i32| 2_f64.powi(power);
        for (b, limit) in [(4.0, 5), (4.0, 0), (power(-27), 5), (power(-26), 5)] {
            let mut given = self.given(&patterns, Some(System::Zero), limit);
            let mut side = vec![0.0; self.dim() as usize];
            side[0] = b;
            let call = self.maker.call;
            call.put(&mut given, "r", &words::words_of(&side));
            call.put_number(&mut given, "tolerance", 0.5_f64.to_bits());
            if is_preconditioned(call) {
                call.put(&mut given, "a_diagonal", &two);
                let words = Words {
                    diagonal: two.clone(),
                    entries: Vec::new(),
                };
                let words = factored::decomposed(self.dim(), &patterns.factor, &words);
                call.put(&mut given, "diagonal", &words.diagonal);
            } else {
                call.put(&mut given, "diagonal", &two);
            }
            self.push(&given);
        }
    }

    fn unit(&self, value: f64) -> Vec<u64> {
        let dim = self.dim() as usize;
        let place = |at: usize| if at % dim == at / dim { value } else { 0.0 };
        words::words_of(&(0..dim * dim).map(place).collect::<Vec<f64>>())
    }

    /// A run that is ended by a tolerance just above its ratio, and one that is not by a tolerance that is equal, at
    /// the first step and at a later one; the later one at the last step that is allowed too.
    fn push_steps(&mut self) {
        for (step, limit, above) in [(1, 2, 1), (1, 2, 0), (2, 3, 1), (2, 2, 1), (2, 2, 0)] {
            let patterns = self.base();
            let mut given = self.given(&patterns, Some(System::Weak), limit);
            let count = self.dim() as usize * patterns.a.n();
            let side = values::of_kind(Kind::Ordinary, count, self.random);
            self.call().put(&mut given, "r", &side);
            self.maker.put_limit(&mut given, limit, 0, self.random);
            let ratio = self.maker.ratio_after(&given, step).to_bits();
            let tolerance = ratio.wrapping_add_signed(above);
            self.call().put_number(&mut given, "tolerance", tolerance);
            self.push(&given);
        }
    }

    /// A right side of each kind; then squared norms that are about epsilon, and one that overflows.
    fn push_right_sides(&mut self) {
        let count = |patterns: &Patterns, dim: u32| dim as usize * patterns.a.n();
        for (at, kind) in KINDS.into_iter().enumerate() {
            if self.lists(at) {
                let patterns = self.base();
                let mut given = self.given(&patterns, Some(System::Strong), 2);
                let side = values::of_kind(kind, count(&patterns, self.dim()), self.random);
                self.call().put(&mut given, "r", &side);
                self.push(&given);
            }
        }
        for make in [
            systems::near_epsilon,
            systems::near_epsilon,
            systems::overflowing,
        ] {
            let patterns = self.base();
            let mut given = self.given(&patterns, Some(System::Graph), 1);
            let side = make(count(&patterns, self.dim()), self.random);
            self.call().put(&mut given, "r", &side);
            self.push(&given);
        }
    }

    /// Ap or Pr that held an infinity or -0, and a history that is longer than it has to be.
    fn push_before(&mut self) {
        for value in [f64::INFINITY, -0.0, -1.0] {
            let patterns = self.base();
            let mut given = self.given(&patterns, Some(System::Distinct(2)), 1);
            let count = self.dim() as usize * patterns.a.n();
            let name = if is_preconditioned(self.call()) {
                "pr"
            } else {
                "ap"
            };
            let mut side = vec![0.0; count];
            side[0] = -1.0;
            let call = self.maker.call;
            call.put(&mut given, name, &vec![value.to_bits(); count]);
            call.put(&mut given, "r", &words::words_of(&side));
            self.maker.put_limit(&mut given, 1, 1, self.random);
            self.push(&given);
        }
    }

    /// No row, and no offset at all, of either pattern, once with a limit that is refused.
    fn push_sizes(&mut self) {
        for length in [1, 0] {
            let mut patterns = self.base();
            patterns.factor.pattern.offsets.truncate(length);
            let mut given = self.filled(&patterns);
            self.call()
                .put_number(&mut given, "limit", 4096 + length as u64);
            self.push(&given);
            if is_preconditioned(self.call()) {
                let mut patterns = self.base();
                patterns.a.offsets.truncate(length);
                self.push_filled(&patterns);
            }
        }
    }

    /// Limits that are refused, with a history that is short and with a pattern that is wrong too; and one that is
    /// not, with a history that is a word short.
    fn push_limits(&mut self) {
        let patterns = self.base();
        for limit in [4097, u64::from(u32::MAX)] {
            let mut given = self.filled(&patterns);
            self.call().put_number(&mut given, "limit", limit);
            self.push(&given);
        }
        let mut wrong = patterns.clone();
        wrong.factor.pattern.offsets[0] = 1;
        let mut given = self.filled(&wrong);
        self.call().put_number(&mut given, "limit", 65_536);
        self.push(&given);
        let mut given = self.filled(&patterns);
        self.call().put_number(&mut given, "limit", 2);
        self.push(&given);
    }

    /// A slice a word short or long. Then patterns that differ in n.
    fn push_lengths(&mut self) {
        let patterns = self.base();
        for (at, slice) in self.maker.call.slices().enumerate() {
            if !self.lists(at) {
                continue;
            }
            let mut given = self.filled(&patterns);
            let (length, word) = (given.slices[at].len(), slice.element.bytes());
            let wrong = if at % 2 == 0 {
                length.saturating_sub(word)
            } else {
                length + word
            };
            resize(&mut given.slices[at], wrong, self.random);
            self.push(&given);
        }
        if is_preconditioned(self.call()) {
            let [one, two] = [1, 2].map(|n| Patterns::alike(sparse::empty(n)));
            let a = two.a.clone();
            self.push_filled(&Patterns { a, ..one.clone() });
            self.push_filled(&Patterns { a: one.a, ..two });
        }
    }

    /// Faults of a pattern, of A's too; one with a wrong length beside it.
    fn push_patterns(&mut self) {
        let base = self.base();
        let faults = OFFSET_DAMAGES.into_iter();
        let faults = faults.chain([Damage::OwnColumn, Damage::TooLarge, Damage::TwiceAdjacent]);
        for (at, damage) in faults.enumerate() {
            let first = at == 0;
            if !first && !self.lists(at) {
                continue;
            }
            let damaged = sparse::damaged(&base.factor.pattern, damage, self.random);
            if let Some(pattern) = damaged {
                let mut wrong = base.clone();
                wrong.factor.pattern = pattern;
                self.push_filled(&wrong);
            }
            let damaged = sparse::damaged(&base.a, damage, self.random);
            if let (Some(a), true) = (damaged, is_preconditioned(self.call())) {
                let factor = base.factor.clone();
                self.push_filled(&Patterns { a, factor });
            }
        }
        let mut wrong = base.clone();
        wrong.factor.pattern.offsets[0] = 1;
        let mut given = self.filled(&wrong);
        given.slices[1].truncate(8);
        self.push(&given);
    }

    /// A split that is one more or less, alone and with a wrong A, and a row that is not sorted.
    fn push_splits(&mut self) {
        let base = self.base();
        let last = base.factor.n() - 1;
        for (row, step) in [(0, 1), (last, u32::MAX)] {
            let mut wrong = base.clone();
            let split = &mut wrong.factor.splits[row];
            *split = split.wrapping_add(step);
            self.push_filled(&wrong);
            wrong.a.offsets[0] = 1;
            self.push_filled(&wrong);
        }
        let rows = sparse::where_stands(3, |i, j| i == 0 && j > 0);
        let mut wrong = Patterns::alike(rows);
        wrong.a = sparse::empty(3);
        wrong.factor.pattern.columns.reverse();
        self.push_filled(&wrong);
    }
}
