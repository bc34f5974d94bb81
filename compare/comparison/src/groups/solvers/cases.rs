// What the solvers are tried on and accept: systems whose runs converge, at every step, or do not, and any values.
// How an input is made is here too, for what is refused as well.

use del_msh_cpu::vtx2xn;

use super::is_preconditioned;
use crate::factored::{self, Factor, Way, Words, WAYS};
use crate::groups::factors::Patterns;
use crate::random::Random;
use crate::rules::{self, Pattern};
use crate::settings::Settings;
use crate::slice_call::{Fill, Given, SliceCall};
use crate::sparse::{self, Sparse};
use crate::systems::{self, System, POSITIVE, SYSTEMS, TOLERANCES};
use crate::tally::Tally;
use crate::values::{self, Kind, KINDS};
use crate::words;

/// For each call and N: random cases, those whose squared norm is about epsilon, and those at the highest limit.
const CASES: usize = 3_000;
const NEAR_EPSILON: usize = 300;
const AT_THE_LIMIT: usize = 8;

/// Cases of 15 to 80 rows.
const LONGER: usize = 120;

/// Cases of one call at one N.
pub struct Run<'a> {
    pub call: &'a SliceCall,
    pub dim: u32,
    pub settings: &'a Settings,
    pub random: &'a mut Random,
    pub tally: &'a mut Tally,
}

/// A by itself, where a factor would be: the plain solver has its A under the factor's names.
fn alone(a: Sparse) -> Patterns {
    Patterns {
        a: a.clone(),
        factor: Factor {
            splits: Vec::new(),
            pattern: a,
        },
    }
}

/// What A's values are called in this call: its entries' and its diagonal's.
fn names_of_a(call: &SliceCall) -> [&'static str; 2] {
    if is_preconditioned(call) {
        ["a_values", "a_diagonal"]
    } else {
        ["values", "diagonal"]
    }
}

/// What a vector holds before: mostly finite numbers, since what is not makes every number of a run a NaN.
fn before(count: usize, random: &mut Random) -> Vec<u64> {
    match random.below(4) {
        0 => values::mixed(count, random),
        1 => values::of_kind(Kind::Zero, count, random),
        _ => values::of_kind(*random.pick(&values::FINITE), count, random),
    }
}

/// The squared norm, as the original adds it.
fn squared(dim: u32, vector: &[u64]) -> f64 {
    fn of<const N: usize>(values: &[f64]) -> f64 {
        let rows = values.as_chunks::<N>().0;
        vtx2xn::dot(rows, rows)
    }
    let values = words::values_of(vector);
    match dim {
        1 => of::<1>(&values),
        2 => of::<2>(&values),
        _ => of::<3>(&values),
    }
}

/// A call at one N, with which inputs are made; for the fixed list too.
#[derive(Clone, Copy)]
pub struct Maker<'a> {
    pub call: &'a SliceCall,
    pub dim: u32,
}

impl Maker<'_> {
    /// A with some factor: mostly one that A is filled to, of which A's values may then be decomposed.
    pub fn patterns_of(&self, a: Sparse, random: &mut Random) -> Patterns {
        if !is_preconditioned(self.call) {
            return alone(a);
        }
        if random.below(8) > 0 {
            return Patterns::filled(a, *random.pick(&WAYS));
        }
        let parts = random.below(12);
        let factor = Factor::of(sparse::scattered(a.n(), parts, random));
        Patterns { a, factor }
    }

    /// A with the factor that has its rows.
    pub fn unfilled(&self, a: Sparse) -> Patterns {
        if is_preconditioned(self.call) {
            Patterns::alike(a)
        } else {
            alone(a)
        }
    }

    /// Any values in right lengths, whatever the patterns are.
    pub fn filled(
        &self,
        patterns: &Patterns,
        limit: u32,
        fill: Fill,
        random: &mut Random,
    ) -> Given {
        let mut given = patterns.given_at_limit(self.call, self.dim, limit, fill, random);
        let count = self.dim as usize * patterns.factor.n();
        for name in ["ap", "pr", "p"] {
            if self.call.slices().any(|slice| slice.name == name) {
                self.call.put(&mut given, name, &before(count, random));
            }
        }
        let tolerance = systems::any_tolerance(random);
        self.call.put_number(&mut given, "tolerance", tolerance);
        given
    }

    /// A system over valid patterns, with a right side and perhaps with A's own factor; any values of A if no
    /// system is named.
    pub fn given(
        &self,
        patterns: &Patterns,
        system: Option<System>,
        limit: u32,
        random: &mut Random,
    ) -> Given {
        let mut given = self.filled(patterns, limit, Fill::any(random), random);
        let side = systems::any_right_side(self.dim, patterns.factor.n(), random);
        self.call.put(&mut given, "r", &side);
        if let Some(system) = system {
            let words = systems::values(system, self.dim, &patterns.a, random);
            let [entries, diagonal] = names_of_a(self.call);
            self.call.put(&mut given, entries, &words.entries);
            self.call.put(&mut given, diagonal, &words.diagonal);
        }
        if is_preconditioned(self.call) {
            self.put_factor(&mut given, patterns, random);
        }
        given
    }

    /// A factor's values: A's own decomposed if it has a place for each of them, others decomposed, or any.
    fn put_factor(&self, given: &mut Given, patterns: &Patterns, random: &mut Random) {
        let own = is_within(&patterns.a, &patterns.factor.pattern);
        let kind = random.below(8);
        let words = match kind {
            0 => return,
            _ if own && kind > 1 => self.copied(given, patterns),
            _ => {
                let pivots = factored::any_pivots(patterns.factor.n(), random);
                factored::with_pivots(self.dim, &patterns.factor, &pivots, random)
            }
        };
        let words = factored::decomposed(self.dim, &patterns.factor, &words);
        self.call.put(given, "diagonal", &words.diagonal);
        self.call.put(given, "values", &words.entries);
    }

    /// A's values as they are given, in the factor.
    fn copied(&self, given: &Given, patterns: &Patterns) -> Words {
        let reading = self.call.reading(given);
        let [entries, diagonal] = names_of_a(self.call).map(|name| reading.bytes(name));
        let words = Words {
            diagonal: words::words_in(diagonal),
            entries: words::words_in(entries),
        };
        factored::copied(self.dim, &patterns.factor, &patterns.a, &words)
    }

    /// Another limit, with a history that is just long enough, or longer.
    pub fn put_limit(&self, given: &mut Given, limit: u32, longer: usize, random: &mut Random) {
        let needed = limit as usize + if is_preconditioned(self.call) { 2 } else { 0 };
        let history = values::mixed(needed + longer, random);
        self.call.put(given, "history", &history);
        self.call.put_number(given, "limit", u64::from(limit));
    }

    /// The ratio that the original compares with the tolerance after so many steps, if it has not ended before.
    pub fn ratio_after(&self, given: &Given, steps: u32) -> f64 {
        let mut given = given.clone();
        let [never, steps] = [f64::NAN.to_bits(), u64::from(steps)];
        self.call.put_number(&mut given, "tolerance", never);
        self.call.put_number(&mut given, "limit", steps);
        let reading = self.call.reading(&given);
        let first = squared(self.dim, &words::words_in(reading.bytes("r")));
        let worked = (self.call.oracle)(&reading);
        (squared(self.dim, &worked.written[0]) * (1.0 / first)).sqrt()
    }
}

fn is_within(a: &Sparse, factor: &Sparse) -> bool {
    let [a, factor] = [a, factor].map(|pattern| Pattern {
        offsets: &pattern.offsets,
        columns: &pattern.columns,
    });
    !rules::lacks_a_place(&a, &factor)
}

/// The number itself, or one of its neighbours.
fn near(value: f64, random: &mut Random) -> u64 {
    value.to_bits().wrapping_add_signed(random.between(-1, 1))
}

impl Run<'_> {
    pub fn maker(&self) -> Maker<'_> {
        Maker {
            call: self.call,
            dim: self.dim,
        }
    }

    pub fn try_given(&mut self, given: &Given) {
        self.call.try_given(given, self.random, self.tally);
    }

    /// Patterns of at most 14 rows, of A mostly those of a symmetric matrix.
    pub fn any_patterns(&mut self) -> Patterns {
        let (call, dim) = (self.call, self.dim);
        let mut a = if self.random.flip() {
            sparse::any_small(self.random)
        } else {
            sparse::any_long(self.random)
        };
        if self.random.below(4) > 0 {
            a = a.both_ways();
        }
        if self.random.flip() {
            a = a.shuffled(self.random);
        }
        Maker { call, dim }.patterns_of(a, self.random)
    }

    pub fn given(&mut self, patterns: &Patterns, system: Option<System>, limit: u32) -> Given {
        let (call, dim) = (self.call, self.dim);
        Maker { call, dim }.given(patterns, system, limit, self.random)
    }

    fn put_limit(&mut self, given: &mut Given, limit: u32) {
        let (call, dim) = (self.call, self.dim);
        let longer = *self.random.pick(&[0, 0, 0, 1, 7, 100]);
        Maker { call, dim }.put_limit(given, limit, longer, self.random);
    }

    fn put_tolerance(&self, given: &mut Given, tolerance: u64) {
        self.call.put_number(given, "tolerance", tolerance);
    }

    /// Any system, or none, at any limit that is accepted.
    pub fn any_given(&mut self, patterns: &Patterns) -> Given {
        let system = match self.random.below(4) {
            0 => None,
            _ => Some(*self.random.pick(&SYSTEMS)),
        };
        let limit = systems::any_limit(patterns.a.n(), self.random);
        let mut given = self.given(patterns, system, limit);
        self.put_limit(&mut given, limit);
        given
    }

    pub fn compare_accepted(&mut self) {
        self.compare_any();
        self.compare_steps();
        self.compare_right_sides();
        self.compare_long_runs();
        self.compare_longer();
        self.compare_large();
    }

    /// Random cases, some of them once more with a tolerance that is about the ratio after some step.
    fn compare_any(&mut self) {
        for _ in 0..self.settings.cases(CASES) {
            let patterns = self.any_patterns();
            let mut given = self.any_given(&patterns);
            self.try_given(&given);
            if self.random.flip() {
                let step = 1 + self.random.below(6) as u32;
                let ratio = self.maker().ratio_after(&given, step);
                let tolerance = near(ratio, self.random);
                self.put_tolerance(&mut given, tolerance);
                let limit = step + self.random.below(3) as u32;
                self.put_limit(&mut given, limit);
                self.try_given(&given);
            }
        }
    }

    /// Runs that converge, ended after each of the first steps by a tolerance that is its ratio or a neighbour,
    /// at limits below, at and above it.
    fn compare_steps(&mut self) {
        let patterns = [
            sparse::empty(6),
            sparse::chain(5),
            sparse::dense(4),
            sparse::arrow(6, 0),
            sparse::plate(3),
        ];
        for a in patterns {
            for system in POSITIVE {
                let (call, dim) = (self.call, self.dim);
                let a = a.clone().shuffled(self.random);
                let patterns = Maker { call, dim }.patterns_of(a, self.random);
                let mut given = self.given(&patterns, Some(system), 0);
                let count = dim as usize * patterns.a.n();
                let side = values::of_kind(Kind::Ordinary, count, self.random);
                self.call.put(&mut given, "r", &side);
                for step in 1..=6 {
                    self.try_around(&given, step);
                }
            }
        }
    }

    fn try_around(&mut self, given: &Given, step: u32) {
        let ratio = self.maker().ratio_after(given, step).to_bits();
        for nudge in [-1, 0, 1] {
            for limit in [step - 1, step, step + 1, step + 4] {
                let mut given = given.clone();
                self.put_tolerance(&mut given, ratio.wrapping_add_signed(nudge));
                self.put_limit(&mut given, limit);
                self.try_given(&given);
            }
        }
    }

    /// Right sides of each kind at each tolerance; squared norms about epsilon, and ones that overflow.
    fn compare_right_sides(&mut self) {
        for kind in KINDS {
            for tolerance in TOLERANCES {
                for limit in [0, 1, 2, 5] {
                    let patterns = self.any_patterns();
                    let system = *self.random.pick(&SYSTEMS);
                    let mut given = self.given(&patterns, Some(system), limit);
                    let count = self.dim as usize * patterns.a.n();
                    let side = values::of_kind(kind, count, self.random);
                    self.call.put(&mut given, "r", &side);
                    self.put_tolerance(&mut given, tolerance.to_bits());
                    self.try_given(&given);
                }
            }
        }
        for make in [systems::near_epsilon, systems::overflowing] {
            for _ in 0..self.settings.cases(NEAR_EPSILON) {
                let patterns = self.any_patterns();
                let system = *self.random.pick(&SYSTEMS);
                let limit = self.random.below(5) as u32;
                let mut given = self.given(&patterns, Some(system), limit);
                let side = make(self.dim as usize * patterns.a.n(), self.random);
                self.call.put(&mut given, "r", &side);
                self.try_given(&given);
            }
        }
    }

    /// Limits up to the highest, with runs that come to them and runs that do not.
    fn compare_long_runs(&mut self) {
        for limit in [4096, 4096, 4095, 1000] {
            for _ in 0..self.settings.cases(AT_THE_LIMIT) {
                let patterns = self.any_patterns();
                let system = *self.random.pick(&SYSTEMS);
                let mut given = self.given(&patterns, Some(system), limit);
                self.put_limit(&mut given, limit);
                self.try_given(&given);
            }
        }
    }

    /// Rows and columns of counts that small patterns do not have.
    fn compare_longer(&mut self) {
        for _ in 0..self.settings.cases(LONGER) {
            let (call, dim) = (self.call, self.dim);
            let n = 15 + self.random.below(66);
            let each = 1 + self.random.below(14);
            let mut a = sparse::with_entries(n, each, self.random);
            if self.random.below(4) > 0 {
                a = a.both_ways().shuffled(self.random);
            }
            let patterns = Maker { call, dim }.patterns_of(a, self.random);
            let given = self.any_given(&patterns);
            self.try_given(&given);
        }
    }

    fn compare_large(&mut self) {
        for (patterns, limit) in self.large() {
            let system = match self.random.below(8) {
                0 => None,
                _ => Some(*self.random.pick(&POSITIVE)),
            };
            let mut given = self.given(&patterns, system, limit);
            let count = self.dim as usize * patterns.a.n();
            let side = values::of_kind(Kind::Ordinary, count, self.random);
            self.call.put(&mut given, "r", &side);
            let tolerance = *self.random.pick(&[1e-3_f64, 1e-6, 1e-12, 0.0]);
            self.put_tolerance(&mut given, tolerance.to_bits());
            self.put_limit(&mut given, limit);
            self.try_given(&given);
        }
    }

    /// Patterns of 64 to 4,096 rows, and limits at which they do not take long.
    fn large(&mut self) -> Vec<(Patterns, u32)> {
        let preconditioned = is_preconditioned(self.call);
        let random = &mut *self.random;
        let mut large = vec![
            (sparse::plate(8), Way::Ilu0, 60),
            (sparse::plate(8).shuffled(random), Way::Full, 20),
            (sparse::plate(8).shuffled(random), Way::Iluk(2), 20),
            (sparse::plate(16), Way::Iluk(1), 40),
            (sparse::plate(16).shuffled(random), Way::Iluk(2), 20),
            (
                sparse::with_entries(300, 2, random).both_ways(),
                Way::Ilu0,
                20,
            ),
            (
                sparse::with_long_rows(300, &[255, 256, 257, 299], random),
                Way::Ilu0,
                10,
            ),
            (sparse::arrow(600, 300).shuffled(random), Way::Ilu0, 10),
            (sparse::plate(64), Way::Ilu0, 8),
            (sparse::plate(64).shuffled(random), Way::Iluk(1), 3),
            (sparse::chain(4096), Way::Iluk(1), 5),
            (sparse::empty(4096), Way::Ilu0, 5),
            (sparse::full(random), Way::Ilu0, 2),
        ];
        let patterns = large.drain(..).map(|(a, way, limit)| {
            let patterns = if preconditioned {
                Patterns::filled(a, way)
            } else {
                alone(a)
            };
            (patterns, limit)
        });
        patterns.collect()
    }
}
