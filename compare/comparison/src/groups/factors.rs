// The calls on a factor's values: A copied to it, decomposed in place, and a vector solved with it.
// The oracle is the original's sparse_ilu. Its decompose does not say at which row it stops; it is asked again for that.

mod lines;

use del_msh_cpu::sparse_solver::sparse_ilu::{self, Preconditioner};
use del_msh_cpu::sparse_solver::sparse_square::MatrixOwned;

use super::Group;
use crate::answered::Besides;
use crate::factored::{self, Factor, Pivot, Way, Words, WAYS};
use crate::original_by_dim;
use crate::random::Random;
use crate::rules::{self, Counts, Length, Pattern};
use crate::settings::Settings;
use crate::slice_call::{
    self, change, every, read, write, Fill, Given, Reading, SliceCall, Take, TypedCall, Worked,
    UNCHECKED,
};
use crate::sparse::{self, Damage, Sparse, DAMAGES};
use crate::tally::Tally;
use crate::values;
use crate::words::Element::{Index, Value};

pub const GROUP: Group = Group {
    name: "factors",
    compare,
    sample: lines::sample,
    about: || slice_call::about(CALLS),
    input_words: |name, _, words| slice_call::input_words(CALLS, name, words),
    replay: |line| slice_call::replay(CALLS, line),
};

const CALLS: &[SliceCall] = &[COPY_VALUE, DECOMPOSE, SOLVE];

const OFFSETS: Take = read("offsets", Index, Length::Any);
const COLUMNS: Take = read("columns", Index, Length::Any);
const SPLITS: Take = read("splits", Index, Length::Splits);

const COPY_VALUE: SliceCall = SliceCall {
    name: "copy_value",
    has_dim: true,
    takes: &[
        read("starts", Index, Length::Any),
        read("entries", Index, Length::Any),
        read("a_diagonal", Value, Length::Diagonal),
        read("a_values", Value, Length::EntriesOfA),
        OFFSETS,
        COLUMNS,
        SPLITS,
        write("diagonal", Value, Length::Diagonal),
        write("values", Value, Length::Entries),
    ],
    besides: Besides::Nothing,
    answers: &[0, 1, 2, 3, 11, 8],
    refusal: refusal_of_copy,
    oracle: original_by_dim!(copy_value),
    panics: |r, number| number == rules::NO_PLACE || (number == rules::SHAPE && differs_in_n(r)),
    port: |g, s| {
        let [starts, entries, a_diagonal, a_values, offsets, columns, splits, diagonal, values] =
            every(s);
        port::copy_value(
            g.dim,
            starts.bytes(),
            entries.bytes(),
            a_diagonal.bytes(),
            a_values.bytes(),
            offsets.bytes(),
            columns.bytes(),
            splits.bytes(),
            diagonal.bytes_mut(),
            values.bytes_mut(),
        )
        .into()
    },
    typed: &[
        TypedCall {
            name: "timed_copy_value",
            answers: &[0, 1, 2, 3, 11, 8],
            port: |g, s| {
                let [starts, entries, a_diagonal, a_values, offsets, columns, splits, diagonal, values] =
                    every(s);
                port::timed_copy_value(
                    g.dim,
                    starts.indexes(),
                    entries.indexes(),
                    a_diagonal.values(),
                    a_values.values(),
                    offsets.indexes(),
                    columns.indexes(),
                    splits.indexes(),
                    diagonal.values_mut(),
                    values.values_mut(),
                )
                .into()
            },
        },
        TypedCall {
            name: "unchecked_copy_value",
            answers: UNCHECKED,
            port: |g, s| {
                let [starts, entries, a_diagonal, a_values, offsets, columns, _, diagonal, values] =
                    every(s);
                port::unchecked_copy_value(
                    g.dim,
                    starts.indexes(),
                    entries.indexes(),
                    a_diagonal.values(),
                    a_values.values(),
                    offsets.indexes(),
                    columns.indexes(),
                    diagonal.values_mut(),
                    values.values_mut(),
                );
                rules::DONE.into()
            },
        },
    ],
};

const DECOMPOSE: SliceCall = SliceCall {
    name: "decompose",
    has_dim: true,
    takes: &[
        OFFSETS,
        COLUMNS,
        SPLITS,
        change("diagonal", Value, Length::Diagonal),
        change("values", Value, Length::Entries),
    ],
    besides: Besides::Nothing,
    answers: &[0, 1, 2, 3, 11, 9],
    refusal: refusal_of_factor,
    oracle: original_by_dim!(decompose),
    panics: |_, _| false,
    port: |g, s| {
        let [offsets, columns, splits, diagonal, values] = every(s);
        port::decompose(
            g.dim,
            offsets.bytes(),
            columns.bytes(),
            splits.bytes(),
            diagonal.bytes_mut(),
            values.bytes_mut(),
        )
        .into()
    },
    typed: &[
        TypedCall {
            name: "timed_decompose",
            answers: &[0, 1, 2, 3, 11, 9],
            port: |g, s| {
                let [offsets, columns, splits, diagonal, values] = every(s);
                port::timed_decompose(
                    g.dim,
                    offsets.indexes(),
                    columns.indexes(),
                    splits.indexes(),
                    diagonal.values_mut(),
                    values.values_mut(),
                )
                .into()
            },
        },
        TypedCall {
            name: "unchecked_decompose",
            answers: UNCHECKED,
            port: |g, s| {
                let [offsets, columns, splits, diagonal, values] = every(s);
                port::unchecked_decompose(
                    g.dim,
                    offsets.indexes(),
                    columns.indexes(),
                    splits.indexes(),
                    diagonal.values_mut(),
                    values.values_mut(),
                );
                rules::DONE.into()
            },
        },
    ],
};

const SOLVE: SliceCall = SliceCall {
    name: "solve_preconditioning_vec",
    has_dim: true,
    takes: &[
        change("vec", Value, Length::Rows),
        OFFSETS,
        COLUMNS,
        SPLITS,
        read("diagonal", Value, Length::Diagonal),
        read("values", Value, Length::Entries),
    ],
    besides: Besides::Nothing,
    answers: &[0, 1, 2, 3, 11],
    refusal: refusal_of_factor,
    oracle: original_by_dim!(solve),
    panics: |_, _| false,
    port: |g, s| {
        let [vec, offsets, columns, splits, diagonal, values] = every(s);
        port::solve_preconditioning_vec(
            g.dim,
            vec.bytes_mut(),
            offsets.bytes(),
            columns.bytes(),
            splits.bytes(),
            diagonal.bytes(),
            values.bytes(),
        )
        .into()
    },
    typed: &[
        TypedCall {
            name: "timed_solve_preconditioning_vec",
            answers: &[0, 1, 2, 3, 11],
            port: |g, s| {
                let [vec, offsets, columns, splits, diagonal, values] = every(s);
                port::timed_solve_preconditioning_vec(
                    g.dim,
                    vec.values_mut(),
                    offsets.indexes(),
                    columns.indexes(),
                    splits.indexes(),
                    diagonal.values(),
                    values.values(),
                )
                .into()
            },
        },
        TypedCall {
            name: "unchecked_solve_preconditioning_vec",
            answers: UNCHECKED,
            port: |g, s| {
                let [vec, offsets, columns, splits, diagonal, values] = every(s);
                port::unchecked_solve_preconditioning_vec(
                    g.dim,
                    vec.values_mut(),
                    offsets.indexes(),
                    columns.indexes(),
                    splits.indexes(),
                    diagonal.values(),
                    values.values(),
                );
                rules::DONE.into()
            },
        },
    ],
};

fn refusal_of_factor(reading: &Reading) -> u32 {
    let [offsets, columns, splits] =
        ["offsets", "columns", "splits"].map(|name| reading.indexes(name));
    let factor = Pattern {
        offsets: &offsets,
        columns: &columns,
    };
    rules::first_refusal(&[
        (rules::SIZE, rules::is_too_large(&factor)),
        (rules::SHAPE, reading.is_misshapen()),
        (rules::PATTERN, !rules::is_valid(&factor)),
        (rules::SPLIT, rules::is_wrongly_split(&factor, &splits)),
    ])
}

/// Each condition is asked of both patterns before the next one.
fn refusal_of_copy(reading: &Reading) -> u32 {
    let [starts, entries] = ["starts", "entries"].map(|name| reading.indexes(name));
    let [offsets, columns, splits] =
        ["offsets", "columns", "splits"].map(|name| reading.indexes(name));
    let a = Pattern {
        offsets: &starts,
        columns: &entries,
    };
    let factor = Pattern {
        offsets: &offsets,
        columns: &columns,
    };
    let misshapen = reading.is_misshapen() || rules::differ_in_n(&a, &factor);
    let invalid = !rules::is_valid(&a) || !rules::is_valid(&factor);
    rules::first_refusal(&[
        (
            rules::SIZE,
            rules::is_too_large(&a) || rules::is_too_large(&factor),
        ),
        (rules::SHAPE, misshapen),
        (rules::PATTERN, invalid),
        (rules::SPLIT, rules::is_wrongly_split(&factor, &splits)),
        (rules::NO_PLACE, rules::lacks_a_place(&a, &factor)),
    ])
}

/// Whether N is one and the patterns differ in n, which the original asks before all else.
fn differs_in_n(reading: &Reading) -> bool {
    let rows = ["starts", "offsets"].map(|name| reading.indexes(name).len());
    rules::is_dim(reading.dim()) && rows[0] != rows[1]
}

fn matrix<const NN: usize>(reading: &Reading) -> MatrixOwned<[f64; NN]> {
    let starts = reading.wide("starts");
    MatrixOwned {
        num_blk: starts.len() - 1,
        row2idx: starts,
        idx2col: reading.wide("entries"),
        idx2val: reading.values("a_values"),
        row2val: reading.values("a_diagonal"),
    }
}

fn factor<const NN: usize>(reading: &Reading) -> Preconditioner<[f64; NN]> {
    let offsets = reading.wide("offsets");
    Preconditioner {
        num_blk: offsets.len() - 1,
        row2idx: offsets,
        idx2col: reading.wide("columns"),
        row2idx_dia: reading.wide("splits"),
        idx2val: reading.values("values"),
        row2val: reading.values("diagonal"),
    }
}

fn copy_value<const N: usize, const NN: usize>(reading: &Reading) -> Worked {
    let mut factor = factor::<NN>(reading);
    sparse_ilu::copy_value(&mut factor, &matrix(reading));
    Worked::values(&[&factor.row2val, &factor.idx2val])
}

fn decompose<const N: usize, const NN: usize>(reading: &Reading) -> Worked {
    let mut factor = factor::<NN>(reading);
    let ended = sparse_ilu::decompose::<f64, N, NN>(&mut factor);
    Worked {
        singular: ended.err().map(|_| singular_row::<N, NN>(reading)),
        ..Worked::values(&[&factor.row2val, &factor.idx2val])
    }
}

/// The row at which the original stops: the first row up to which it does not come to the end. A row's values
/// depend on those of the rows before it, and on no column after it.
fn singular_row<const N: usize, const NN: usize>(reading: &Reading) -> u32 {
    let whole = factor::<NN>(reading);
    let stops = |rows: usize| {
        let mut part = leading(&whole, rows);
        sparse_ilu::decompose::<f64, N, NN>(&mut part).is_err()
    };
    let (mut low, mut high) = (0, whole.num_blk - 1);
    while low < high {
        let middle = (low + high) / 2;
        if stops(middle + 1) {
            high = middle;
        } else {
            low = middle + 1;
        }
    }
    low as u32
}

/// The first rows, with the columns that are below their count.
fn leading<const NN: usize>(
    whole: &Preconditioner<[f64; NN]>,
    rows: usize,
) -> Preconditioner<[f64; NN]> {
    let mut part = Preconditioner::new();
    part.num_blk = rows;
    part.row2val = whole.row2val[..rows].to_vec();
    for i in 0..rows {
        let split = whole.row2idx_dia[i];
        part.row2idx_dia
            .push(part.idx2col.len() + split - whole.row2idx[i]);
        for at in whole.row2idx[i]..whole.row2idx[i + 1] {
            if whole.idx2col[at] < rows {
                part.idx2col.push(whole.idx2col[at]);
                part.idx2val.push(whole.idx2val[at]);
            }
        }
        part.row2idx.push(part.idx2col.len());
    }
    part
}

fn solve<const N: usize, const NN: usize>(reading: &Reading) -> Worked {
    let factor = factor::<NN>(reading);
    let mut vec = reading.values::<N>("vec");
    sparse_ilu::solve_preconditioning_vec(&mut vec, &factor);
    Worked::values(&[&vec])
}

/// For each call and N: how often every factor of up to 3 rows is taken, and how many random ones.
const EVERY: usize = 6;
const CASES: usize = 4_000;

/// Cases of which every slice is tried at every wrong length; that have some wrong lengths at once; whose
/// patterns are tried with every fault; and that have any faults at once.
const WRONG_LENGTHS: usize = 10;
const SOME_LENGTHS: usize = 200;
const DAMAGED: usize = 30;
const FAULTS: usize = 3_000;

fn compare(settings: &Settings, tally: &mut Tally) {
    for call in CALLS {
        let random = &mut settings.random(call.name);
        call.can_answer(tally);
        for &dim in call.dims() {
            eprintln!("comparing {}, N = {dim}", call.name);
            let mut run = Run {
                call,
                dim,
                settings,
                random,
                tally,
            };
            run.compare_small();
            run.compare_pivots();
            run.compare_large();
            run.compare_lengths();
            run.compare_damaged();
            run.compare_faults();
            run.compare_ends();
        }
    }
}

/// A's pattern, and a factor's. Calls that are not lent A have the factor alone.
#[derive(Clone)]
pub(super) struct Patterns {
    pub a: Sparse,
    pub factor: Factor,
}

impl Patterns {
    pub fn filled(a: Sparse, way: Way) -> Patterns {
        Patterns {
            factor: Factor::filled(&a, way),
            a,
        }
    }

    /// Both have these rows; A's are as they are.
    pub fn alike(a: Sparse) -> Patterns {
        Patterns::filled(a, Way::Ilu0)
    }

    /// Some of at most 14 rows: A perhaps with long walks, perhaps with fewer entries than the factor was made of.
    fn any(random: &mut Random) -> Patterns {
        let a = if random.flip() {
            sparse::any_small(random)
        } else {
            sparse::any_long(random)
        };
        let mut patterns = Patterns::filled(a, *random.pick(&WAYS));
        if random.below(3) == 0 {
            let parts = random.below(16);
            let some = sparse::some_of(&patterns.factor.pattern, parts, random);
            patterns.a = some.shuffled(random);
        }
        patterns
    }

    fn given(&self, call: &SliceCall, dim: u32, fill: Fill, random: &mut Random) -> Given {
        self.given_at_limit(call, dim, 0, fill, random)
    }

    /// The same for a solver.
    pub fn given_at_limit(
        &self,
        call: &SliceCall,
        dim: u32,
        limit: u32,
        fill: Fill,
        random: &mut Random,
    ) -> Given {
        let counts = Counts {
            dim,
            rows: self.factor.n(),
            entries: self.factor.pattern.entries(),
            entries_of_a: self.a.entries(),
            limit,
            ..Counts::default()
        };
        let indexes = [
            ("starts", &self.a.offsets[..]),
            ("entries", &self.a.columns),
            ("offsets", &self.factor.pattern.offsets),
            ("columns", &self.factor.pattern.columns),
            ("splits", &self.factor.splits),
        ];
        let mut given = call.given(&counts, &indexes, fill, random);
        let has_a = call.slices().any(|slice| slice.name == "a_diagonal");
        if has_a && self.a.n() != self.factor.n() {
            // A's own diagonal.
            let count = (dim * dim) as usize * self.a.n();
            call.put(&mut given, "a_diagonal", &values::mixed(count, random));
        }
        given
    }
}

/// Cases of one call at one N.
struct Run<'a> {
    call: &'a SliceCall,
    dim: u32,
    settings: &'a Settings,
    random: &'a mut Random,
    tally: &'a mut Tally,
}

impl Run<'_> {
    fn has_a(&self) -> bool {
        self.call.name == COPY_VALUE.name
    }

    fn try_given(&mut self, given: &Given) {
        self.call.try_given(given, self.random, self.tally);
    }

    fn given(&mut self, patterns: &Patterns, fill: Fill) -> Given {
        patterns.given(self.call, self.dim, fill, self.random)
    }

    /// Right lengths and any values; for a valid factor perhaps values with pivots of choice, which for a solve
    /// are then decomposed.
    fn any_given(&mut self, patterns: &Patterns) -> Given {
        let fill = Fill::any(self.random);
        let mut given = self.given(patterns, fill);
        if self.has_a() || self.random.flip() {
            return given;
        }
        let pivots = factored::any_pivots(patterns.factor.n(), self.random);
        self.plant(&mut given, &patterns.factor, &pivots);
        given
    }

    fn plant(&mut self, given: &mut Given, factor: &Factor, pivots: &[Pivot]) {
        let mut words = factored::with_pivots(self.dim, factor, pivots, self.random);
        if self.call.name == SOLVE.name {
            words = factored::decomposed(self.dim, factor, &words);
        }
        self.put(given, &words);
    }

    fn put(&self, given: &mut Given, words: &Words) {
        self.call.put(given, "diagonal", &words.diagonal);
        self.call.put(given, "values", &words.entries);
    }

    fn try_any(&mut self, patterns: &Patterns) {
        let given = self.any_given(patterns);
        self.try_given(&given);
    }

    /// Every factor of up to 3 rows, for a copy with every A; then of 4 rows; then random ones.
    fn compare_small(&mut self) {
        for n in 1..=3 {
            for pattern in sparse::every_sorted_pattern(n) {
                let factor = Factor::of(pattern);
                if self.has_a() {
                    self.try_every_a(&factor);
                    continue;
                }
                for _ in 0..self.settings.cases(EVERY) {
                    self.try_any(&Patterns {
                        a: sparse::empty(n),
                        factor: factor.clone(),
                    });
                }
            }
        }
        for pattern in sparse::every_sorted_pattern(4) {
            let a = pattern.shuffled(self.random);
            self.try_any(&Patterns::alike(a));
        }
        for _ in 0..self.settings.cases(CASES) {
            let patterns = Patterns::any(self.random);
            self.try_any(&patterns);
            if self.has_a() && self.random.below(4) == 0 {
                self.try_without_a_place(patterns);
            }
        }
    }

    fn try_every_a(&mut self, factor: &Factor) {
        for a in sparse::every_sorted_pattern(factor.n()) {
            let a = a.shuffled(self.random);
            self.try_any(&Patterns {
                a,
                factor: factor.clone(),
            });
        }
    }

    /// The factor without some entry, which A may have or not.
    fn try_without_a_place(&mut self, patterns: Patterns) {
        if let Some(less) = patterns.factor.pattern.less_one(self.random) {
            self.try_any(&Patterns {
                a: patterns.a,
                factor: Factor::of(less),
            });
        }
    }

    /// Each singular pivot in each row of some factors, so that row 0, those between and the last one all come.
    fn compare_pivots(&mut self) {
        if self.has_a() {
            return;
        }
        let patterns = [
            sparse::empty(1),
            sparse::chain(2),
            sparse::chain(5),
            sparse::arrow(4, 0),
            sparse::dense(4),
            sparse::plate(3),
        ];
        for a in patterns {
            for way in WAYS {
                let patterns = Patterns::filled(a.clone(), way);
                for row in 0..a.n() {
                    for pivot in factored::SINGULAR {
                        let mut pivots = vec![Pivot::Regular; a.n()];
                        pivots[row] = pivot;
                        let mut given = self.given(&patterns, Fill::Mixed);
                        self.plant(&mut given, &patterns.factor, &pivots);
                        self.try_given(&given);
                    }
                }
            }
        }
    }

    fn compare_large(&mut self) {
        for patterns in large(self.dim, self.random) {
            self.try_any(&patterns);
            if !self.has_a() {
                self.try_any(&patterns);
            }
        }
    }

    fn compare_lengths(&mut self) {
        for _ in 0..self.settings.cases(WRONG_LENGTHS) {
            let patterns = Patterns::any(self.random);
            let given = self.any_given(&patterns);
            self.call.try_lengths(&given, self.random, self.tally);
            self.call.try_other_dims(&given, self.random, self.tally);
        }
        for _ in 0..self.settings.cases(SOME_LENGTHS) {
            let patterns = Patterns::any(self.random);
            let given = self.any_given(&patterns);
            self.call.try_some_lengths(&given, self.random, self.tally);
        }
        for pattern in [sparse::chain(3), sparse::dense(4), sparse::empty(2)] {
            let patterns = Patterns::alike(pattern);
            // The lengths of another N.
            for like in 1..=3 {
                let given = patterns.given(self.call, like, Fill::Mixed, self.random);
                let dim = self.dim;
                self.try_given(&Given { dim, ..given });
            }
            let call = self.call;
            call.try_own_lengths(self.random, self.tally, |other, random| {
                patterns.given(call, other, Fill::Mixed, random)
            });
        }
    }

    /// One pattern wrong by one rule, or a split: values are as many as it has, so that nothing else is wrong.
    fn compare_damaged(&mut self) {
        for _ in 0..self.settings.cases(DAMAGED) {
            let patterns = Patterns::any(self.random);
            for damage in DAMAGES {
                self.try_damaged(&patterns, damage);
            }
            for row in 0..patterns.factor.n() {
                for step in [1, u32::MAX] {
                    let mut wrong = patterns.clone();
                    let split = &mut wrong.factor.splits[row];
                    *split = split.wrapping_add(step);
                    self.try_fault(&wrong);
                }
            }
        }
        let plate = Patterns::filled(sparse::plate(16), Way::Iluk(1));
        for damage in DAMAGES {
            self.try_damaged(&plate, damage);
        }
    }

    fn try_damaged(&mut self, patterns: &Patterns, damage: Damage) {
        let mut wrong = patterns.clone();
        if let Some(pattern) = sparse::damaged(&patterns.factor.pattern, damage, self.random) {
            wrong.factor.pattern = pattern;
            self.try_fault(&wrong);
        }
        if !self.has_a() {
            return;
        }
        if let Some(pattern) = sparse::damaged(&patterns.a, damage, self.random) {
            let factor = patterns.factor.clone();
            self.try_fault(&Patterns { a: pattern, factor });
        }
    }

    fn try_fault(&mut self, wrong: &Patterns) {
        let fill = Fill::any(self.random);
        let given = self.given(wrong, fill);
        self.try_given(&given);
    }

    /// Any faults at once, of either pattern, of splits, lengths, n and sizes; decompose with singular pivots.
    fn compare_faults(&mut self) {
        for _ in 0..self.settings.cases(FAULTS) {
            let patterns = Patterns::any(self.random);
            let wrong = with_faults(patterns, self.random);
            let mut given = self.given(&wrong, Fill::Mixed);
            if !self.has_a() && self.random.flip() {
                let count = given.slices.len();
                for bytes in &mut given.slices[count - 2..] {
                    bytes.fill(0);
                }
            }
            if self.random.below(4) == 0 {
                self.call.try_some_lengths(&given, self.random, self.tally);
            } else {
                self.try_given(&given);
            }
        }
    }

    /// Both limits and what is next to them, of the factor and of A, each beside one that is right.
    fn compare_ends(&mut self) {
        for end in sparse::ends(self.random) {
            let splits = if end.n() == 0 {
                Vec::new()
            } else {
                end.clone().sorted().splits()
            };
            let sorted = Factor {
                pattern: end.clone().sorted(),
                splits: splits.clone(),
            };
            let unsorted = Factor {
                pattern: end.clone(),
                splits,
            };
            let small = Patterns::alike(sparse::chain(3));
            let empty = Factor::of(sparse::empty(4096));
            let mut tried = vec![(&end, &sorted), (&end, &unsorted)];
            if self.has_a() {
                tried.extend([(&end, &small.factor), (&small.a, &sorted), (&end, &empty)]);
            }
            for (a, factor) in tried {
                self.try_end(&Patterns {
                    a: a.clone(),
                    factor: factor.clone(),
                });
            }
        }
        if self.has_a() {
            // As many entries as there may be on one side, and one more on the other.
            let over = sparse::overfull(self.random);
            let full = sparse::some_of(&over, 15, self.random);
            for (a, factor) in [(&over, &full), (&full, &over)] {
                self.try_end(&Patterns {
                    a: a.clone(),
                    factor: Factor::of(factor.clone()),
                });
            }
        }
    }

    /// At another N and with wrong lengths too the size is asked first.
    fn try_end(&mut self, patterns: &Patterns) {
        let given = self.given(patterns, Fill::Mixed);
        self.try_given(&given);
        if given.slices.iter().map(Vec::len).sum::<usize>() < 1 << 20 {
            self.call.try_other_dims(&given, self.random, self.tally);
            self.call.try_some_lengths(&given, self.random, self.tally);
        }
    }
}

pub(super) fn damage(pattern: &mut Sparse, damage: Damage, random: &mut Random) {
    if let Some(damaged) = sparse::damaged(pattern, damage, random) {
        *pattern = damaged;
    }
}

/// Each fault with a chance of its own.
pub(super) fn with_faults(mut wrong: Patterns, random: &mut Random) -> Patterns {
    if random.below(4) == 0 {
        // An entry less, with the splits of what is left: 8 if A has it.
        if let Some(less) = wrong.factor.pattern.less_one(random) {
            wrong.factor = Factor::of(less);
        }
    }
    if random.below(3) == 0 {
        damage(&mut wrong.factor.pattern, Damage::Unsorted, random);
    }
    if random.below(4) == 0 {
        damage(&mut wrong.factor.pattern, *random.pick(&DAMAGES), random);
    }
    if random.below(4) == 0 {
        damage(&mut wrong.a, *random.pick(&DAMAGES), random);
    }
    if random.below(4) == 0 {
        let row = random.below(wrong.factor.splits.len());
        wrong.factor.splits[row] = random.below(wrong.factor.pattern.entries() + 2) as u32;
    }
    let Patterns { a, factor } = &mut wrong;
    match random.below(24) {
        0 | 1 => a.offsets.push(a.columns.len() as u32),
        2 | 3 => {
            let end = factor.pattern.columns.len() as u32;
            factor.pattern.offsets.push(end);
            factor.splits.push(end);
        }
        4 => without_rows(a, random),
        5 => without_rows(&mut factor.pattern, random),
        _ => (),
    }
    wrong
}

/// No row, with the columns as they were or without any.
fn without_rows(pattern: &mut Sparse, random: &mut Random) {
    pattern.offsets.truncate(random.below(2));
    if random.flip() {
        pattern.columns.clear();
    }
}

/// Some at 64 to 4,096 rows; rows of 255 columns and more, up to all; as many entries as there may be.
fn large(dim: u32, random: &mut Random) -> Vec<Patterns> {
    let mut large = Vec::new();
    for way in [Way::Ilu0, Way::Iluk(1), Way::Iluk(2)] {
        for side in [8, 16] {
            large.push(Patterns::filled(sparse::plate(side).shuffled(random), way));
        }
        large.push(Patterns::filled(sparse::with_entries(300, 2, random), way));
    }
    for way in [Way::Ilu0, Way::Iluk(1)] {
        large.push(Patterns::filled(sparse::plate(64).shuffled(random), way));
    }
    large.push(Patterns::filled(sparse::plate(8), Way::Full));
    large.extend(
        [
            sparse::with_long_rows(300, &[255, 256, 257, 258, 299], random),
            sparse::with_long_rows(1000, &[999, 256, 257], random),
            sparse::with_long_rows(4096, &[300, 4095], random),
            sparse::arrow(300, 0),
            sparse::arrow(600, 300).shuffled(random),
            sparse::arrow(4096, 4095),
            sparse::chain(4096),
            sparse::empty(4096),
            sparse::full(random),
        ]
        .map(Patterns::alike),
    );
    if dim == 1 {
        // All of 65,280 entries.
        large.push(Patterns::filled(sparse::arrow(256, 0), Way::Iluk(1)));
    }
    large
}
