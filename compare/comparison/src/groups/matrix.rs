// Calls on a sparse matrix: matrix times vector, zeros, and fixed rows and columns.
// The oracle is the original's sparse_square, in both forms that it has: with its own slices and with lent ones.

use del_msh_cpu::sparse_solver::sparse_square::{self, MatrixOwned, MatrixRef, MatrixRefMut};

use super::Group;
use crate::answered::Besides;
use crate::list::Line;
use crate::original_by_dim;
use crate::random::Random;
use crate::rules::{self, Counts, Length, Pattern};
use crate::settings::Settings;
use crate::slice_call::{
    self, change, every, read, write, Fill, Given, Reading, SliceCall, Take, TypedCall, Worked,
    UNCHECKED,
};
use crate::sparse::{self, Sparse, DAMAGES, OFFSET_DAMAGES};
use crate::tally::Tally;
use crate::values::Kind;
use crate::words;
use crate::words::Element::{Flag, Index, Value};

pub const GROUP: Group = Group {
    name: "matrix",
    compare,
    sample,
    about: || slice_call::about(CALLS),
    input_words: |name, _, words| slice_call::input_words(CALLS, name, words),
    replay: |line| slice_call::replay(CALLS, line),
};

const OFFSETS: Take = read("offsets", Index, Length::Any);
const COLUMNS: Take = read("columns", Index, Length::Any);

/// Done, a wrong size, a wrong shape, or no valid pattern.
const ANSWERS: &[u32] = &[0, 1, 2, 3];

const CALLS: &[SliceCall] = &[
    SliceCall {
        name: "mult_vec",
        has_dim: true,
        takes: &[
            OFFSETS,
            COLUMNS,
            read("values", Value, Length::Entries),
            read("diagonal", Value, Length::Diagonal),
            change("y", Value, Length::Rows),
            Take::Number("beta"),
            Take::Number("alpha"),
            read("x", Value, Length::Rows),
        ],
        besides: Besides::Nothing,
        answers: ANSWERS,
        refusal,
        oracle: original_by_dim!(mult_vec),
        panics: |_, _| false,
        port: |g, s| {
            let [offsets, columns, values, diagonal, y, x] = every(s);
            port::mult_vec(
                g.dim,
                offsets.bytes(),
                columns.bytes(),
                values.bytes(),
                diagonal.bytes(),
                y.bytes_mut(),
                g.number(0),
                g.number(1),
                x.bytes(),
            )
            .into()
        },
        typed: &[
            TypedCall {
                name: "timed_mult_vec",
                answers: ANSWERS,
                port: |g, s| {
                    let [offsets, columns, values, diagonal, y, x] = every(s);
                    port::timed_mult_vec(
                        g.dim,
                        offsets.indexes(),
                        columns.indexes(),
                        values.values(),
                        diagonal.values(),
                        y.values_mut(),
                        g.number(0),
                        g.number(1),
                        x.values(),
                    )
                    .into()
                },
            },
            TypedCall {
                name: "unchecked_mult_vec",
                answers: UNCHECKED,
                port: |g, s| {
                    let [offsets, columns, values, diagonal, y, x] = every(s);
                    port::unchecked_mult_vec(
                        g.dim,
                        offsets.indexes(),
                        columns.indexes(),
                        values.values(),
                        diagonal.values(),
                        y.values_mut(),
                        g.number(0),
                        g.number(1),
                        x.values(),
                    );
                    rules::DONE.into()
                },
            },
        ],
    },
    SliceCall {
        name: "matrix_set_zero",
        has_dim: true,
        takes: &[
            OFFSETS,
            COLUMNS,
            write("values", Value, Length::Entries),
            write("diagonal", Value, Length::Diagonal),
        ],
        besides: Besides::Nothing,
        answers: ANSWERS,
        refusal,
        oracle: original_by_dim!(set_zero),
        panics: |_, _| false,
        port: |g, s| {
            let [offsets, columns, values, diagonal] = every(s);
            port::matrix_set_zero(
                g.dim,
                offsets.bytes(),
                columns.bytes(),
                values.bytes_mut(),
                diagonal.bytes_mut(),
            )
            .into()
        },
        typed: &[],
    },
    SliceCall {
        name: "set_fixed_bc",
        has_dim: true,
        takes: &[
            Take::Number("val_dia"),
            read("flags", Flag, Length::Rows),
            change("diagonal", Value, Length::Diagonal),
            change("values", Value, Length::Entries),
            OFFSETS,
            COLUMNS,
        ],
        besides: Besides::Nothing,
        answers: ANSWERS,
        refusal,
        oracle: original_by_dim!(set_fixed_bc),
        panics: |_, _| false,
        port: |g, s| {
            let [flags, diagonal, values, offsets, columns] = every(s);
            port::set_fixed_bc(
                g.dim,
                g.number(0),
                flags.bytes(),
                diagonal.bytes_mut(),
                values.bytes_mut(),
                offsets.bytes(),
                columns.bytes(),
            )
            .into()
        },
        typed: &[TypedCall {
            name: "timed_set_fixed_bc",
            answers: ANSWERS,
            port: |g, s| {
                let [flags, diagonal, values, offsets, columns] = every(s);
                port::timed_set_fixed_bc(
                    g.dim,
                    g.number(0),
                    flags.flags(),
                    diagonal.values_mut(),
                    values.values_mut(),
                    offsets.indexes(),
                    columns.indexes(),
                )
                .into()
            },
        }],
    },
];

fn refusal(reading: &Reading) -> u32 {
    let (offsets, columns) = (reading.indexes("offsets"), reading.indexes("columns"));
    let pattern = Pattern {
        offsets: &offsets,
        columns: &columns,
    };
    rules::first_refusal(&[
        (rules::SIZE, rules::is_too_large(&pattern)),
        (rules::SHAPE, reading.is_misshapen()),
        (rules::PATTERN, !rules::is_valid(&pattern)),
    ])
}

/// The matrix that a call is given, in the original's own form.
pub fn owned<const NN: usize>(reading: &Reading) -> MatrixOwned<[f64; NN]> {
    let diagonal = reading.values("diagonal");
    MatrixOwned {
        num_blk: diagonal.len(),
        row2idx: reading.wide("offsets"),
        idx2col: reading.wide("columns"),
        idx2val: reading.values("values"),
        row2val: diagonal,
    }
}

fn mult_vec<const N: usize, const NN: usize>(reading: &Reading) -> Worked {
    let matrix = owned::<NN>(reading);
    let (beta, alpha) = (reading.number("beta"), reading.number("alpha"));
    let (mut y, x) = (reading.values::<N>("y"), reading.values::<N>("x"));
    let mut again = y.clone();
    matrix.mult_vec(&mut y, beta, alpha, &x);
    let lent = MatrixRef {
        num_blk: matrix.num_blk,
        row2idx: &matrix.row2idx,
        idx2col: &matrix.idx2col,
        idx2val: &matrix.idx2val,
        row2val: &matrix.row2val,
    };
    lent.mult_vec(&mut again, beta, alpha, &x);
    let words = |y: &[[f64; N]]| words::words_of(y.as_flattened());
    assert!(words(&y) == words(&again), "both forms do the same");
    Worked::values(&[&y])
}

fn set_zero<const N: usize, const NN: usize>(reading: &Reading) -> Worked {
    let mut matrix = owned::<NN>(reading);
    let (mut values, mut diagonal) = (matrix.idx2val.clone(), matrix.row2val.clone());
    let mut lent = MatrixRefMut {
        num_blk: matrix.num_blk,
        row2idx: &matrix.row2idx,
        idx2col: &matrix.idx2col,
        idx2val: &mut values,
        row2val: &mut diagonal,
    };
    lent.set_zero();
    matrix.set_zero();
    let same = (&values, &diagonal) == (&matrix.idx2val, &matrix.row2val);
    assert!(same, "both forms do the same");
    Worked::values(&[&values, &diagonal])
}

fn set_fixed_bc<const N: usize, const NN: usize>(reading: &Reading) -> Worked {
    let mut matrix = owned::<NN>(reading);
    sparse_square::set_fixed_bc(
        reading.number("val_dia"),
        &reading.flags::<N>("flags"),
        &mut matrix.row2val,
        &mut matrix.idx2val,
        &matrix.row2idx,
        &matrix.idx2col,
    );
    Worked::values(&[&matrix.row2val, &matrix.idx2val])
}

/// Cases for each call and N: how often every pattern of up to 3 rows is taken, and how many random ones.
const EVERY: usize = 4;
const CASES: usize = 5_000;

/// Matrices of 64 rows, and how many are of 256.
const LARGE: [(usize, usize); 2] = [(64, 16), (256, 4)];

/// Cases of which every slice is tried at every wrong length; that have some wrong lengths at once; and whose
/// pattern is tried with every fault, without and with some wrong lengths.
const WRONG_LENGTHS: usize = 12;
const SOME_LENGTHS: usize = 200;
const DAMAGED: usize = 30;

fn compare(settings: &Settings, tally: &mut Tally) {
    for call in CALLS {
        let random = &mut settings.random(call.name);
        call.can_answer(tally);
        for &dim in call.dims() {
            eprintln!("comparing {}, N = {dim}", call.name);
            compare_accepted(call, dim, settings, random, tally);
            compare_lengths(call, dim, settings, random, tally);
            compare_damaged(call, dim, settings, random, tally);
            compare_ends(call, dim, random, tally);
        }
    }
}

fn given(call: &SliceCall, dim: u32, pattern: &Sparse, fill: Fill, random: &mut Random) -> Given {
    let counts = Counts {
        dim,
        rows: pattern.n(),
        entries: pattern.entries(),
        ..Counts::default()
    };
    let indexes = [
        ("offsets", &pattern.offsets[..]),
        ("columns", &pattern.columns),
    ];
    call.given(&counts, &indexes, fill, random)
}

fn compare_accepted(
    call: &SliceCall,
    dim: u32,
    settings: &Settings,
    random: &mut Random,
    tally: &mut Tally,
) {
    for _ in 0..settings.cases(EVERY) {
        for pattern in (1..=3).flat_map(sparse::every_pattern) {
            let fill = Fill::any(random);
            let given = given(call, dim, &pattern, fill, random);
            call.try_given(&given, random, tally);
        }
    }
    for _ in 0..settings.cases(CASES) {
        let (pattern, fill) = (sparse::any_small(random), Fill::any(random));
        let given = given(call, dim, &pattern, fill, random);
        call.try_given(&given, random, tally);
    }
    for (n, cases) in LARGE {
        for case in 0..settings.cases(cases) {
            let pattern = large(n, case, random);
            let fill = Fill::any(random);
            let given = given(call, dim, &pattern, fill, random);
            call.try_given(&given, random, tally);
        }
    }
}

/// A plate, a chain, a dense matrix and a scattered one in turn; rows are sorted only in the plate.
fn large(n: usize, case: usize, random: &mut Random) -> Sparse {
    match case % 4 {
        0 => sparse::plate(n.isqrt()),
        1 => sparse::chain(n).shuffled(random),
        2 => sparse::dense(n).shuffled(random),
        _ => sparse::scattered(n, 3, random).shuffled(random),
    }
}

fn compare_lengths(
    call: &SliceCall,
    dim: u32,
    settings: &Settings,
    random: &mut Random,
    tally: &mut Tally,
) {
    let small = |random: &mut Random| {
        let pattern = sparse::any_small(random);
        given(call, dim, &pattern, Fill::Mixed, random)
    };
    for _ in 0..settings.cases(WRONG_LENGTHS) {
        let given = small(random);
        call.try_lengths(&given, random, tally);
        call.try_other_dims(&given, random, tally);
    }
    for _ in 0..settings.cases(SOME_LENGTHS) {
        let given = small(random);
        call.try_some_lengths(&given, random, tally);
    }
    for pattern in [sparse::chain(3), sparse::dense(4), sparse::empty(2)] {
        // The lengths of another N.
        for like in 1..=3 {
            let given = Given {
                dim,
                ..given(call, like, &pattern, Fill::Mixed, random)
            };
            call.try_given(&given, random, tally);
        }
        call.try_own_lengths(random, tally, |other, random| {
            given(call, other, &pattern, Fill::Mixed, random)
        });
    }
}

/// Values are as many as the pattern's, so that only the pattern is wrong; then lengths are wrong too, which
/// are asked before.
fn compare_damaged(
    call: &SliceCall,
    dim: u32,
    settings: &Settings,
    random: &mut Random,
    tally: &mut Tally,
) {
    for _ in 0..settings.cases(DAMAGED) {
        let pattern = sparse::any_small(random);
        for damage in DAMAGES {
            if let Some(pattern) = sparse::damaged(&pattern, damage, random) {
                let given = given(call, dim, &pattern, Fill::Mixed, random);
                call.try_given(&given, random, tally);
                call.try_some_lengths(&given, random, tally);
            }
        }
    }
    let plate = sparse::plate(16);
    for damage in DAMAGES {
        if let Some(pattern) = sparse::damaged(&plate, damage, random) {
            let given = given(call, dim, &pattern, Fill::Mixed, random);
            call.try_given(&given, random, tally);
        }
    }
}

/// No row, the limits of rows and entries, and one beyond.
fn compare_ends(call: &SliceCall, dim: u32, random: &mut Random, tally: &mut Tally) {
    for pattern in sparse::ends(random) {
        let given = given(call, dim, &pattern, Fill::Mixed, random);
        call.try_given(&given, random, tally);
        // At another N and with wrong lengths too the size is asked first.
        if given.slices.iter().map(Vec::len).sum::<usize>() < 1 << 20 {
            call.try_other_dims(&given, random, tally);
            call.try_some_lengths(&given, random, tally);
        }
    }
}

fn sample(seed: u64) -> Vec<Line> {
    CALLS.iter().flat_map(|call| lines(call, seed)).collect()
}

/// Small matrices with every kind of value at some N and with mixed values; refusals by each number.
fn lines(call: &SliceCall, seed: u64) -> Vec<Line> {
    let random = &mut Random::named(seed, call.name);
    let mut lines = Vec::new();
    for &dim in call.dims() {
        for fill in Fill::listed(dim).chain([Fill::Mixed; 2]) {
            let pattern = listed_pattern(dim, random);
            lines.push(call.line(&given(call, dim, &pattern, fill, random)));
        }
        if call.name == "mult_vec" {
            lines.push(call.line(&beta_of_zero(call, dim, random)));
        }
        lines.extend(refused_lines(call, dim, random));
    }
    lines
}

/// beta is 0 and y is infinite: that makes a NaN, since y is multiplied and not set to zeros.
fn beta_of_zero(call: &SliceCall, dim: u32, random: &mut Random) -> Given {
    let fill = Fill::Of(Kind::Ordinary);
    let mut given = given(call, dim, &sparse::chain(2), fill, random);
    given.numbers[0] = 0;
    let y = &mut given.slices[4];
    let count = y.len() / 8;
    *y = words::bytes_of(&words::words_of(&vec![f64::INFINITY; count]));
    given
}

/// A pattern of few entries, so that a line stays short.
fn listed_pattern(dim: u32, random: &mut Random) -> Sparse {
    let most = [6, 5, 2][dim as usize - 1];
    loop {
        let n = 1 + random.below(4 - dim as usize / 2);
        let pattern = sparse::scattered(n, 10, random).shuffled(random);
        if pattern.entries() <= most {
            return pattern;
        }
    }
}

/// No row, a word short, a wrong pattern, and both of these.
fn refused_lines(call: &SliceCall, dim: u32, random: &mut Random) -> Vec<Line> {
    let mut lines = Vec::new();
    let mut push = |given: &Given| lines.push(call.line(given));
    push(&given(call, dim, &sparse::empty(0), Fill::Mixed, random));
    let chain = sparse::chain(2);
    let mut short = given(call, dim, &chain, Fill::Mixed, random);
    cut_word(&mut short);
    push(&short);
    let damage = *random.pick(&OFFSET_DAMAGES);
    let wrong = sparse::damaged(&chain, damage, random).expect("a fault of the offsets");
    let mut wrong = given(call, dim, &wrong, Fill::Mixed, random);
    push(&wrong);
    cut_word(&mut wrong);
    push(&wrong);
    lines
}

/// Takes the last value from the longest slice.
pub fn cut_word(given: &mut Given) {
    let longest = given.slices.iter_mut().max_by_key(|bytes| bytes.len());
    let bytes = longest.expect("a call has slices");
    bytes.truncate(bytes.len() - 8);
}
