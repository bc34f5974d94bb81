// Calls on whole vectors: zeros, copies, both updates of the solvers, fixed values, and the dot product.
// The oracle is the original's vtx2xn, and sparse_square for the right side; n is given beside the slices.

use del_msh_cpu::sparse_solver::sparse_square;
use del_msh_cpu::vtx2xn;

use super::Group;
use crate::answered::Besides;
use crate::list::Line;
use crate::original_by_dim;
use crate::random::Random;
use crate::rules::{self, Counts, Length};
use crate::settings::Settings;
use crate::slice_call::{
    self, change, every, read, write, Fill, Given, Reading, SliceCall, Take, TypedCall, Worked,
};
use crate::tally::Tally;
use crate::words;
use crate::words::Element::{Flag, Value};

pub const GROUP: Group = Group {
    name: "vectors",
    compare,
    sample,
    about: || slice_call::about(CALLS),
    input_words: |name, _, words| slice_call::input_words(CALLS, name, words),
    replay: |line| slice_call::replay(CALLS, line),
};

const N: Take = Take::Count("n");

/// Done, a wrong size, or a wrong shape.
const ANSWERS: &[u32] = &[0, 1, 2];

const CALLS: &[SliceCall] = &[
    SliceCall {
        name: "set_zero",
        has_dim: true,
        takes: &[N, write("p", Value, Length::Rows)],
        besides: Besides::Nothing,
        answers: ANSWERS,
        refusal,
        oracle: original_by_dim!(set_zero),
        panics: |_, _| false,
        port: |g, s| {
            let [p] = every(s);
            port::set_zero(g.dim, g.count(0), p.bytes_mut()).into()
        },
        typed: &[TypedCall {
            name: "timed_set_zero",
            answers: ANSWERS,
            port: |g, s| {
                let [p] = every(s);
                port::timed_set_zero(g.dim, g.count(0), p.values_mut()).into()
            },
        }],
    },
    SliceCall {
        name: "copy",
        has_dim: true,
        takes: &[
            N,
            write("p", Value, Length::Rows),
            read("u", Value, Length::Rows),
        ],
        besides: Besides::Nothing,
        answers: ANSWERS,
        refusal,
        oracle: original_by_dim!(copy),
        panics: |r, _| rows_differ(r, "p", "u"),
        port: |g, s| {
            let [p, u] = every(s);
            port::copy(g.dim, g.count(0), p.bytes_mut(), u.bytes()).into()
        },
        typed: &[TypedCall {
            name: "timed_copy",
            answers: ANSWERS,
            port: |g, s| {
                let [p, u] = every(s);
                port::timed_copy(g.dim, g.count(0), p.values_mut(), u.values()).into()
            },
        }],
    },
    SliceCall {
        name: "add_scaled_vector",
        has_dim: true,
        takes: &[
            N,
            change("u", Value, Length::Rows),
            Take::Number("alpha"),
            read("p", Value, Length::Rows),
        ],
        besides: Besides::Nothing,
        answers: ANSWERS,
        refusal,
        oracle: original_by_dim!(add_scaled_vector),
        panics: |r, _| rows_differ(r, "u", "p"),
        port: |g, s| {
            let [u, p] = every(s);
            let (n, alpha) = (g.count(0), g.number(1));
            port::add_scaled_vector(g.dim, n, u.bytes_mut(), alpha, p.bytes()).into()
        },
        typed: &[TypedCall {
            name: "timed_add_scaled_vector",
            answers: ANSWERS,
            port: |g, s| {
                let [u, p] = every(s);
                let (n, alpha) = (g.count(0), g.number(1));
                port::timed_add_scaled_vector(g.dim, n, u.values_mut(), alpha, p.values()).into()
            },
        }],
    },
    SliceCall {
        name: "scale_and_add_vec",
        has_dim: true,
        takes: &[
            N,
            change("p", Value, Length::Rows),
            Take::Number("beta"),
            read("r", Value, Length::Rows),
        ],
        besides: Besides::Nothing,
        answers: ANSWERS,
        refusal,
        oracle: original_by_dim!(scale_and_add_vec),
        panics: |r, _| rows_differ(r, "p", "r"),
        port: |g, s| {
            let [p, r] = every(s);
            let (n, beta) = (g.count(0), g.number(1));
            port::scale_and_add_vec(g.dim, n, p.bytes_mut(), beta, r.bytes()).into()
        },
        typed: &[TypedCall {
            name: "timed_scale_and_add_vec",
            answers: ANSWERS,
            port: |g, s| {
                let [p, r] = every(s);
                let (n, beta) = (g.count(0), g.number(1));
                port::timed_scale_and_add_vec(g.dim, n, p.values_mut(), beta, r.values()).into()
            },
        }],
    },
    SliceCall {
        name: "set_fixed",
        has_dim: true,
        takes: &[
            N,
            change("values", Value, Length::Rows),
            read("flags", Flag, Length::Rows),
        ],
        besides: Besides::Nothing,
        answers: ANSWERS,
        refusal,
        oracle: original_by_dim!(set_fixed),
        panics: |r, _| rows_differ(r, "values", "flags"),
        port: |g, s| {
            let [values, flags] = every(s);
            port::set_fixed(g.dim, g.count(0), values.bytes_mut(), flags.bytes()).into()
        },
        typed: &[TypedCall {
            name: "timed_set_fixed",
            answers: ANSWERS,
            port: |g, s| {
                let [values, flags] = every(s);
                port::timed_set_fixed(g.dim, g.count(0), values.values_mut(), flags.flags()).into()
            },
        }],
    },
    SliceCall {
        name: "set_fix_dof_to_rhs_vector",
        has_dim: true,
        takes: &[
            N,
            change("rhs", Value, Length::Rows),
            read("flags", Flag, Length::RowsOrMore),
        ],
        besides: Besides::Nothing,
        answers: ANSWERS,
        refusal,
        oracle: original_by_dim!(set_fix_dof_to_rhs_vector),
        panics: |r, _| whole_rows(r, "rhs", 8) > whole_rows(r, "flags", 4),
        port: |g, s| {
            let [rhs, flags] = every(s);
            let n = g.count(0);
            port::set_fix_dof_to_rhs_vector(g.dim, n, rhs.bytes_mut(), flags.bytes()).into()
        },
        typed: &[],
    },
    SliceCall {
        name: "dot",
        has_dim: true,
        takes: &[
            N,
            read("v0", Value, Length::Rows),
            read("v1", Value, Length::Rows),
        ],
        besides: Besides::NO_SUM,
        answers: ANSWERS,
        refusal,
        oracle: original_by_dim!(dot),
        panics: |r, _| rows_differ(r, "v0", "v1"),
        port: |g, s| {
            let [v0, v1] = every(s);
            port::dot(g.dim, g.count(0), v0.bytes(), v1.bytes()).into()
        },
        typed: &[TypedCall {
            name: "timed_dot",
            answers: ANSWERS,
            port: |g, s| {
                let [v0, v1] = every(s);
                port::timed_dot(g.dim, g.count(0), v0.values(), v1.values()).into()
            },
        }],
    },
];

fn refusal(reading: &Reading) -> u32 {
    let n = u128::from(reading.count("n"));
    rules::first_refusal(&[
        (rules::SIZE, !rules::rows_in_range(n)),
        (rules::SHAPE, reading.is_misshapen()),
    ])
}

/// How many whole rows a slice has, of words of so many bytes; none at a `dim` that the original has not.
fn whole_rows(reading: &Reading, name: &str, word: usize) -> usize {
    match reading.dim() {
        dim @ 1..=3 => reading.bytes(name).len() / (word * dim as usize),
        _ => 0,
    }
}

/// Whether two slices differ in whole rows: there the original panics, whatever n is.
fn rows_differ(reading: &Reading, first: &str, second: &str) -> bool {
    let word = if second == "flags" { 4 } else { 8 };
    whole_rows(reading, first, 8) != whole_rows(reading, second, word)
}

fn set_zero<const N: usize, const NN: usize>(reading: &Reading) -> Worked {
    let mut p = reading.values::<N>("p");
    vtx2xn::set_zero(&mut p);
    Worked::values(&[&p])
}

fn copy<const N: usize, const NN: usize>(reading: &Reading) -> Worked {
    let mut p = reading.values::<N>("p");
    vtx2xn::copy(&mut p, &reading.values::<N>("u"));
    Worked::values(&[&p])
}

fn add_scaled_vector<const N: usize, const NN: usize>(reading: &Reading) -> Worked {
    let mut u = reading.values::<N>("u");
    let alpha = reading.number("alpha");
    vtx2xn::add_scaled_vector(&mut u, alpha, &reading.values::<N>("p"));
    Worked::values(&[&u])
}

fn scale_and_add_vec<const N: usize, const NN: usize>(reading: &Reading) -> Worked {
    let mut p = reading.values::<N>("p");
    let beta = reading.number("beta");
    vtx2xn::scale_and_add_vec(&mut p, beta, &reading.values::<N>("r"));
    Worked::values(&[&p])
}

fn set_fixed<const N: usize, const NN: usize>(reading: &Reading) -> Worked {
    let mut values = reading.values::<N>("values");
    vtx2xn::set_fixed(&mut values, &reading.flags::<N>("flags"));
    Worked::values(&[&values])
}

fn set_fix_dof_to_rhs_vector<const N: usize, const NN: usize>(reading: &Reading) -> Worked {
    let mut rhs = reading.values::<N>("rhs");
    sparse_square::set_fix_dof_to_rhs_vector(&mut rhs, &reading.flags::<N>("flags"));
    Worked::values(&[&rhs])
}

fn dot<const N: usize, const NN: usize>(reading: &Reading) -> Worked {
    let (v0, v1) = (reading.values::<N>("v0"), reading.values::<N>("v1"));
    Worked::sum(vtx2xn::dot(&v0, &v1))
}

/// Random cases of a few rows, of 64 rows and of 4,096 rows, for each call and N.
const CASES: [(usize, usize); 3] = [(8_000, 6), (60, 64), (6, 4096)];

/// Cases of which every slice is tried at every wrong length, and cases with some wrong lengths at once.
const WRONG_LENGTHS: usize = 40;
const SOME_LENGTHS: usize = 1_000;

/// Numbers of rows that are refused, or next to those.
const ENDS: [u32; 7] = [0, 1, 4095, 4096, 4097, 1 << 31, u32::MAX];

fn compare(settings: &Settings, tally: &mut Tally) {
    for call in CALLS {
        let random = &mut settings.random(call.name);
        call.can_answer(tally);
        for &dim in call.dims() {
            eprintln!("comparing {}, N = {dim}", call.name);
            compare_accepted(call, dim, settings, random, tally);
            compare_lengths(call, dim, settings, random, tally);
            compare_ends(call, dim, random, tally);
        }
    }
}

fn given(call: &SliceCall, dim: u32, rows: usize, fill: Fill, random: &mut Random) -> Given {
    let counts = Counts {
        dim,
        rows,
        ..Counts::default()
    };
    call.given(&counts, &[], fill, random)
}

fn compare_accepted(
    call: &SliceCall,
    dim: u32,
    settings: &Settings,
    random: &mut Random,
    tally: &mut Tally,
) {
    for (cases, most) in CASES {
        for case in 0..settings.cases(cases) {
            // Every other one of the larger vectors is as large as can be.
            let n = if most > 6 && case % 2 == 0 {
                most
            } else {
                1 + random.below(most)
            };
            let given = given(call, dim, n, Fill::Mixed, random);
            call.try_given(&given, random, tally);
        }
    }
}

fn compare_lengths(
    call: &SliceCall,
    dim: u32,
    settings: &Settings,
    random: &mut Random,
    tally: &mut Tally,
) {
    let few = |random: &mut Random| {
        let n = 1 + random.below(4);
        given(call, dim, n, Fill::Mixed, random)
    };
    for _ in 0..settings.cases(WRONG_LENGTHS) {
        let given = few(random);
        call.try_lengths(&given, random, tally);
        call.try_other_dims(&given, random, tally);
    }
    for _ in 0..settings.cases(SOME_LENGTHS) {
        let given = few(random);
        call.try_some_lengths(&given, random, tally);
    }
    for n in [1, 2, 3, 6] {
        // The lengths of another N.
        for like in 1..=3 {
            let given = Given {
                dim,
                ..given(call, like, n, Fill::Mixed, random)
            };
            call.try_given(&given, random, tally);
        }
        call.try_own_lengths(random, tally, |other, random| {
            given(call, other, n, Fill::Mixed, random)
        });
    }
}

/// Every end of n, with the lengths that it asks for if they are not beyond reason, and with a few rows.
fn compare_ends(call: &SliceCall, dim: u32, random: &mut Random, tally: &mut Tally) {
    for n in ENDS {
        for rows in [n as usize, 0, 1, 4096].into_iter().filter(|&n| n < 5000) {
            let mut given = given(call, dim, rows, Fill::Mixed, random);
            given.numbers[0] = u64::from(n);
            call.try_given(&given, random, tally);
            call.try_other_dims(&given, random, tally);
        }
    }
}

fn sample(seed: u64) -> Vec<Line> {
    CALLS.iter().flat_map(|call| lines(call, seed)).collect()
}

/// Every kind of value at some N, mixed values, and refusals of n and of lengths.
fn lines(call: &SliceCall, seed: u64) -> Vec<Line> {
    let random = &mut Random::named(seed, call.name);
    let mut lines = Vec::new();
    for &dim in call.dims() {
        for fill in Fill::listed(dim).chain([Fill::Mixed]) {
            let n = 1 + random.below(3);
            lines.push(call.line(&given(call, dim, n, fill, random)));
        }
        // Two rows are lent, and n is said to be another.
        for n in [[0, 1], [4097, 3], [u32::MAX, 1]][dim as usize - 1] {
            let mut given = given(call, dim, 2, Fill::Mixed, random);
            given.numbers[0] = u64::from(n);
            lines.push(call.line(&given));
        }
        if call.name == "dot" {
            lines.push(call.line(&row_sums(call, dim, random)));
        }
    }
    lines
}

/// A row of ones and a row of 2^-26: beyond N = 1 each row's own sum shows in the last place, and one running
/// sum would lose the second row.
fn row_sums(call: &SliceCall, dim: u32, random: &mut Random) -> Given {
    let mut given = given(call, dim, 2, Fill::Mixed, random);
    let small = 1.0 / f64::from(1 << 26);
    let rows = [vec![1.0; dim as usize], vec![small; dim as usize]].concat();
    let bytes = words::bytes_of(&words::words_of(&rows));
    given.slices.fill(bytes);
    given
}
