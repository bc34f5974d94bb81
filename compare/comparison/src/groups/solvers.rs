// The two solvers. The oracle is the original's cg; the verdict is 01's, of the history that the original gives.
// What they are tried on is in `cases`, what is refused in `refused`, and the fixed list's lines in `lines`.

mod cases;
mod lines;
mod refused;

use del_msh_cpu::sparse_solver::cg;
use del_msh_cpu::sparse_solver::sparse_ilu::Preconditioner;
use del_msh_cpu::sparse_solver::sparse_square::MatrixOwned;
use del_msh_cpu::vtx2xn;

use super::Group;
use crate::answered::{Besides, Solve};
use crate::original_by_dim;
use crate::rules::{self, Length, Pattern};
use crate::settings::Settings;
use crate::slice_call::{
    self, begin, change, every, read, write, Reading, SliceCall, Take, TypedCall, Worked,
};
use crate::tally::{Dim, Tally};
use crate::words;
use crate::words::Element::{Index, Value};

pub const GROUP: Group = Group {
    name: "solvers",
    compare,
    sample: lines::sample,
    about: || slice_call::about(CALLS),
    input_words: |name, _, words| slice_call::input_words(CALLS, name, words),
    replay: |line| slice_call::replay(CALLS, line),
};

const CALLS: &[SliceCall] = &[PLAIN, PRECONDITIONED];

const R: Take = change("r", Value, Length::Rows);
const P: Take = change("p", Value, Length::Rows);
const TOLERANCE: Take = Take::Number("tolerance");
const LIMIT: Take = Take::Count("limit");
const OFFSETS: Take = read("offsets", Index, Length::Any);
const COLUMNS: Take = read("columns", Index, Length::Any);
const VALUES: Take = read("values", Value, Length::Entries);
const DIAGONAL: Take = read("diagonal", Value, Length::Diagonal);

const PLAIN: SliceCall = SliceCall {
    name: "conjugate_gradient",
    has_dim: true,
    takes: &[
        R,
        write("u", Value, Length::Rows),
        change("ap", Value, Length::Rows),
        P,
        TOLERANCE,
        LIMIT,
        OFFSETS,
        COLUMNS,
        VALUES,
        DIAGONAL,
        begin("history", Value, Length::Ratios),
    ],
    besides: Besides::NO_SOLVE,
    answers: &[0, 1, 10, 2, 3],
    refusal: refusal_of_plain,
    oracle: original_by_dim!(plain),
    panics: |_, _| false,
    port: |g, s| {
        let [r, u, ap, p, offsets, columns, values, diagonal, history] = every(s);
        port::conjugate_gradient(
            g.dim,
            r.bytes_mut(),
            u.bytes_mut(),
            ap.bytes_mut(),
            p.bytes_mut(),
            g.number(0),
            g.count(1),
            offsets.bytes(),
            columns.bytes(),
            values.bytes(),
            diagonal.bytes(),
            history.bytes_mut(),
        )
        .into()
    },
    typed: &[TypedCall {
        name: "timed_conjugate_gradient",
        answers: &[0, 1, 10, 2, 3],
        port: |g, s| {
            let [r, u, ap, p, offsets, columns, values, diagonal, history] = every(s);
            port::timed_conjugate_gradient(
                g.dim,
                r.values_mut(),
                u.values_mut(),
                ap.values_mut(),
                p.values_mut(),
                g.number(0),
                g.count(1),
                offsets.indexes(),
                columns.indexes(),
                values.values(),
                diagonal.values(),
                history.values_mut(),
            )
            .into()
        },
    }],
};

const PRECONDITIONED: SliceCall = SliceCall {
    name: "preconditioned_conjugate_gradient",
    has_dim: true,
    takes: &[
        R,
        write("x", Value, Length::Rows),
        change("pr", Value, Length::Rows),
        P,
        TOLERANCE,
        LIMIT,
        read("starts", Index, Length::Any),
        read("entries", Index, Length::Any),
        read("a_values", Value, Length::EntriesOfA),
        read("a_diagonal", Value, Length::Diagonal),
        OFFSETS,
        COLUMNS,
        read("splits", Index, Length::Splits),
        DIAGONAL,
        VALUES,
        begin("history", Value, Length::Norms),
    ],
    besides: Besides::NO_SOLVE,
    answers: &[0, 1, 10, 2, 3, 11],
    refusal: refusal_of_preconditioned,
    oracle: original_by_dim!(preconditioned),
    panics: |_, _| false,
    port: |g, s| {
        let [r, x, pr, p, starts, entries, a_values, a_diagonal, offsets, columns, splits, diagonal, values, history] =
            every(s);
        port::preconditioned_conjugate_gradient(
            g.dim,
            r.bytes_mut(),
            x.bytes_mut(),
            pr.bytes_mut(),
            p.bytes_mut(),
            g.number(0),
            g.count(1),
            starts.bytes(),
            entries.bytes(),
            a_values.bytes(),
            a_diagonal.bytes(),
            offsets.bytes(),
            columns.bytes(),
            splits.bytes(),
            diagonal.bytes(),
            values.bytes(),
            history.bytes_mut(),
        )
        .into()
    },
    typed: &[TypedCall {
        name: "timed_preconditioned_conjugate_gradient",
        answers: &[0, 1, 10, 2, 3, 11],
        port: |g, s| {
            let [r, x, pr, p, starts, entries, a_values, a_diagonal, offsets, columns, splits, diagonal, values, history] =
                every(s);
            port::timed_preconditioned_conjugate_gradient(
                g.dim,
                r.values_mut(),
                x.values_mut(),
                pr.values_mut(),
                p.values_mut(),
                g.number(0),
                g.count(1),
                starts.indexes(),
                entries.indexes(),
                a_values.values(),
                a_diagonal.values(),
                offsets.indexes(),
                columns.indexes(),
                splits.indexes(),
                diagonal.values(),
                values.values(),
                history.values_mut(),
            )
            .into()
        },
    }],
};

fn is_preconditioned(call: &SliceCall) -> bool {
    call.name == PRECONDITIONED.name
}

fn refusal_of_plain(reading: &Reading) -> u32 {
    let [offsets, columns] = ["offsets", "columns"].map(|name| reading.indexes(name));
    let a = Pattern {
        offsets: &offsets,
        columns: &columns,
    };
    rules::first_refusal(&[
        (rules::SIZE, rules::is_too_large(&a)),
        (rules::LIMIT, !rules::limit_in_range(reading.count("limit"))),
        (rules::SHAPE, reading.is_misshapen()),
        (rules::PATTERN, !rules::is_valid(&a)),
    ])
}

/// Each condition is asked of both patterns before the next one.
fn refusal_of_preconditioned(reading: &Reading) -> u32 {
    let [starts, entries] = ["starts", "entries"].map(|name| reading.indexes(name));
    let [offsets, columns, splits] =
        ["offsets", "columns", "splits"].map(|name| reading.indexes(name));
    let a = Pattern {
        offsets: &starts,
        columns: &entries,
    };
    let factor = Pattern {
        offsets: &offsets,
        columns: &columns,
    };
    let too_large = rules::is_too_large(&a) || rules::is_too_large(&factor);
    let misshapen = reading.is_misshapen() || rules::differ_in_n(&a, &factor);
    let invalid = !rules::is_valid(&a) || !rules::is_valid(&factor);
    rules::first_refusal(&[
        (rules::SIZE, too_large),
        (rules::LIMIT, !rules::limit_in_range(reading.count("limit"))),
        (rules::SHAPE, misshapen),
        (rules::PATTERN, invalid),
        (rules::SPLIT, rules::is_wrongly_split(&factor, &splits)),
    ])
}

/// A, by the names that its slices have in this call: offsets, columns, values and diagonal.
fn matrix<const NN: usize>(reading: &Reading, names: [&str; 4]) -> MatrixOwned<[f64; NN]> {
    let [offsets, columns, values, diagonal] = names;
    let offsets = reading.wide(offsets);
    MatrixOwned {
        num_blk: offsets.len() - 1,
        row2idx: offsets,
        idx2col: reading.wide(columns),
        idx2val: reading.values(values),
        row2val: reading.values(diagonal),
    }
}

fn plain<const N: usize, const NN: usize>(reading: &Reading) -> Worked {
    let matrix = matrix::<NN>(reading, ["offsets", "columns", "values", "diagonal"]);
    let [mut r, mut u, mut ap, mut p] = ["r", "u", "ap", "p"].map(|name| reading.values::<N>(name));
    let (tolerance, limit) = (reading.number("tolerance"), reading.count("limit"));
    let ratios = cg::conjugate_gradient::<f64, N, NN>(
        &mut r,
        &mut u,
        &mut ap,
        &mut p,
        tolerance,
        limit as usize,
        matrix.as_ref(),
    );
    let verdict = rules::verdict_of_ratios(&ratios, tolerance);
    let end = match verdict {
        rules::EMPTY if vtx2xn::dot(&r, &r) < f64::EPSILON => EMPTY,
        rules::EMPTY => EMPTY_BY_LIMIT,
        rules::SETTLED => settled(ratios.len(), limit),
        _ => UNSETTLED,
    };
    solved([&r, &u, &ap, &p], &ratios, verdict, end)
}

fn preconditioned<const N: usize, const NN: usize>(reading: &Reading) -> Worked {
    let matrix = matrix::<NN>(reading, ["starts", "entries", "a_values", "a_diagonal"]);
    let factor = Preconditioner {
        num_blk: matrix.num_blk,
        row2idx: reading.wide("offsets"),
        idx2col: reading.wide("columns"),
        row2idx_dia: reading.wide("splits"),
        idx2val: reading.values("values"),
        row2val: reading.values("diagonal"),
    };
    let [mut r, mut x, mut pr, mut p] = ["r", "x", "pr", "p"].map(|name| reading.values::<N>(name));
    let limit = reading.count("limit");
    let norms = cg::preconditioned_conjugate_gradient::<f64, N, NN>(
        &mut r,
        &mut x,
        &mut pr,
        &mut p,
        reading.number("tolerance"),
        limit as usize,
        &matrix,
        &factor,
    );
    let verdict = rules::verdict_of_norms(norms.len(), limit);
    let end = match verdict {
        rules::EMPTY => EMPTY,
        rules::SETTLED => settled(norms.len() - 1, limit),
        _ if limit == 0 => UNSETTLED_BY_LIMIT,
        _ => UNSETTLED,
    };
    solved([&r, &x, &pr, &p], &norms, verdict, end)
}

fn solved<const N: usize>(
    vectors: [&[[f64; N]]; 4],
    history: &[f64],
    verdict: u32,
    end: &'static str,
) -> Worked {
    let mut worked = Worked::values(&vectors);
    worked.written.push(words::words_of(history));
    let last = history.last().copied().unwrap_or(0.0);
    Worked {
        besides: Besides::Solve(Solve {
            count: history.len() as u32,
            verdict,
            last: words::word_of(last),
        }),
        end: Some(end),
        ..worked
    }
}

/// How a solve ends, as the table names it. A plain one at limit 0 has an empty history, whatever its right side is.
const EMPTY: &str = "Empty";
const EMPTY_BY_LIMIT: &str = "Empty by limit 0";
const SETTLED_FIRST: &str = "Settled at the first step";
const SETTLED_BETWEEN: &str = "Settled later";
const SETTLED_LAST: &str = "Settled at the last step allowed";
const UNSETTLED: &str = "Unsettled";
const UNSETTLED_BY_LIMIT: &str = "Unsettled by limit 0";

fn settled(steps: usize, limit: u32) -> &'static str {
    match steps {
        1 => SETTLED_FIRST,
        _ if steps == limit as usize => SETTLED_LAST,
        _ => SETTLED_BETWEEN,
    }
}

fn ends(call: &SliceCall) -> [&'static str; 6] {
    let by_limit = if is_preconditioned(call) {
        UNSETTLED_BY_LIMIT
    } else {
        EMPTY_BY_LIMIT
    };
    [
        EMPTY,
        SETTLED_FIRST,
        SETTLED_BETWEEN,
        SETTLED_LAST,
        UNSETTLED,
        by_limit,
    ]
}

fn compare(settings: &Settings, tally: &mut Tally) {
    for call in CALLS {
        let random = &mut settings.random(call.name);
        call.can_answer(tally);
        for &dim in call.dims() {
            let names = call.typed.iter().map(|typed| typed.name);
            for name in names.chain([call.name]) {
                tally.can_end(name, Dim::of(dim), &ends(call));
            }
            eprintln!("comparing {}, N = {dim}", call.name);
            let mut run = cases::Run {
                call,
                dim,
                settings,
                random,
                tally,
            };
            run.compare_accepted();
            run.compare_refused();
        }
    }
}
