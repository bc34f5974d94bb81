// Elements added to a matrix: merge, csrdia and blkcsr, for every number of nodes.
// The oracle is the original with a buffer of its own for each element; it has to panic where 6 or 7 is answered.

use del_msh_cpu::sparse_solver::merge;
use del_msh_cpu::sparse_solver::sparse_square::MatrixRefMut;

use super::matrix::{cut_word, owned};
use super::Group;
use crate::answered::Besides;
use crate::list::Line;
use crate::random::Random;
use crate::rules::{self, Counts, Length, Pattern};
use crate::settings::Settings;
use crate::slice_call::{
    self, change, every, read, Fill, Given, Reading, SliceCall, Take, TypedCall, Worked, UNCHECKED,
};
use crate::sparse::{self, shuffle, Sparse, DAMAGES};
use crate::tally::Tally;
use crate::words;
use crate::words::Element::{Index, Value};

pub const GROUP: Group = Group {
    name: "elements",
    compare,
    sample,
    about: || slice_call::about(CALLS),
    input_words: |name, _, words| slice_call::input_words(CALLS, name, words),
    replay: |line| slice_call::replay(CALLS, line),
};

const CALLS: &[SliceCall] = &[MERGE, CSRDIA, BLKCSR];

const ROWS: Take = read("rows", Index, Length::Nodes);
const COLS: Take = read("cols", Index, Length::Nodes);
const ELEMENT: Take = read("element", Value, Length::Element);
const OFFSETS: Take = read("offsets", Index, Length::Any);
const COLUMNS: Take = read("columns", Index, Length::Any);
const DIAGONAL: Take = change("diagonal", Value, Length::Diagonal);
const VALUES: Take = change("values", Value, Length::Entries);

/// Done, or refused by any number that concerns an element.
const ANSWERS: &[u32] = &[0, 1, 2, 3, 6, 7];

/// Calls a function over N*N and the number of nodes.
macro_rules! by_nodes {
    ($work:ident, $block:literal, $reading:ident, $list:literal) => {
        match $reading.indexes($list).len() {
            1 => $work::<$block, 1>($reading),
            2 => $work::<$block, 2>($reading),
            3 => $work::<$block, 3>($reading),
            4 => $work::<$block, 4>($reading),
            5 => $work::<$block, 5>($reading),
            6 => $work::<$block, 6>($reading),
            7 => $work::<$block, 7>($reading),
            8 => $work::<$block, 8>($reading),
            _ => unreachable!("the rules let only 1 to 8 by"),
        }
    };
}

/// Makes an oracle of such a function.
macro_rules! by_dim_and_nodes {
    ($work:ident, $list:literal) => {
        |reading| match reading.dim() {
            1 => by_nodes!($work, 1, reading, $list),
            2 => by_nodes!($work, 4, reading, $list),
            3 => by_nodes!($work, 9, reading, $list),
            _ => unreachable!("the rules let only 1, 2 and 3 by"),
        }
    };
}

const MERGE: SliceCall = SliceCall {
    name: "merge",
    has_dim: true,
    takes: &[
        read("nodes", Index, Length::Nodes),
        ELEMENT,
        OFFSETS,
        COLUMNS,
        DIAGONAL,
        VALUES,
    ],
    besides: Besides::Nothing,
    answers: ANSWERS,
    refusal,
    oracle: by_dim_and_nodes!(merged, "nodes"),
    panics: |_, number| [rules::NODE, rules::NO_ENTRY].contains(&number),
    port: |g, s| {
        let [nodes, element, offsets, columns, diagonal, values] = every(s);
        port::merge(
            g.dim,
            nodes.bytes(),
            element.bytes(),
            offsets.bytes(),
            columns.bytes(),
            diagonal.bytes_mut(),
            values.bytes_mut(),
        )
        .into()
    },
    typed: &[
        TypedCall {
            name: "timed_merge",
            answers: ANSWERS,
            port: |g, s| {
                let [nodes, element, offsets, columns, diagonal, values] = every(s);
                port::timed_merge(
                    g.dim,
                    nodes.indexes(),
                    element.values(),
                    offsets.indexes(),
                    columns.indexes(),
                    diagonal.values_mut(),
                    values.values_mut(),
                )
                .into()
            },
        },
        TypedCall {
            name: "unchecked_merge",
            answers: UNCHECKED,
            port: |g, s| {
                let [nodes, element, offsets, columns, diagonal, values] = every(s);
                port::unchecked_merge(
                    g.dim,
                    nodes.indexes(),
                    element.values(),
                    offsets.indexes(),
                    columns.indexes(),
                    diagonal.values_mut(),
                    values.values_mut(),
                );
                rules::DONE.into()
            },
        },
    ],
};

const CSRDIA: SliceCall = SliceCall {
    name: "csrdia",
    has_dim: false,
    takes: &[ROWS, COLS, ELEMENT, OFFSETS, COLUMNS, DIAGONAL, VALUES],
    oracle: |reading| by_nodes!(csrdia, 1, reading, "rows"),
    port: |_, s| {
        let [rows, cols, element, offsets, columns, diagonal, values] = every(s);
        port::csrdia(
            rows.bytes(),
            cols.bytes(),
            element.bytes(),
            offsets.bytes(),
            columns.bytes(),
            diagonal.bytes_mut(),
            values.bytes_mut(),
        )
        .into()
    },
    typed: &[],
    ..MERGE
};

const BLKCSR: SliceCall = SliceCall {
    name: "blkcsr",
    takes: &[ROWS, COLS, ELEMENT, OFFSETS, COLUMNS, VALUES],
    oracle: by_dim_and_nodes!(blkcsr, "rows"),
    port: |g, s| {
        let [rows, cols, element, offsets, columns, values] = every(s);
        port::blkcsr(
            g.dim,
            rows.bytes(),
            cols.bytes(),
            element.bytes(),
            offsets.bytes(),
            columns.bytes(),
            values.bytes_mut(),
        )
        .into()
    },
    typed: &[],
    ..MERGE
};

/// The lists of an element's rows and columns: one list for both, or two.
fn lists(reading: &Reading) -> (Vec<u32>, Vec<u32>) {
    if reading.name() == MERGE.name {
        (reading.indexes("nodes"), reading.indexes("nodes"))
    } else {
        (reading.indexes("rows"), reading.indexes("cols"))
    }
}

/// The pairs that go to an entry.
fn entry_pairs(call: &str, rows: &[u32], cols: &[u32]) -> Vec<(u32, u32)> {
    match call {
        "merge" => rules::entry_pairs_of_merge(rows),
        "csrdia" => rules::entry_pairs_of_csrdia(rows, cols),
        _ => rules::entry_pairs_of_blkcsr(rows, cols),
    }
}

/// Whether a row's own column may stand in the call's pattern.
fn may_have_own_columns(call: &str) -> bool {
    call == BLKCSR.name
}

fn refusal(reading: &Reading) -> u32 {
    let (offsets, columns) = (reading.indexes("offsets"), reading.indexes("columns"));
    let pattern = Pattern {
        offsets: &offsets,
        columns: &columns,
    };
    let (rows, cols) = lists(reading);
    let pairs = entry_pairs(reading.name(), &rows, &cols);
    let valid = if may_have_own_columns(reading.name()) {
        rules::is_valid_with_own_columns(&pattern)
    } else {
        rules::is_valid(&pattern)
    };
    rules::first_refusal(&[
        (rules::SIZE, rules::is_too_large(&pattern)),
        (rules::SHAPE, reading.is_misshapen()),
        (rules::PATTERN, !valid),
        (
            rules::NODE,
            rules::names_a_node_beyond_n(&pattern, &[rows, cols].concat()),
        ),
        (rules::NO_ENTRY, rules::finds_no_entry(&pattern, &pairs)),
    ])
}

/// Blocks of an element, by row node and column node.
fn element<const NN: usize, const M: usize>(reading: &Reading) -> [[[f64; NN]; M]; M] {
    let blocks = reading.values::<NN>("element");
    let rows = blocks.as_chunks::<M>().0;
    rows.try_into().expect("the rules let only m*m blocks by")
}

fn nodes<const M: usize>(reading: &Reading, list: &str) -> [usize; M] {
    let nodes = reading.wide(list);
    nodes.try_into().expect("the rules let only m nodes by")
}

fn merged<const NN: usize, const M: usize>(reading: &Reading) -> Worked {
    let mut matrix = owned::<NN>(reading);
    let (mut values, mut diagonal) = (matrix.idx2val.clone(), matrix.row2val.clone());
    let (element, nodes) = (element::<NN, M>(reading), nodes::<M>(reading, "nodes"));
    let mut lent = MatrixRefMut {
        num_blk: matrix.num_blk,
        row2idx: &matrix.row2idx,
        idx2col: &matrix.idx2col,
        idx2val: &mut values,
        row2val: &mut diagonal,
    };
    lent.merge_for_array_blk(&element, &nodes, &mut Vec::new());
    matrix.merge(&element, &nodes, &mut Vec::new());
    let same = |a: &[[f64; NN]], b: &[[f64; NN]]| {
        words::words_of(a.as_flattened()) == words::words_of(b.as_flattened())
    };
    let both = same(&matrix.row2val, &diagonal) && same(&matrix.idx2val, &values);
    assert!(both, "both forms do the same");
    Worked::values(&[&diagonal, &values])
}

fn csrdia<const NN: usize, const M: usize>(reading: &Reading) -> Worked {
    let mut diagonal = reading.values::<1>("diagonal");
    let mut values = reading.values::<1>("values");
    merge::csrdia(
        &nodes::<M>(reading, "rows"),
        &nodes::<M>(reading, "cols"),
        &element::<NN, M>(reading),
        &reading.wide("offsets"),
        &reading.wide("columns"),
        diagonal.as_flattened_mut(),
        values.as_flattened_mut(),
        &mut Vec::new(),
    );
    Worked::values(&[&diagonal, &values])
}

fn blkcsr<const NN: usize, const M: usize>(reading: &Reading) -> Worked {
    let mut values = reading.values::<1>("values");
    merge::blkcsr(
        &nodes::<M>(reading, "rows"),
        &nodes::<M>(reading, "cols"),
        &element::<NN, M>(reading),
        &reading.wide("offsets"),
        &reading.wide("columns"),
        values.as_flattened_mut(),
        &mut Vec::new(),
    );
    Worked::values(&[&values])
}

/// Cases for each call, N and number of nodes: accepted ones, and ones that are tried with every fault.
const CASES: usize = 400;
const FAULTY: usize = 40;

/// Cases of which every slice is tried at every wrong length; and that have some wrong lengths at once.
const WRONG_LENGTHS: usize = 2;
const SOME_LENGTHS: usize = 20;

fn compare(settings: &Settings, tally: &mut Tally) {
    for call in CALLS {
        let random = &mut settings.random(call.name);
        call.can_answer(tally);
        for &dim in call.dims() {
            eprintln!("comparing {}, N = {dim}", call.name);
            // A call without N is tried as often as the others are at every N.
            for _ in 0..3 / call.dims().len() {
                for m in 1..=8 {
                    compare_nodes(call, dim, m, settings, random, tally);
                }
            }
            compare_ends(call, dim, random, tally);
        }
    }
}

/// An element, and a matrix that it is added to.
#[derive(Clone)]
struct Made {
    rows: Vec<u32>,
    cols: Vec<u32>,
    pattern: Sparse,
}

impl Made {
    /// An element of m nodes on some rows, with the entries that it needs and perhaps others.
    fn any(call: &SliceCall, m: usize, random: &mut Random) -> Made {
        let n = m + random.below(7);
        let rows = some_nodes(call, n, m, random);
        let cols = match random.below(3) {
            0 => rows.clone(),
            1 => {
                let mut cols = rows.clone();
                shuffle(&mut cols, random);
                cols
            }
            _ => some_nodes(call, n, m, random),
        };
        Made::on(call, n, rows, cols, random)
    }

    fn on(call: &SliceCall, n: usize, rows: Vec<u32>, cols: Vec<u32>, random: &mut Random) -> Made {
        let needed = entry_pairs(call.name, &rows, &cols);
        let parts = *random.pick(&[0, 3, 8, 16]);
        let own = may_have_own_columns(call.name);
        let pattern = sparse::where_stands(n, |i, j| {
            let other = (own || i != j) && random.below(16) < parts;
            other || needed.contains(&(i as u32, j as u32))
        });
        Made {
            rows,
            cols,
            pattern: pattern.shuffled(random),
        }
    }

    fn given(&self, call: &SliceCall, dim: u32, fill: Fill, random: &mut Random) -> Given {
        let counts = Counts {
            dim,
            rows: self.pattern.n(),
            entries: self.pattern.entries(),
            nodes: self.rows.len(),
            ..Counts::default()
        };
        let indexes = [
            ("nodes", &self.rows[..]),
            ("rows", &self.rows),
            ("cols", &self.cols),
            ("offsets", &self.pattern.offsets),
            ("columns", &self.pattern.columns),
        ];
        call.given(&counts, &indexes, fill, random)
    }

    /// Without one of the entries that it needs; None if it needs none.
    fn without_entry(&self, call: &SliceCall, random: &mut Random) -> Option<Made> {
        let needed = entry_pairs(call.name, &self.rows, &self.cols);
        if needed.is_empty() {
            return None;
        }
        let (row, column) = *random.pick(&needed);
        Some(Made {
            pattern: self.pattern.without(row, column),
            ..self.clone()
        })
    }

    /// With a node at or above n, in one of its lists.
    fn beyond(&self, call: &SliceCall, random: &mut Random) -> Made {
        let mut made = self.clone();
        let n = self.pattern.n() as u32;
        let list = if call.name == MERGE.name || random.flip() {
            &mut made.rows
        } else {
            &mut made.cols
        };
        let at = random.below(list.len());
        list[at] = *random.pick(&[n, n + 1, 4096, 1 << 31, u32::MAX]);
        made
    }

    /// With one of its rows named twice, which `merge` refuses; None if it has but one.
    fn twice(&self, random: &mut Random) -> Option<Made> {
        let mut made = self.clone();
        let at = 1 + random.below(made.rows.len().checked_sub(1).filter(|&m| m > 0)?);
        made.rows[at] = made.rows[random.below(at)];
        Some(made)
    }

    /// With a fault in the pattern.
    fn damaged(&self, random: &mut Random) -> Option<Made> {
        let damage = *random.pick(&DAMAGES);
        let pattern = sparse::damaged(&self.pattern, damage, random)?;
        Some(Made {
            pattern,
            ..self.clone()
        })
    }

    /// Everything that can be wrong with it, one fault and two at once.
    fn faulty(&self, call: &SliceCall, random: &mut Random) -> Vec<Made> {
        let missing = self.without_entry(call, random);
        let beyond = self.beyond(call, random);
        let mut made: Vec<Made> = self.damaged(random).into_iter().collect();
        made.extend(self.twice(random));
        made.extend(beyond.damaged(random));
        if let Some(missing) = missing {
            made.push(missing.beyond(call, random));
            made.extend(missing.damaged(random));
            made.push(missing);
        }
        made.push(beyond);
        made
    }
}

/// Nodes below n. Those of `merge` are distinct; in the other calls some may be named again.
fn some_nodes(call: &SliceCall, n: usize, m: usize, random: &mut Random) -> Vec<u32> {
    if call.name != MERGE.name && random.flip() {
        return (0..m).map(|_| random.below(n) as u32).collect();
    }
    let mut nodes: Vec<u32> = (0..n as u32).collect();
    shuffle(&mut nodes, random);
    nodes.truncate(m);
    nodes
}

fn compare_nodes(
    call: &SliceCall,
    dim: u32,
    m: usize,
    settings: &Settings,
    random: &mut Random,
    tally: &mut Tally,
) {
    for _ in 0..settings.cases(CASES) {
        let (made, fill) = (Made::any(call, m, random), Fill::any(random));
        let given = made.given(call, dim, fill, random);
        call.try_given(&given, random, tally);
    }
    for _ in 0..settings.cases(FAULTY) {
        let made = Made::any(call, m, random);
        for faulty in made.faulty(call, random) {
            let given = faulty.given(call, dim, Fill::Mixed, random);
            call.try_given(&given, random, tally);
            // Wrong lengths are asked before.
            if random.below(4) == 0 {
                call.try_some_lengths(&given, random, tally);
            }
        }
    }
    for _ in 0..settings.cases(WRONG_LENGTHS) {
        let made = Made::any(call, m, random);
        let given = made.given(call, dim, Fill::Mixed, random);
        call.try_lengths(&given, random, tally);
        call.try_other_dims(&given, random, tally);
        call.try_own_lengths(random, tally, |other, random| {
            made.given(call, other, Fill::Mixed, random)
        });
    }
    for _ in 0..settings.cases(SOME_LENGTHS) {
        let made = Made::any(call, m, random);
        let given = made.given(call, dim, Fill::Mixed, random);
        call.try_some_lengths(&given, random, tally);
    }
}

/// Elements of no node and of more than 8, lists that differ in length, no row, the limits of a pattern and one
/// beyond, and cells of plates.
fn compare_ends(call: &SliceCall, dim: u32, random: &mut Random, tally: &mut Tally) {
    let mut ends = Vec::new();
    for m in [0, 9, 10, 16] {
        ends.push(Made::any(call, m, random));
    }
    for (m, other) in [(2, 1), (2, 3), (1, 8), (8, 9), (9, 8), (1, 0), (0, 1)] {
        let mut made = Made::any(call, m, random);
        made.cols = vec![0; other];
        ends.push(made);
    }
    // Row 0 and its first entry, if it has one.
    let node = |pattern: Sparse| Made {
        rows: vec![0],
        cols: vec![pattern.columns.first().copied().unwrap_or(0)],
        pattern,
    };
    ends.extend(sparse::ends(random).into_iter().map(node));
    ends.extend(cells(call, 8, 12, random));
    ends.extend(cells(call, 64, 2, random));
    for made in ends {
        let given = made.given(call, dim, Fill::Mixed, random);
        call.try_given(&given, random, tally);
        // At another N and with wrong lengths too the size is asked first.
        if given.slices.iter().map(Vec::len).sum::<usize>() < 1 << 20 {
            call.try_other_dims(&given, random, tally);
            call.try_some_lengths(&given, random, tally);
        }
    }
}

/// Some cells of a plate, with rows in some order.
fn cells(call: &SliceCall, side: usize, count: usize, random: &mut Random) -> Vec<Made> {
    let (mut plate, cells) = (sparse::plate(side), sparse::cells(side));
    if may_have_own_columns(call.name) {
        plate = plate.with_own_columns();
    }
    let mut made = Vec::new();
    for _ in 0..count {
        let nodes = random.pick(&cells).to_vec();
        made.push(Made {
            rows: nodes.clone(),
            cols: nodes,
            pattern: plate.clone().shuffled(random),
        });
    }
    made
}

fn sample(seed: u64) -> Vec<Line> {
    CALLS.iter().flat_map(|call| lines(call, seed)).collect()
}

/// Elements of one and two nodes with every kind of value at some N and with mixed values; every fault.
fn lines(call: &SliceCall, seed: u64) -> Vec<Line> {
    let random = &mut Random::named(seed, call.name);
    let mut lines = Vec::new();
    for &dim in call.dims() {
        for fill in Fill::listed(dim).chain([Fill::Mixed; 2]) {
            let given = listed(call, dim, random).given(call, dim, fill, random);
            lines.push(call.line(&given));
        }
        lines.extend(refused_lines(call, dim, random));
    }
    lines
}

/// An element on a matrix so small that a line stays short.
fn listed(call: &SliceCall, dim: u32, random: &mut Random) -> Made {
    let most = [8, 5, 2][dim as usize - 1];
    loop {
        let m = 1 + random.below(4 - dim as usize / 2);
        let made = Made::any(call, m, random);
        let size = made.pattern.n().max(made.pattern.entries());
        if size <= most && m * m <= 2 * most {
            return made;
        }
    }
}

/// No row, no node, an entry that is missing, a node beyond n, a word short; at N = 1 every fault.
fn refused_lines(call: &SliceCall, dim: u32, random: &mut Random) -> Vec<Line> {
    let made = |rows: &[u32], cols: &[u32], pattern: Sparse| Made {
        rows: rows.to_vec(),
        cols: cols.to_vec(),
        pattern,
    };
    let one = made(&[1], &[0], sparse::chain(2));
    let mut tried = vec![
        made(&[0], &[1], sparse::empty(0)),
        made(&[], &[], sparse::chain(2)),
        made(&[0, 1], &[1, 0], sparse::empty(2)),
        one.beyond(call, random),
    ];
    if dim == 1 {
        let two = made(&[0, 1], &[1, 0], sparse::chain(2));
        tried.extend(two.faulty(call, random));
    }
    let mut given: Vec<Given> = Vec::new();
    for made in tried {
        given.push(made.given(call, dim, Fill::Mixed, random));
    }
    let mut short = one.given(call, dim, Fill::Mixed, random);
    cut_word(&mut short);
    given.push(short);
    given.iter().map(|given| call.line(given)).collect()
}
