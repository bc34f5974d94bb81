// Calls on vectors, and on the matrix of a square plate whose nodes each have 8 neighbours.
// What a call changes stands in the one slice that it writes: of a matrix the diagonal, then the entries.

use del_msh_cpu::sparse_solver::sparse_square::{self, MatrixRef, MatrixRefMut};
use del_msh_cpu::vtx2xn;

use super::{ordinary, Inputs, Timed};
use crate::random::Random;
use crate::sparse::{self, Sparse};

/// Factors that round almost every product, and with which no vector grows beyond reason when a call is repeated.
const ALPHA: f64 = 0.3;
const BETA: f64 = -0.7;

/// What is written to the diagonal of a fixed node.
const FIXED_VALUE: f64 = 1.5;

/// One node in so many is fixed: 5 %.
const FIXED_IN: usize = 20;

/// Elements of a run of the checked merge, which looks through the whole pattern for each.
const CELLS: usize = 8;

/// The original's side at each N.
macro_rules! by_dim {
    ($work:ident) => {
        Some(|dim, s, out| match dim {
            1 => $work::<1, 1>(s, out),
            2 => $work::<2, 4>(s, out),
            _ => $work::<3, 9>(s, out),
        })
    };
}

const VECTOR: Timed = Timed {
    name: "set_zero",
    dims: &[1, 2, 3],
    unit: "rows",
    units: |n| n,
    inputs: vectors,
    output: |dim, n| dim * n,
    port: |dim, _, out| done(port::timed_set_zero(dim as u32, rows(out, dim), out)),
    rust: by_dim!(set_zero),
};

pub const PLATES: &[Timed] = &[
    VECTOR,
    Timed {
        name: "copy",
        port: |dim, s, out| {
            let n = rows(out, dim);
            done(port::timed_copy(dim as u32, n, out, &s.values[0]))
        },
        rust: by_dim!(copy),
        ..VECTOR
    },
    Timed {
        name: "add_scaled_vector",
        port: |dim, s, out| {
            let (n, p) = (rows(out, dim), &s.values[0]);
            done(port::timed_add_scaled_vector(dim as u32, n, out, ALPHA, p))
        },
        rust: by_dim!(add_scaled_vector),
        ..VECTOR
    },
    Timed {
        name: "scale_and_add_vec",
        port: |dim, s, out| {
            let (n, r) = (rows(out, dim), &s.values[0]);
            done(port::timed_scale_and_add_vec(dim as u32, n, out, BETA, r))
        },
        rust: by_dim!(scale_and_add_vec),
        ..VECTOR
    },
    Timed {
        name: "set_fixed",
        port: |dim, s, out| {
            let n = rows(out, dim);
            done(port::timed_set_fixed(dim as u32, n, out, &s.flags))
        },
        rust: by_dim!(set_fixed),
        ..VECTOR
    },
    Timed {
        name: "dot",
        output: |_, _| 1,
        port: |dim, s, out| {
            let (v0, v1) = (&s.values[0], &s.values[1]);
            let summed = port::timed_dot(dim as u32, rows(v0, dim), v0, v1);
            done(summed.number);
            out[0] = summed.sum;
        },
        rust: by_dim!(dot),
        ..VECTOR
    },
    CHECK_PATTERN,
    Timed {
        name: "check_pattern, unsorted",
        inputs: |_, n, random| pattern_inputs(plate(n).shuffled(random)),
        ..CHECK_PATTERN
    },
    MULT_VEC,
    Timed {
        name: "mult_vec, unsorted",
        inputs: |dim, n, random| matrix(dim, plate(n).shuffled(random), random),
        ..MULT_VEC
    },
    UNCHECKED_MULT_VEC,
    Timed {
        name: "mult_vec, unsorted, unchecked",
        inputs: |dim, n, random| matrix(dim, plate(n).shuffled(random), random),
        ..UNCHECKED_MULT_VEC
    },
    Timed {
        name: "set_fixed_bc",
        inputs: fixed_plate,
        output: matrix_values,
        port: |dim, s, out| {
            let [offsets, columns] = both(&s.indexes);
            let (diagonal, values) = parted(dim, offsets.len() - 1, out);
            done(port::timed_set_fixed_bc(
                dim as u32,
                FIXED_VALUE,
                &s.flags,
                diagonal,
                values,
                offsets,
                columns,
            ));
        },
        rust: by_dim!(set_fixed_bc),
        ..VECTOR
    },
    MERGE,
    Timed {
        name: "merge, unchecked",
        units: |n| cells(n, usize::MAX).len() / 4,
        inputs: |dim, n, random| elements(dim, n, usize::MAX, random),
        port: |dim, s, out| {
            let [offsets, columns] = both(&s.indexes);
            let (diagonal, values) = parted(dim, offsets.len() - 1, out);
            for nodes in s.indexes[2].chunks_exact(4) {
                let dim = dim as u32;
                let element = &s.values[0];
                port::unchecked_merge(dim, nodes, element, offsets, columns, diagonal, values);
            }
        },
        ..MERGE
    },
];

const CHECK_PATTERN: Timed = Timed {
    name: "check_pattern, sorted",
    dims: &[1],
    inputs: |_, n, _| pattern_inputs(plate(n)),
    output: |_, _| 0,
    port: |_, s, _| {
        let [offsets, columns] = both(&s.indexes);
        done(port::timed_check_pattern(offsets, columns));
    },
    rust: None,
    ..VECTOR
};

const MULT_VEC: Timed = Timed {
    name: "mult_vec, sorted",
    inputs: |dim, n, random| matrix(dim, plate(n), random),
    port: |dim, s, y| {
        let ([offsets, columns], [values, diagonal, x]) = (both(&s.indexes), three(&s.values));
        let dim = dim as u32;
        done(port::timed_mult_vec(
            dim, offsets, columns, values, diagonal, y, BETA, ALPHA, x,
        ));
    },
    rust: by_dim!(mult_vec),
    ..VECTOR
};

const UNCHECKED_MULT_VEC: Timed = Timed {
    name: "mult_vec, sorted, unchecked",
    port: |dim, s, y| {
        let ([offsets, columns], [values, diagonal, x]) = (both(&s.indexes), three(&s.values));
        let dim = dim as u32;
        port::unchecked_mult_vec(dim, offsets, columns, values, diagonal, y, BETA, ALPHA, x);
    },
    ..MULT_VEC
};

const MERGE: Timed = Timed {
    name: "merge",
    unit: "elements",
    units: |_| CELLS,
    inputs: |dim, n, random| elements(dim, n, CELLS, random),
    output: matrix_values,
    port: |dim, s, out| {
        let [offsets, columns] = both(&s.indexes);
        let (diagonal, values) = parted(dim, offsets.len() - 1, out);
        for nodes in s.indexes[2].chunks_exact(4) {
            let (dim, element) = (dim as u32, &s.values[0]);
            done(port::timed_merge(
                dim, nodes, element, offsets, columns, diagonal, values,
            ));
        }
    },
    rust: by_dim!(merge),
    ..VECTOR
};

/// A refused call would be quick, and no measure.
fn done(number: u32) {
    assert_eq!(number, 0, "the port refuses what is measured");
}

fn rows(values: &[f64], dim: usize) -> u32 {
    (values.len() / dim) as u32
}

/// Offsets and columns.
fn both<T>(indexes: &[Vec<T>]) -> [&[T]; 2] {
    [&indexes[0], &indexes[1]]
}

/// Entry values, diagonal values and a vector.
fn three(values: &[Vec<f64>]) -> [&[f64]; 3] {
    [&values[0], &values[1], &values[2]]
}

/// The diagonal and the entries of a matrix that a call changes.
fn parted(dim: usize, n: usize, out: &mut [f64]) -> (&mut [f64], &mut [f64]) {
    out.split_at_mut(dim * dim * n)
}

fn plate(n: usize) -> Sparse {
    sparse::plate(n.isqrt())
}

fn matrix_values(dim: usize, n: usize) -> usize {
    dim * dim * (n + plate(n).entries())
}

/// The nodes of at most so many cells of a plate, four each, spread over it.
fn cells(n: usize, most: usize) -> Vec<u32> {
    let all = sparse::cells(n.isqrt());
    let count = most.min(all.len());
    let spread = (0..count).map(|at| all[at * all.len() / count]);
    spread.flatten().collect()
}

/// Flags of n nodes, of which one in `FIXED_IN` is fixed in all its values.
fn fixed(dim: usize, n: usize, random: &mut Random) -> Vec<i32> {
    let mut nodes: Vec<usize> = (0..n).collect();
    sparse::shuffle(&mut nodes, random);
    let mut flags = vec![0; dim * n];
    for node in &nodes[..n / FIXED_IN] {
        flags[dim * node..dim * (node + 1)].fill(1);
    }
    flags
}

fn vectors(dim: usize, n: usize, random: &mut Random) -> Inputs {
    let values = vec![ordinary(dim * n, random), ordinary(dim * n, random)];
    Inputs {
        flags: fixed(dim, n, random),
        ..Inputs::of(values)
    }
}

fn with_indexes(inputs: Inputs, indexes: Vec<Vec<u32>>) -> Inputs {
    let wide = |list: &Vec<u32>| list.iter().map(|&index| index as usize).collect();
    Inputs {
        wide: indexes.iter().map(wide).collect(),
        indexes,
        ..inputs
    }
}

fn pattern_inputs(pattern: Sparse) -> Inputs {
    with_indexes(Inputs::default(), vec![pattern.offsets, pattern.columns])
}

fn matrix(dim: usize, pattern: Sparse, random: &mut Random) -> Inputs {
    let block = dim * dim;
    let values = vec![
        ordinary(block * pattern.entries(), random),
        ordinary(block * pattern.n(), random),
        ordinary(dim * pattern.n(), random),
    ];
    with_indexes(Inputs::of(values), vec![pattern.offsets, pattern.columns])
}

fn fixed_plate(dim: usize, n: usize, random: &mut Random) -> Inputs {
    Inputs {
        flags: fixed(dim, n, random),
        ..pattern_inputs(plate(n))
    }
}

/// One element's values, which every cell has, and the nodes of at most so many cells.
fn elements(dim: usize, n: usize, most: usize, random: &mut Random) -> Inputs {
    let values = vec![ordinary(16 * dim * dim, random)];
    let pattern = plate(n);
    let indexes = vec![pattern.offsets, pattern.columns, cells(n, most)];
    with_indexes(Inputs::of(values), indexes)
}

fn set_zero<const N: usize, const NN: usize>(_: &mut Inputs, out: &mut [f64]) {
    vtx2xn::set_zero::<f64, N>(out.as_chunks_mut().0);
}

fn copy<const N: usize, const NN: usize>(s: &mut Inputs, out: &mut [f64]) {
    vtx2xn::copy::<f64, N>(out.as_chunks_mut().0, s.values[0].as_chunks().0);
}

fn add_scaled_vector<const N: usize, const NN: usize>(s: &mut Inputs, out: &mut [f64]) {
    let p = s.values[0].as_chunks().0;
    vtx2xn::add_scaled_vector::<f64, N>(out.as_chunks_mut().0, ALPHA, p);
}

fn scale_and_add_vec<const N: usize, const NN: usize>(s: &mut Inputs, out: &mut [f64]) {
    let r = s.values[0].as_chunks().0;
    vtx2xn::scale_and_add_vec::<f64, N>(out.as_chunks_mut().0, BETA, r);
}

fn set_fixed<const N: usize, const NN: usize>(s: &mut Inputs, out: &mut [f64]) {
    vtx2xn::set_fixed::<f64, N>(out.as_chunks_mut().0, s.flags.as_chunks().0);
}

fn dot<const N: usize, const NN: usize>(s: &mut Inputs, out: &mut [f64]) {
    out[0] = vtx2xn::dot::<f64, N>(s.values[0].as_chunks().0, s.values[1].as_chunks().0);
}

fn mult_vec<const N: usize, const NN: usize>(s: &mut Inputs, out: &mut [f64]) {
    let ([row2idx, idx2col], [values, diagonal, x]) = (both(&s.wide), three(&s.values));
    let matrix = MatrixRef::<f64, NN> {
        num_blk: row2idx.len() - 1,
        row2idx,
        idx2col,
        idx2val: values.as_chunks().0,
        row2val: diagonal.as_chunks().0,
    };
    matrix.mult_vec::<N>(out.as_chunks_mut().0, BETA, ALPHA, x.as_chunks().0);
}

fn set_fixed_bc<const N: usize, const NN: usize>(s: &mut Inputs, out: &mut [f64]) {
    let [offsets, columns] = both(&s.wide);
    let (diagonal, values) = parted(N, offsets.len() - 1, out);
    sparse_square::set_fixed_bc::<f64, N, NN>(
        FIXED_VALUE,
        s.flags.as_chunks().0,
        diagonal.as_chunks_mut().0,
        values.as_chunks_mut().0,
        offsets,
        columns,
    );
}

fn merge<const N: usize, const NN: usize>(s: &mut Inputs, out: &mut [f64]) {
    let [row2idx, idx2col] = both(&s.wide);
    let (diagonal, values) = parted(N, row2idx.len() - 1, out);
    let mut matrix = MatrixRefMut::<f64, NN> {
        num_blk: row2idx.len() - 1,
        row2idx,
        idx2col,
        idx2val: values.as_chunks_mut().0,
        row2val: diagonal.as_chunks_mut().0,
    };
    let blocks = s.values[0].as_chunks::<NN>().0;
    let element: &[[[f64; NN]; 4]; 4] = blocks.as_chunks().0.try_into().expect("4*4 blocks");
    for nodes in s.wide[2].as_chunks::<4>().0 {
        matrix.merge_for_array_blk(element, nodes, &mut s.buffer);
    }
}
