// Calls that write the pattern of a factor. The port's side writes to lent slices of just the right lengths, the
// original's to the Vecs of its own Preconditioner, which is the same one in every call: it makes them anew each time.

use del_msh_cpu::sparse_solver::sparse_ilu::Preconditioner;
use del_msh_cpu::sparse_solver::sparse_square::MatrixOwned;

use super::{Inputs, Timed};
use crate::random::Random;
use crate::sparse::{self, Sparse};

/// What both sides read and write. N = 1, at which the original has the fewest values to set to zero.
pub struct Fill {
    pattern: Sparse,
    k: u32,
    offsets: Vec<u32>,
    columns: Vec<u32>,
    splits: Vec<u32>,
    levels: Vec<u16>,
    row: Vec<u32>,
    matrix: MatrixOwned<[f64; 1]>,
    factor: Preconditioner<[f64; 1]>,
}

type Work = fn(&mut Fill);

/// Entries on each side of the diagonal of the band.
const HALF: usize = 7;

/// Entries of a row whose columns are scattered.
const SCATTERED: usize = 4;

const ILU0: Timed = Timed {
    name: "initialize_ilu0, sorted",
    dims: &[1],
    unit: "rows",
    units: |n| n,
    inputs: |_, n, _| both(plate(n), 0, ilu0_by_port, ilu0_by_rust),
    output: |_, _| 0,
    port: |_, s, _| ilu0_by_port(fill(s)),
    rust: Some(|_, s, _| ilu0_by_rust(fill(s))),
};

const ILUK: Timed = Timed {
    name: "initialize_iluk, k = 0",
    inputs: |_, n, _| iluk(plate(n), 0),
    port: |_, s, _| iluk_by_port(fill(s)),
    rust: Some(|_, s, _| iluk_by_rust(fill(s))),
    ..ILU0
};

pub const FILLS: &[Timed] = &[
    ILU0,
    Timed {
        name: "initialize_ilu0, unsorted",
        inputs: |_, n, random| both(unsorted(n, random), 0, ilu0_by_port, ilu0_by_rust),
        ..ILU0
    },
    Timed {
        name: "initialize_full",
        // Of 257 rows there are too many entries.
        units: |n| up_to(256, n),
        inputs: |_, n, _| both(sparse::empty(n), 0, full_by_port, full_by_rust),
        port: |_, s, _| full_by_port(fill(s)),
        rust: Some(|_, s, _| full_by_rust(fill(s))),
        ..ILU0
    },
    ILUK,
    Timed {
        name: "initialize_iluk, k = 1",
        inputs: |_, n, _| iluk(plate(n), 1),
        ..ILUK
    },
    Timed {
        name: "initialize_iluk, k = 2",
        // At 4,096 it would have 70,440 entries, and 107,012 at k = 3.
        units: |n| up_to(1024, n),
        inputs: |_, n, _| iluk(plate(n), 2),
        ..ILUK
    },
    Timed {
        name: "initialize_iluk, k = 3",
        units: |n| up_to(1024, n),
        inputs: |_, n, _| iluk(plate(n), 3),
        ..ILUK
    },
    Timed {
        name: "initialize_iluk, k = 1, unsorted",
        inputs: |_, n, random| iluk(unsorted(n, random), 1),
        ..ILUK
    },
    Timed {
        name: "initialize_iluk, k = 1, band",
        inputs: |_, n, _| iluk(sparse::band(n, HALF), 1),
        ..ILUK
    },
    Timed {
        name: "initialize_iluk, k = 1, last row dense",
        inputs: |_, n, _| iluk(sparse::arrow(n, n - 1), 1),
        ..ILUK
    },
    Timed {
        name: "initialize_iluk, k = 0, first row dense",
        inputs: |_, n, _| iluk(sparse::arrow(n, 0), 0),
        ..ILUK
    },
    Timed {
        name: "initialize_iluk, k = 1, first row dense",
        // Every row is filled.
        units: |n| up_to(256, n),
        inputs: |_, n, _| iluk(sparse::arrow(n, 0), 1),
        ..ILUK
    },
    Timed {
        name: "initialize_iluk, k = 1, scattered",
        inputs: |_, n, random| iluk(sparse::with_entries(n, SCATTERED, random), 1),
        ..ILUK
    },
    Timed {
        name: "initialize_iluk, k = 3, no entries",
        inputs: |_, n, _| iluk(sparse::empty(n), 3),
        ..ILUK
    },
];

fn up_to(most: usize, n: usize) -> usize {
    if n <= most {
        n
    } else {
        0
    }
}

fn plate(n: usize) -> Sparse {
    sparse::plate(n.isqrt())
}

fn unsorted(n: usize, random: &mut Random) -> Sparse {
    plate(n).shuffled(random)
}

fn fill(inputs: &mut Inputs) -> &mut Fill {
    inputs.fill.as_mut().expect("inputs of a fill")
}

fn iluk(pattern: Sparse, k: u32) -> Inputs {
    both(pattern, k, iluk_by_port, iluk_by_rust)
}

/// Inputs with room for just what the original writes, which both sides have written once.
fn both(pattern: Sparse, k: u32, port: Work, rust: Work) -> Inputs {
    let mut fill = Fill::new(pattern, k);
    rust(&mut fill);
    let room = fill.factor.idx2col.len();
    fill.columns = vec![0; room];
    fill.levels = vec![0; room];
    port(&mut fill);
    assert!(fill.sides_agree(), "the sides differ");
    Inputs {
        fill: Some(fill),
        ..Inputs::default()
    }
}

fn wide(indexes: &[u32]) -> Vec<usize> {
    indexes.iter().map(|&index| index as usize).collect()
}

impl Fill {
    /// Without room yet.
    fn new(pattern: Sparse, k: u32) -> Fill {
        let n = pattern.n();
        Fill {
            k,
            offsets: vec![0; n + 1],
            columns: Vec::new(),
            splits: vec![0; n],
            levels: Vec::new(),
            row: vec![0; n],
            matrix: MatrixOwned::from_vtx2vtx(&wide(&pattern.offsets), &wide(&pattern.columns)),
            factor: Preconditioner::new(),
            pattern,
        }
    }

    fn sides_agree(&self) -> bool {
        let factor = &self.factor;
        wide(&self.offsets) == factor.row2idx
            && wide(&self.columns) == factor.idx2col
            && wide(&self.splits) == factor.row2idx_dia
    }
}

/// A refused call would be quick, and no measure.
fn done(number: u32) {
    assert_eq!(number, 0, "the port refuses what is measured");
}

fn ilu0_by_port(fill: &mut Fill) {
    done(port::timed_initialize_ilu0(
        &fill.pattern.offsets,
        &fill.pattern.columns,
        &mut fill.offsets,
        &mut fill.columns,
        &mut fill.splits,
    ));
}

fn ilu0_by_rust(fill: &mut Fill) {
    fill.factor.initialize_ilu0(&fill.matrix);
}

fn full_by_port(fill: &mut Fill) {
    done(port::timed_initialize_full(
        fill.row.len() as u32,
        &mut fill.offsets,
        &mut fill.columns,
        &mut fill.splits,
    ));
}

fn full_by_rust(fill: &mut Fill) {
    fill.factor.initialize_full(fill.row.len());
}

fn iluk_by_port(fill: &mut Fill) {
    done(port::timed_initialize_iluk(
        &fill.pattern.offsets,
        &fill.pattern.columns,
        fill.k,
        &mut fill.offsets,
        &mut fill.columns,
        &mut fill.splits,
        &mut fill.levels,
        &mut fill.row,
    ));
}

fn iluk_by_rust(fill: &mut Fill) {
    fill.factor.initialize_iluk(&fill.matrix, fill.k as usize);
}
