// Calls on a factor's values, those of a square plate filled to level k. Both sides read and write the very same
// values, which stand in the original's own Vecs; its indexes are of another width. What a call changes is put back.

use del_msh_cpu::sparse_solver::sparse_ilu::{self, Preconditioner};
use del_msh_cpu::sparse_solver::sparse_square::MatrixOwned;

use super::{ordinary, Inputs, Timed};
use crate::factored::{Factor, Way};
use crate::random::Random;
use crate::sparse::{self, Sparse};
use crate::words;

/// Both sides of each call, at some N.
pub trait Sides {
    /// Puts back what the call changes and reads; this is not measured.
    fn restore(&mut self);
    fn copy_by_port(&mut self);
    fn copy_unchecked(&mut self);
    fn copy_by_rust(&mut self);
    fn decompose_by_port(&mut self);
    fn decompose_unchecked(&mut self);
    fn decompose_by_rust(&mut self);
    fn solve_by_port(&mut self);
    fn solve_unchecked(&mut self);
    fn solve_by_rust(&mut self);
    /// Gives the factor values that a copy is not to leave.
    fn spoil(&mut self);
    /// The words of all that the calls write.
    fn words(&self) -> Vec<u64>;
}

type Work = fn(&mut dyn Sides);

struct Plate<const N: usize, const NN: usize> {
    a: Sparse,
    pattern: Factor,
    matrix: MatrixOwned<[f64; NN]>,
    factor: Preconditioner<[f64; NN]>,
    vec: Vec<[f64; N]>,
    found: Found<N, NN>,
}

/// What a call finds each time, as far as it changes and reads it; empty where it does not.
struct Found<const N: usize, const NN: usize> {
    diagonal: Vec<[f64; NN]>,
    entries: Vec<[f64; NN]>,
    vec: Vec<[f64; N]>,
}

/// At this level a plate of 4,096 nodes would have more than 65,535 entries, and one of 3,600 has not.
const LARGEST_AT_2: usize = 3600;

/// The rows that stand for a size; none for one that is not measured, where reading the clock would count.
pub fn rows(k: usize, n: usize) -> usize {
    match (k, n) {
        (_, 0..256) => 0,
        (2, 4096) => LARGEST_AT_2,
        _ => n,
    }
}

macro_rules! timed {
    ($name:literal, $k:literal, $inputs:ident, $port:ident, $rust:ident) => {
        Timed {
            name: $name,
            dims: &[1, 2, 3],
            unit: "rows",
            units: |n| rows($k, n),
            inputs: |dim, n, random| $inputs(dim, rows($k, n), $k, random),
            output: |_, _| 0,
            port: |_, s, _| sides(s).$port(),
            rust: Some(|_, s, _| sides(s).$rust()),
        }
    };
}

#[rustfmt::skip]
pub const FACTORS: &[Timed] = &[
    timed!("copy_value, k = 0, sorted", 0, copying, copy_by_port, copy_by_rust),
    timed!("copy_value, k = 1, sorted", 1, copying, copy_by_port, copy_by_rust),
    timed!("copy_value, k = 2, sorted", 2, copying, copy_by_port, copy_by_rust),
    timed!("copy_value, k = 0, unsorted", 0, copying_unsorted, copy_by_port, copy_by_rust),
    timed!("copy_value, k = 1, unsorted", 1, copying_unsorted, copy_by_port, copy_by_rust),
    timed!("copy_value, k = 2, unsorted", 2, copying_unsorted, copy_by_port, copy_by_rust),
    timed!("copy_value, k = 0, sorted, unchecked", 0, copying, copy_unchecked, copy_by_rust),
    timed!("copy_value, k = 1, sorted, unchecked", 1, copying, copy_unchecked, copy_by_rust),
    timed!("copy_value, k = 2, sorted, unchecked", 2, copying, copy_unchecked, copy_by_rust),
    timed!("decompose, k = 0", 0, decomposing, decompose_by_port, decompose_by_rust),
    timed!("decompose, k = 1", 1, decomposing, decompose_by_port, decompose_by_rust),
    timed!("decompose, k = 2", 2, decomposing, decompose_by_port, decompose_by_rust),
    timed!("decompose, k = 0, unchecked", 0, decomposing, decompose_unchecked, decompose_by_rust),
    timed!("decompose, k = 1, unchecked", 1, decomposing, decompose_unchecked, decompose_by_rust),
    timed!("decompose, k = 2, unchecked", 2, decomposing, decompose_unchecked, decompose_by_rust),
    timed!("solve_preconditioning_vec, k = 0", 0, solving, solve_by_port, solve_by_rust),
    timed!("solve_preconditioning_vec, k = 1", 1, solving, solve_by_port, solve_by_rust),
    timed!("solve_preconditioning_vec, k = 2", 2, solving, solve_by_port, solve_by_rust),
    timed!("solve_preconditioning_vec, k = 0, unchecked", 0, solving, solve_unchecked, solve_by_rust),
    timed!("solve_preconditioning_vec, k = 1, unchecked", 1, solving, solve_unchecked, solve_by_rust),
    timed!("solve_preconditioning_vec, k = 2, unchecked", 2, solving, solve_unchecked, solve_by_rust),
];

fn sides(inputs: &mut Inputs) -> &mut dyn Sides {
    inputs.factor.as_mut().expect("inputs of a factor").as_mut()
}

/// Inputs on which all sides have been seen to do the same, from the same values.
fn agreed(mut sides: Box<dyn Sides>, works: [Work; 3]) -> Inputs {
    let words = works.map(|work| {
        sides.restore();
        work(sides.as_mut());
        sides.words()
    });
    assert!(
        words.iter().all(|each| *each == words[0]),
        "the sides differ"
    );
    Inputs {
        factor: Some(sides),
        ..Inputs::default()
    }
}

fn copying(dim: usize, n: usize, k: usize, random: &mut Random) -> Inputs {
    copy_inputs(dim, sparse::plate(n.isqrt()), k, random)
}

fn copying_unsorted(dim: usize, n: usize, k: usize, random: &mut Random) -> Inputs {
    copy_inputs(dim, sparse::plate(n.isqrt()).shuffled(random), k, random)
}

/// The call does not read what it changes, so that nothing has to be put back.
fn copy_inputs(dim: usize, a: Sparse, k: usize, random: &mut Random) -> Inputs {
    let sides: Box<dyn Sides> = match dim {
        1 => Box::new(Plate::<1, 1>::new(a, k, random)),
        2 => Box::new(Plate::<2, 4>::new(a, k, random)),
        _ => Box::new(Plate::<3, 9>::new(a, k, random)),
    };
    let spoilt = [
        |s: &mut dyn Sides| {
            s.spoil();
            s.copy_by_rust();
        },
        |s: &mut dyn Sides| {
            s.spoil();
            s.copy_by_port();
        },
        |s: &mut dyn Sides| {
            s.spoil();
            s.copy_unchecked();
        },
    ];
    agreed(sides, spoilt)
}

fn decomposing(dim: usize, n: usize, k: usize, random: &mut Random) -> Inputs {
    let a = sparse::plate(n.isqrt());
    let sides: Box<dyn Sides> = match dim {
        1 => Box::new(Plate::<1, 1>::new(a, k, random).copied()),
        2 => Box::new(Plate::<2, 4>::new(a, k, random).copied()),
        _ => Box::new(Plate::<3, 9>::new(a, k, random).copied()),
    };
    agreed(
        sides,
        [
            |s| s.decompose_by_rust(),
            |s| s.decompose_by_port(),
            |s| s.decompose_unchecked(),
        ],
    )
}

fn solving(dim: usize, n: usize, k: usize, random: &mut Random) -> Inputs {
    let a = sparse::plate(n.isqrt());
    let sides: Box<dyn Sides> = match dim {
        1 => Box::new(Plate::<1, 1>::new(a, k, random).decomposed(random)),
        2 => Box::new(Plate::<2, 4>::new(a, k, random).decomposed(random)),
        _ => Box::new(Plate::<3, 9>::new(a, k, random).decomposed(random)),
    };
    agreed(
        sides,
        [
            |s| s.solve_by_rust(),
            |s| s.solve_by_port(),
            |s| s.solve_unchecked(),
        ],
    )
}

fn wide(indexes: &[u32]) -> Vec<usize> {
    indexes.iter().map(|&index| index as usize).collect()
}

fn blocks<const L: usize>(count: usize, random: &mut Random) -> Vec<[f64; L]> {
    ordinary(L * count, random).as_chunks().0.to_vec()
}

impl<const N: usize, const NN: usize> Plate<N, NN> {
    /// A with a strong diagonal, so that no value grows beyond reason, and a factor whose values are zeros.
    fn new(a: Sparse, k: usize, random: &mut Random) -> Self {
        let n = a.n();
        let mut matrix = MatrixOwned::from_vtx2vtx(&wide(&a.offsets), &wide(&a.columns));
        matrix.idx2val = blocks(a.entries(), random);
        matrix.row2val = blocks(n, random);
        for block in &mut matrix.row2val {
            for i in 0..N {
                block[i + N * i] = block[i + N * i].abs() + 1000.0;
            }
        }
        let mut factor = Preconditioner::new();
        factor.initialize_iluk(&matrix, k);
        Plate {
            pattern: Factor::filled(&a, Way::Iluk(k)),
            a,
            matrix,
            factor,
            vec: Vec::new(),
            found: Found {
                diagonal: Vec::new(),
                entries: Vec::new(),
                vec: Vec::new(),
            },
        }
    }

    /// With A's values in the factor, which are found there each time.
    fn copied(mut self) -> Self {
        sparse_ilu::copy_value(&mut self.factor, &self.matrix);
        self.found.diagonal = self.factor.row2val.clone();
        self.found.entries = self.factor.idx2val.clone();
        self
    }

    /// With A's factor, and the same vector each time.
    fn decomposed(mut self, random: &mut Random) -> Self {
        sparse_ilu::copy_value(&mut self.factor, &self.matrix);
        sparse_ilu::decompose::<f64, N, NN>(&mut self.factor).expect("pivots that are strong");
        self.vec = blocks(self.a.n(), random);
        self.found.vec = self.vec.clone();
        self
    }
}

/// Puts back what was found, if that was kept.
fn put_back<T: Copy>(found: &[T], to: &mut [T]) {
    if !found.is_empty() {
        to.copy_from_slice(found);
    }
}

/// A refused call would be quick, and no measure.
fn done(number: u32) {
    assert_eq!(number, 0, "the port refuses what is measured");
}

impl<const N: usize, const NN: usize> Sides for Plate<N, NN> {
    fn restore(&mut self) {
        put_back(&self.found.diagonal, &mut self.factor.row2val);
        put_back(&self.found.entries, &mut self.factor.idx2val);
        put_back(&self.found.vec, &mut self.vec);
    }

    fn copy_by_port(&mut self) {
        done(port::timed_copy_value(
            N as u32,
            &self.a.offsets,
            &self.a.columns,
            self.matrix.row2val.as_flattened(),
            self.matrix.idx2val.as_flattened(),
            &self.pattern.pattern.offsets,
            &self.pattern.pattern.columns,
            &self.pattern.splits,
            self.factor.row2val.as_flattened_mut(),
            self.factor.idx2val.as_flattened_mut(),
        ));
    }

    fn copy_unchecked(&mut self) {
        port::unchecked_copy_value(
            N as u32,
            &self.a.offsets,
            &self.a.columns,
            self.matrix.row2val.as_flattened(),
            self.matrix.idx2val.as_flattened(),
            &self.pattern.pattern.offsets,
            &self.pattern.pattern.columns,
            self.factor.row2val.as_flattened_mut(),
            self.factor.idx2val.as_flattened_mut(),
        );
    }

    fn copy_by_rust(&mut self) {
        sparse_ilu::copy_value(&mut self.factor, &self.matrix);
    }

    fn decompose_by_port(&mut self) {
        let outcome = port::timed_decompose(
            N as u32,
            &self.pattern.pattern.offsets,
            &self.pattern.pattern.columns,
            &self.pattern.splits,
            self.factor.row2val.as_flattened_mut(),
            self.factor.idx2val.as_flattened_mut(),
        );
        done(outcome.number);
    }

    fn decompose_unchecked(&mut self) {
        port::unchecked_decompose(
            N as u32,
            &self.pattern.pattern.offsets,
            &self.pattern.pattern.columns,
            &self.pattern.splits,
            self.factor.row2val.as_flattened_mut(),
            self.factor.idx2val.as_flattened_mut(),
        );
    }

    fn decompose_by_rust(&mut self) {
        let ended = sparse_ilu::decompose::<f64, N, NN>(&mut self.factor);
        assert!(ended.is_ok(), "the original stops at what is measured");
    }

    fn solve_by_port(&mut self) {
        done(port::timed_solve_preconditioning_vec(
            N as u32,
            self.vec.as_flattened_mut(),
            &self.pattern.pattern.offsets,
            &self.pattern.pattern.columns,
            &self.pattern.splits,
            self.factor.row2val.as_flattened(),
            self.factor.idx2val.as_flattened(),
        ));
    }

    fn solve_unchecked(&mut self) {
        port::unchecked_solve_preconditioning_vec(
            N as u32,
            self.vec.as_flattened_mut(),
            &self.pattern.pattern.offsets,
            &self.pattern.pattern.columns,
            &self.pattern.splits,
            self.factor.row2val.as_flattened(),
            self.factor.idx2val.as_flattened(),
        );
    }

    fn solve_by_rust(&mut self) {
        sparse_ilu::solve_preconditioning_vec(&mut self.vec, &self.factor);
    }

    fn spoil(&mut self) {
        self.factor.row2val.fill([-1.0; NN]);
        self.factor.idx2val.fill([-1.0; NN]);
    }

    fn words(&self) -> Vec<u64> {
        let values =
            [&self.factor.row2val, &self.factor.idx2val].map(|blocks| blocks.as_flattened());
        let written = [values[0], values[1], self.vec.as_flattened()];
        words::words_of(&written.concat())
    }
}
