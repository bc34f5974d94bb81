// Whole solves on a square plate, plain and with the factor filled to level k. Both sides read and write the very
// same values; indexes alone are of another width. The right side is put back before each solve.

use del_msh_cpu::sparse_solver::cg;
use del_msh_cpu::sparse_solver::sparse_ilu::{self, Preconditioner};
use del_msh_cpu::sparse_solver::sparse_square::MatrixOwned;

use super::factors::rows;
use super::{ordinary, Inputs, Timed};
use crate::factored::{Factor, Way};
use crate::random::Random;
use crate::sparse::{self, Sparse};
use crate::systems::{self, System};
use crate::words;

/// Both sides of each solver, at some N.
pub trait Solves {
    /// Puts the right side back, and gives the other vectors and the history what they are not to be left as.
    fn restore(&mut self);
    fn plain_by_port(&mut self);
    fn plain_by_rust(&mut self);
    fn preconditioned_by_port(&mut self);
    fn preconditioned_by_rust(&mut self);
    /// How many numbers the last solve's history has.
    fn count(&self) -> usize;
    /// The words of all that a solve writes.
    fn words(&self) -> Vec<u64>;
}

type Work = fn(&mut dyn Solves);

/// A solve ends below these ratios, after ten to fifty steps; none comes to the limit.
const PLAIN_TOLERANCE: f64 = 1e-6;
const TOLERANCE: f64 = 1e-12;
const LIMIT: usize = 200;

struct Plate<const N: usize, const NN: usize> {
    a: Sparse,
    pattern: Factor,
    matrix: MatrixOwned<[f64; NN]>,
    factor: Preconditioner<[f64; NN]>,
    side: Vec<[f64; N]>,
    r: Vec<[f64; N]>,
    x: Vec<[f64; N]>,
    /// Ap of the plain solver, Pr of the other.
    product: Vec<[f64; N]>,
    p: Vec<[f64; N]>,
    history: Vec<f64>,
    count: usize,
}

macro_rules! timed {
    ($name:literal, $k:literal, $inputs:ident, $port:ident, $rust:ident) => {
        Timed {
            name: $name,
            dims: &[1, 2, 3],
            unit: "rows",
            units: |n| rows($k, n),
            inputs: |dim, n, random| $inputs(dim, rows($k, n), $k, random),
            output: |_, _| 0,
            port: |_, s, _| solves(s).$port(),
            rust: Some(|_, s, _| solves(s).$rust()),
        }
    };
}

#[rustfmt::skip]
pub const SOLVERS: &[Timed] = &[
    timed!("conjugate_gradient", 0, plain, plain_by_port, plain_by_rust),
    timed!("preconditioned_conjugate_gradient, k = 0", 0, preconditioned, preconditioned_by_port, preconditioned_by_rust),
    timed!("preconditioned_conjugate_gradient, k = 2", 2, preconditioned, preconditioned_by_port, preconditioned_by_rust),
];

fn solves(inputs: &mut Inputs) -> &mut dyn Solves {
    inputs.solver.as_mut().expect("inputs of a solver").as_mut()
}

/// Inputs on which both sides have been seen to do the same.
fn agreed(mut solves: Box<dyn Solves>, works: [Work; 2]) -> Inputs {
    let [rust, port] = works.map(|work| {
        solves.restore();
        work(solves.as_mut());
        (solves.count(), solves.words())
    });
    assert!(rust == port, "the sides differ");
    assert!((10..80).contains(&rust.0), "{} numbers", rust.0);
    Inputs {
        steps: Some(rust.0),
        solver: Some(solves),
        ..Inputs::default()
    }
}

fn boxed(dim: usize, n: usize, k: usize, random: &mut Random) -> Box<dyn Solves> {
    let a = sparse::plate(n.isqrt());
    match dim {
        1 => Box::new(Plate::<1, 1>::new(a, k, random)),
        2 => Box::new(Plate::<2, 4>::new(a, k, random)),
        _ => Box::new(Plate::<3, 9>::new(a, k, random)),
    }
}

fn plain(dim: usize, n: usize, k: usize, random: &mut Random) -> Inputs {
    let works: [Work; 2] = [|s| s.plain_by_rust(), |s| s.plain_by_port()];
    agreed(boxed(dim, n, k, random), works)
}

/// A step is counted for each norm but the first.
fn preconditioned(dim: usize, n: usize, k: usize, random: &mut Random) -> Inputs {
    let works: [Work; 2] = [
        |s| s.preconditioned_by_rust(),
        |s| s.preconditioned_by_port(),
    ];
    let inputs = agreed(boxed(dim, n, k, random), works);
    Inputs {
        steps: inputs.steps.map(|norms| norms - 1),
        ..inputs
    }
}

fn wide(indexes: &[u32]) -> Vec<usize> {
    indexes.iter().map(|&index| index as usize).collect()
}

fn blocks<const L: usize>(words: &[u64]) -> Vec<[f64; L]> {
    words::values_of(words).as_chunks().0.to_vec()
}

impl<const N: usize, const NN: usize> Plate<N, NN> {
    /// A with a diagonal that is a little stronger than its row, and its own factor.
    fn new(a: Sparse, k: usize, random: &mut Random) -> Self {
        let n = a.n();
        let values = systems::values(System::Stiff, N as u32, &a, random);
        let mut matrix = MatrixOwned::from_vtx2vtx(&wide(&a.offsets), &wide(&a.columns));
        matrix.idx2val = blocks(&values.entries);
        matrix.row2val = blocks(&values.diagonal);
        let mut factor = Preconditioner::new();
        factor.initialize_iluk(&matrix, k);
        sparse_ilu::copy_value(&mut factor, &matrix);
        sparse_ilu::decompose::<f64, N, NN>(&mut factor).expect("pivots that are strong");
        let side: Vec<[f64; N]> = ordinary(N * n, random).as_chunks().0.to_vec();
        Plate {
            pattern: Factor::filled(&a, Way::Iluk(k)),
            a,
            matrix,
            factor,
            r: side.clone(),
            x: side.clone(),
            product: side.clone(),
            p: side.clone(),
            side,
            history: vec![0.0; LIMIT + 2],
            count: 0,
        }
    }

    /// A refused call would be quick, and no measure.
    fn answered(&mut self, solved: port::Solved) {
        assert_eq!(solved.number, 0, "the port refuses what is measured");
        self.count = solved.count as usize;
    }

    /// The original's history is its own; so many words are no work beside a solve.
    fn wrote(&mut self, history: &[f64]) {
        self.count = history.len();
        self.history[..history.len()].copy_from_slice(history);
    }
}

impl<const N: usize, const NN: usize> Solves for Plate<N, NN> {
    fn restore(&mut self) {
        self.r.copy_from_slice(&self.side);
        for vector in [&mut self.x, &mut self.product, &mut self.p] {
            vector.fill([-1.0; N]);
        }
        self.history.fill(-1.0);
    }

    fn plain_by_port(&mut self) {
        let solved = port::timed_conjugate_gradient(
            N as u32,
            self.r.as_flattened_mut(),
            self.x.as_flattened_mut(),
            self.product.as_flattened_mut(),
            self.p.as_flattened_mut(),
            PLAIN_TOLERANCE,
            LIMIT as u32,
            &self.a.offsets,
            &self.a.columns,
            self.matrix.idx2val.as_flattened(),
            self.matrix.row2val.as_flattened(),
            &mut self.history,
        );
        self.answered(solved);
    }

    fn plain_by_rust(&mut self) {
        let ratios = cg::conjugate_gradient::<f64, N, NN>(
            &mut self.r,
            &mut self.x,
            &mut self.product,
            &mut self.p,
            PLAIN_TOLERANCE,
            LIMIT,
            self.matrix.as_ref(),
        );
        self.wrote(&ratios);
    }

    fn preconditioned_by_port(&mut self) {
        let solved = port::timed_preconditioned_conjugate_gradient(
            N as u32,
            self.r.as_flattened_mut(),
            self.x.as_flattened_mut(),
            self.product.as_flattened_mut(),
            self.p.as_flattened_mut(),
            TOLERANCE,
            LIMIT as u32,
            &self.a.offsets,
            &self.a.columns,
            self.matrix.idx2val.as_flattened(),
            self.matrix.row2val.as_flattened(),
            &self.pattern.pattern.offsets,
            &self.pattern.pattern.columns,
            &self.pattern.splits,
            self.factor.row2val.as_flattened(),
            self.factor.idx2val.as_flattened(),
            &mut self.history,
        );
        self.answered(solved);
    }

    fn preconditioned_by_rust(&mut self) {
        let norms = cg::preconditioned_conjugate_gradient::<f64, N, NN>(
            &mut self.r,
            &mut self.x,
            &mut self.product,
            &mut self.p,
            TOLERANCE,
            LIMIT,
            &self.matrix,
            &self.factor,
        );
        self.wrote(&norms);
    }

    fn count(&self) -> usize {
        self.count
    }

    fn words(&self) -> Vec<u64> {
        let vectors = [&self.r, &self.x, &self.product, &self.p].map(|v| v.as_flattened());
        let mut words = words::words_of(&vectors.concat());
        words.extend(words::words_of(&self.history));
        words
    }
}
