// What is measured: the port's timed calls, and the same work by the original on the same buffers.
// `blocks` has calls on many blocks, `plates` on vectors and on the matrix of a plate, `fills` those of a factor's pattern,
// `factors` those of its values, and `solvers` whole solves.

pub mod blocks;
pub mod factors;
pub mod fills;
pub mod plates;
pub mod solvers;

use self::factors::Sides;
use self::fills::Fill;
use self::solvers::Solves;
use crate::random::Random;
use crate::values::{self, Kind};
use crate::words;

/// What both sides read, made for one N and one size.
#[derive(Default)]
pub struct Inputs {
    pub values: Vec<Vec<f64>>,
    pub indexes: Vec<Vec<u32>>,
    /// The indexes as the original has them.
    pub wide: Vec<Vec<usize>>,
    pub flags: Vec<i32>,
    /// The buffer that the original's merge keeps from element to element.
    pub buffer: Vec<usize>,
    /// What a fill reads and writes, on either side.
    pub fill: Option<Fill>,
    /// What a call on a factor reads and writes, on either side. It is put back before each call.
    pub factor: Option<Box<dyn Sides>>,
    /// What a solver reads and writes, likewise, and how many steps it takes.
    pub solver: Option<Box<dyn Solves>>,
    pub steps: Option<usize>,
}

impl Inputs {
    pub fn of(values: Vec<Vec<f64>>) -> Inputs {
        Inputs {
            values,
            ..Inputs::default()
        }
    }

    /// Whether a call changes what it reads, so that this has to be put back before each.
    pub fn is_changed(&self) -> bool {
        self.factor.is_some() || self.solver.is_some()
    }

    pub fn restore(&mut self) {
        if let Some(factor) = &mut self.factor {
            factor.restore();
        }
        if let Some(solver) = &mut self.solver {
            solver.restore();
        }
    }
}

/// One side: it is given N, what it reads, and all that it writes in one slice, which it may read too.
pub type Side = fn(usize, &mut Inputs, &mut [f64]);

pub struct Timed {
    pub name: &'static str,
    /// The N that it is measured at; one entry for a call without N.
    pub dims: &'static [usize],
    /// What there are many of, and how many at a size, 0 where it is not measured: the time is given for one.
    pub unit: &'static str,
    pub units: fn(usize) -> usize,
    /// Inputs for this N and size.
    pub inputs: fn(usize, usize, &mut Random) -> Inputs,
    /// How many values are written at this N and size.
    pub output: fn(usize, usize) -> usize,
    pub port: Side,
    /// None where the original has no such call.
    pub rust: Option<Side>,
}

pub fn ordinary(count: usize, random: &mut Random) -> Vec<f64> {
    words::values_of(&values::of_kind(Kind::Ordinary, count, random))
}
