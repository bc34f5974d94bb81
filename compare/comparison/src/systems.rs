// Systems of equations that the solvers are tried on: values of A by kind, right sides, tolerances and limits.
// Mixed values alone hardly ever let a run converge, and hardly ever make a direction on which A is 0.

use crate::factored::Words;
use crate::random::Random;
use crate::sparse::Sparse;
use crate::values::{self, Kind};
use crate::words;

/// What A's values are, where its pattern is that of a symmetric matrix.
#[derive(Clone, Copy, Debug, PartialEq, Eq)]
pub enum System {
    /// Symmetric, with a diagonal that is stronger than its row: positive.
    Strong,
    /// The same with a diagonal that is hardly stronger, so that a run takes more steps.
    Weak,
    /// Zero entries and so many different numbers on the diagonal: as many steps, but for rounding.
    Distinct(usize),
    /// Whole numbers: entries of -1, and on the diagonal how many there are, and one more. Often nothing is rounded.
    Graph,
    /// Without the one more: A is 0 on a vector of ones.
    Loose,
    /// Symmetric, with a diagonal of both signs.
    Indefinite,
    /// Each entry is minus the one across, and the diagonal 0: p.Ap is 0.
    Skew,
    Zero,
    /// A strong diagonal, and entries that are not symmetric.
    Lopsided,
    /// Strong, times a large or small power of two.
    Scaled,
    /// Entries near minus the unit block, and a diagonal that is a twentieth stronger than they are together, as in
    /// a plate that stands on soft ground: a large one takes as many steps as a small one, and not few.
    Stiff,
}

pub const SYSTEMS: [System; 13] = [
    System::Strong,
    System::Weak,
    System::Distinct(1),
    System::Distinct(2),
    System::Distinct(3),
    System::Distinct(5),
    System::Graph,
    System::Loose,
    System::Indefinite,
    System::Skew,
    System::Zero,
    System::Lopsided,
    System::Scaled,
];

/// Those whose runs converge.
pub const POSITIVE: [System; 6] = [
    System::Strong,
    System::Weak,
    System::Distinct(2),
    System::Distinct(3),
    System::Distinct(5),
    System::Graph,
];

/// -1 to 1 with all digits in use.
fn share(random: &mut Random) -> f64 {
    (random.bits() >> 11) as f64 / (1_u64 << 52) as f64 - 1.0
}

/// A's values, one block after the other.
struct Maker<'a> {
    system: System,
    dim: usize,
    a: &'a Sparse,
    /// Of this the blocks of a pair of rows are made, whichever of the two is asked for first.
    seed: u64,
    factor: f64,
}

impl Maker<'_> {
    fn off_diagonal(&self, i: usize, j: usize) -> Vec<f64> {
        let (dim, ordered) = (self.dim, self.system == System::Lopsided);
        let (low, high) = if ordered {
            (i, j)
        } else {
            (i.min(j), i.max(j))
        };
        let pair = (4097 * low + high) as u64;
        let random = &mut Random::new(self.seed ^ pair.wrapping_mul(0xD134_2543_DE82_EF95));
        let block: Vec<f64> = (0..dim * dim).map(|_| share(random)).collect();
        let across = |at: usize| block[at / dim + dim * (at % dim)];
        let places = 0..dim * dim;
        match self.system {
            System::Distinct(_) | System::Zero => vec![0.0; dim * dim],
            System::Graph | System::Loose => unit(dim, -1.0),
            System::Stiff => {
                let (unit, part) = (unit(dim, -1.0), 0.2 / dim as f64);
                let turned = |at: usize| if i > j { across(at) } else { block[at] };
                places.map(|at| unit[at] + part * turned(at)).collect()
            }
            System::Skew if i > j => places.map(|at| -across(at)).collect(),
            _ if i > j && !ordered => places.map(|at| self.factor * across(at)).collect(),
            _ => block.iter().map(|value| self.factor * value).collect(),
        }
    }

    fn diagonal(&self, i: usize, random: &mut Random) -> Vec<f64> {
        let dim = self.dim;
        let entries = (self.a.offsets[i + 1] - self.a.offsets[i]) as f64;
        let row = dim as f64 * (entries + 1.0);
        match self.system {
            System::Zero | System::Skew => vec![0.0; dim * dim],
            System::Graph => unit(dim, entries + 1.0),
            System::Loose => unit(dim, entries),
            System::Stiff => unit(dim, 1.05 * entries),
            System::Distinct(count) => {
                let each = (0..dim).map(|_| 1.0 + random.below(count) as f64);
                let each: Vec<f64> = each.collect();
                (0..dim * dim)
                    .map(|at| {
                        if at % dim == at / dim {
                            each[at % dim]
                        } else {
                            0.0
                        }
                    })
                    .collect()
            }
            System::Weak => self.symmetric(0.55 * row, random),
            System::Indefinite => {
                let sign = if random.flip() { 1.0 } else { -1.0 };
                self.symmetric(sign * row, random)
            }
            _ => self.symmetric(2.0 * row, random),
        }
    }

    /// A symmetric block with about this on its own diagonal.
    fn symmetric(&self, strong: f64, random: &mut Random) -> Vec<f64> {
        let dim = self.dim;
        let mut block = vec![0.0; dim * dim];
        for r in 0..dim {
            for c in 0..=r {
                let value = share(random) + if r == c { strong } else { 0.0 };
                block[r + dim * c] = self.factor * value;
                block[c + dim * r] = self.factor * value;
            }
        }
        block
    }
}

fn unit(dim: usize, value: f64) -> Vec<f64> {
    let place = |at: usize| if at % dim == at / dim { value } else { 0.0 };
    (0..dim * dim).map(place).collect()
}

/// The words of A.
pub fn values(system: System, dim: u32, a: &Sparse, random: &mut Random) -> Words {
    let factor = match system {
        System::Scaled => 2_f64.powi(*random.pick(&[-1000, -500, -60, 60, 500, 1000])),
        _ => 1.0,
    };
    let maker = Maker {
        system,
        dim: dim as usize,
        a,
        seed: random.bits(),
        factor,
    };
    let (mut diagonal, mut entries) = (Vec::new(), Vec::new());
    for i in 0..a.n() {
        diagonal.extend(maker.diagonal(i, random));
        for at in a.offsets[i] as usize..a.offsets[i + 1] as usize {
            entries.extend(maker.off_diagonal(i, a.columns[at] as usize));
        }
    }
    Words {
        diagonal: words::words_of(&diagonal),
        entries: words::words_of(&entries),
    }
}

/// Some right side: mostly one with which a run has something to do.
pub fn any_right_side(dim: u32, n: usize, random: &mut Random) -> Vec<u64> {
    let count = dim as usize * n;
    match random.below(12) {
        0 => values::mixed(count, random),
        1 => values::of_kind(*random.pick(&values::KINDS), count, random),
        2 => near_epsilon(count, random),
        3 => vec![1_f64.to_bits(); count],
        4 => {
            let mut side = values::of_kind(Kind::Zero, count, random);
            side[random.below(count)] = values::word(Kind::Whole, random);
            side
        }
        5 => values::of_kind(Kind::Whole, count, random),
        6 => overflowing(count, random),
        _ => values::of_kind(Kind::Ordinary, count, random),
    }
}

/// Values of which the largest is about the root of the largest number: their squares just overflow or do not.
pub fn overflowing(count: usize, random: &mut Random) -> Vec<u64> {
    let power = random.between(505, 515) as u64;
    let mut side = values::of_kind(Kind::Ordinary, count, random);
    for word in &mut side {
        *word += power << 52;
    }
    side
}

/// Values whose squared norm is 2^-52, or a neighbour of it.
pub fn near_epsilon(count: usize, random: &mut Random) -> Vec<u64> {
    let edge = 2_f64.powi(-26);
    let mut side = values::of_kind(Kind::Zero, count, random);
    let at = random.below(count);
    match random.below(3) {
        0 => side[at] = edge.to_bits(),
        1 if count >= 4 => {
            // Four squares of a quarter each.
            for step in 0..4 {
                side[(at + step) % count] = (edge / 2.0).to_bits();
            }
        }
        _ => {
            let values = words::values_of(&values::of_kind(Kind::Ordinary, count, random));
            let norm = values.iter().map(|value| value * value).sum::<f64>().sqrt();
            let scaled = values.iter().map(|value| value * (edge / norm));
            side = scaled.map(f64::to_bits).collect();
        }
    }
    let step = *random.pick(&[-1, 0, 0, 1]);
    side[at] = side[at].wrapping_add_signed(step);
    if random.flip() {
        side[at] ^= 1 << 63;
    }
    side
}

/// Tolerances that a careless reader may treat apart.
pub const TOLERANCES: [f64; 13] = [
    0.0,
    -0.0,
    -1.0,
    5e-324,
    1e-12,
    1e-3,
    0.1,
    0.5,
    1.0,
    2.0,
    f64::INFINITY,
    f64::NEG_INFINITY,
    f64::NAN,
];

pub fn any_tolerance(random: &mut Random) -> u64 {
    match random.below(8) {
        0 => values::factor(random),
        1 | 2 => 1e-3_f64.to_bits(),
        3 => 1e-9_f64.to_bits(),
        _ => random.pick(&TOLERANCES).to_bits(),
    }
}

/// A limit that is accepted, mostly a small one.
pub fn any_limit(n: usize, random: &mut Random) -> u32 {
    let most = 2 + random.below(20) as u32;
    *random.pick(&[0, 1, 2, 3, 5, 10, n as u32, n as u32 + 1, 50, most])
}

/// Limits that are refused, some of which would not be if they were cut.
pub const REFUSED_LIMITS: [u32; 9] = [
    4097,
    4098,
    8192,
    65_535,
    65_536,
    65_536 + 4096,
    1 << 24,
    1 << 31,
    u32::MAX,
];
