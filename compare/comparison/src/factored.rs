// Factors that comparisons are made on: patterns by the original's three fills, values whose pivots are chosen,
// and values as the original's decompose leaves them.

use del_geo_core::matn_col_major;
use del_msh_cpu::sparse_solver::sparse_ilu::{self, Preconditioner};
use del_msh_cpu::sparse_solver::sparse_square::MatrixOwned;

use crate::random::Random;
use crate::sparse::Sparse;
use crate::words;

/// A factor's pattern: rows that rise, and their splits.
#[derive(Clone)]
pub struct Factor {
    pub pattern: Sparse,
    pub splits: Vec<u32>,
}

/// What a factor's pattern comes from.
#[derive(Clone, Copy)]
pub enum Way {
    Ilu0,
    Full,
    Iluk(usize),
}

pub const WAYS: [Way; 6] = [
    Way::Ilu0,
    Way::Full,
    Way::Iluk(0),
    Way::Iluk(1),
    Way::Iluk(2),
    Way::Iluk(3),
];

fn wide(indexes: &[u32]) -> Vec<usize> {
    indexes.iter().map(|&index| index as usize).collect()
}

fn narrow(indexes: &[usize]) -> Vec<u32> {
    indexes.iter().map(|&index| index as u32).collect()
}

impl Factor {
    /// With these rows, sorted.
    pub fn of(pattern: Sparse) -> Factor {
        let pattern = pattern.sorted();
        Factor {
            splits: pattern.splits(),
            pattern,
        }
    }

    /// As the original writes it for A.
    pub fn filled(a: &Sparse, way: Way) -> Factor {
        let matrix = MatrixOwned::from_vtx2vtx(&wide(&a.offsets), &wide(&a.columns));
        let mut factor = Preconditioner::<[f64; 1]>::new();
        match way {
            Way::Ilu0 => factor.initialize_ilu0(&matrix),
            Way::Full => factor.initialize_full(a.n()),
            Way::Iluk(k) => factor.initialize_iluk(&matrix, k),
        }
        Factor {
            pattern: Sparse {
                offsets: narrow(&factor.row2idx),
                columns: narrow(&factor.idx2col),
            },
            splits: narrow(&factor.row2idx_dia),
        }
    }

    pub fn n(&self) -> usize {
        self.pattern.n()
    }

    /// In the original's own form.
    fn owned<const NN: usize>(&self, values: Values<NN>) -> Preconditioner<[f64; NN]> {
        Preconditioner {
            num_blk: self.n(),
            row2idx: wide(&self.pattern.offsets),
            idx2col: wide(&self.pattern.columns),
            row2idx_dia: wide(&self.splits),
            idx2val: values.entries,
            row2val: values.diagonal,
        }
    }
}

/// Blocks of a factor.
struct Values<const NN: usize> {
    diagonal: Vec<[f64; NN]>,
    entries: Vec<[f64; NN]>,
}

/// Their words, as they are lent.
pub struct Words {
    pub diagonal: Vec<u64>,
    pub entries: Vec<u64>,
}

impl<const NN: usize> Values<NN> {
    fn words(&self) -> Words {
        Words {
            diagonal: words::words_of(self.diagonal.as_flattened()),
            entries: words::words_of(self.entries.as_flattened()),
        }
    }
}

/// What decompose is to find as a row's pivot when it has reduced the row.
#[derive(Clone, Copy, PartialEq, Eq)]
pub enum Pivot {
    /// It has an inverse in which nothing is rounded.
    Regular,
    Zero,
    /// Its rows depend on each other; at N = 1 it is zero.
    Dependent,
    /// All of -0, of which no product takes anything away.
    MinusZero,
    /// These are not refused.
    Infinite,
    NotANumber,
    Subnormal,
}

pub const SINGULAR: [Pivot; 3] = [Pivot::Zero, Pivot::Dependent, Pivot::MinusZero];

const ODD: [Pivot; 6] = [
    Pivot::Zero,
    Pivot::Dependent,
    Pivot::MinusZero,
    Pivot::Infinite,
    Pivot::NotANumber,
    Pivot::Subnormal,
];

/// Regular pivots, but perhaps for one or two: in row 0, in the middle, in the last row, or anywhere.
pub fn any_pivots(n: usize, random: &mut Random) -> Vec<Pivot> {
    let mut pivots = vec![Pivot::Regular; n];
    for _ in 0..random.below(3) {
        let anywhere = random.below(n);
        let at = *random.pick(&[0, n / 2, n - 1, anywhere]);
        pivots[at] = *random.pick(&ODD);
    }
    pivots
}

fn whole(most: i64, random: &mut Random) -> f64 {
    random.between(-most, most) as f64
}

fn whole_block<const NN: usize>(random: &mut Random) -> [f64; NN] {
    std::array::from_fn(|_| whole(2, random))
}

/// A block with determinant 1 or -1 of whole numbers, or at N = 1 a power of two.
fn regular<const N: usize, const NN: usize>(random: &mut Random) -> [f64; NN] {
    if N == 1 {
        return [*random.pick(&[1.0, -1.0, 2.0, -2.0, 0.5, 4.0]); NN];
    }
    let (mut lower, mut upper) = ([0.0; NN], [0.0; NN]);
    for c in 0..N {
        for r in 0..N {
            let value = if r == c { 1.0 } else { whole(1, random) };
            lower[r + N * c] = if r >= c { value } else { 0.0 };
            upper[r + N * c] = if r <= c { value } else { 0.0 };
        }
    }
    if random.flip() {
        lower[0] = -1.0;
    }
    matn_col_major::mult_mat_col_major::<f64, N, NN>(&lower, &upper)
}

impl Pivot {
    fn block<const N: usize, const NN: usize>(self, random: &mut Random) -> [f64; NN] {
        let mut block = regular::<N, NN>(random);
        match self {
            Pivot::Regular => block,
            Pivot::Zero => [0.0; NN],
            Pivot::MinusZero => [-0.0; NN],
            Pivot::Dependent => {
                let factors: [f64; N] = std::array::from_fn(|_| whole(2, random));
                for c in 0..N {
                    let others = (0..N - 1).map(|r| factors[r] * block[r + N * c]);
                    block[N - 1 + N * c] = others.sum();
                }
                block
            }
            _ => {
                let odd = match self {
                    Pivot::Infinite => *random.pick(&[f64::INFINITY, f64::NEG_INFINITY]),
                    Pivot::NotANumber => f64::NAN,
                    _ => f64::from_bits(1 + random.below(1 << 20) as u64),
                };
                block[random.below(NN)] = odd;
                block
            }
        }
    }
}

/// Values of which decompose makes small whole numbers, and with which it finds these pivots: it is given what
/// it is to leave, with every product that it takes away added before. Nothing is rounded.
fn planted<const N: usize, const NN: usize>(
    factor: &Factor,
    pivots: &[Pivot],
    random: &mut Random,
) -> Values<NN> {
    let Sparse { offsets, columns } = &factor.pattern;
    let product = matn_col_major::mult_mat_col_major::<f64, N, NN>;
    let mut left: Vec<[f64; NN]> = columns.iter().map(|_| whole_block(random)).collect();
    let mut given = Values {
        diagonal: Vec::new(),
        entries: Vec::new(),
    };
    for (i, &pivot) in pivots.iter().enumerate() {
        let [start, split, end] =
            [offsets[i], factor.splits[i], offsets[i + 1]].map(|at| at as usize);
        if pivot == Pivot::MinusZero {
            left[start..split].fill([0.0; NN]);
        }
        let block = pivot.block::<N, NN>(random);
        given.diagonal.push(block);
        given.entries.extend_from_slice(&left[start..split]);
        let upper = left[split..end].iter().map(|upper| match pivot {
            Pivot::Regular => product(&block, upper),
            _ => *upper,
        });
        given.entries.extend(upper);
        for lower in start..split {
            let p = columns[lower] as usize;
            for upper in factor.splits[p] as usize..offsets[p + 1] as usize {
                let taken = product(&left[lower], &left[upper]);
                let j = columns[upper];
                if j as usize != i {
                    if let Ok(at) = columns[start..end].binary_search(&j) {
                        matn_col_major::add_in_place(&mut given.entries[start + at], &taken);
                    }
                } else if pivot != Pivot::MinusZero {
                    matn_col_major::add_in_place(&mut given.diagonal[i], &taken);
                }
            }
        }
    }
    given
}

/// What decompose is to be given so that it finds these pivots.
pub fn with_pivots(dim: u32, factor: &Factor, pivots: &[Pivot], random: &mut Random) -> Words {
    match dim {
        1 => planted::<1, 1>(factor, pivots, random).words(),
        2 => planted::<2, 4>(factor, pivots, random).words(),
        _ => planted::<3, 9>(factor, pivots, random).words(),
    }
}

/// What the original's copy_value gives the factor of A, whose every entry it has.
fn copied_by<const NN: usize>(factor: &Factor, a: &Sparse, values: &Words) -> Words {
    let blocks = |words: &[u64]| words::values_of(words).as_chunks::<NN>().0.to_vec();
    let matrix = MatrixOwned {
        num_blk: a.n(),
        row2idx: wide(&a.offsets),
        idx2col: wide(&a.columns),
        idx2val: blocks(&values.entries),
        row2val: blocks(&values.diagonal),
    };
    let mut owned = factor.owned(Values {
        diagonal: vec![[0.0; NN]; factor.n()],
        entries: vec![[0.0; NN]; factor.pattern.entries()],
    });
    sparse_ilu::copy_value(&mut owned, &matrix);
    Values {
        diagonal: owned.row2val,
        entries: owned.idx2val,
    }
    .words()
}

pub fn copied(dim: u32, factor: &Factor, a: &Sparse, values: &Words) -> Words {
    match dim {
        1 => copied_by::<1>(factor, a, values),
        2 => copied_by::<4>(factor, a, values),
        _ => copied_by::<9>(factor, a, values),
    }
}

/// What the original's decompose leaves of values, whether it comes to the end or not.
fn decomposed_by<const N: usize, const NN: usize>(factor: &Factor, words: &Words) -> Words {
    let blocks = |words: &[u64]| words::values_of(words).as_chunks::<NN>().0.to_vec();
    let mut owned = factor.owned(Values {
        diagonal: blocks(&words.diagonal),
        entries: blocks(&words.entries),
    });
    let _ = sparse_ilu::decompose::<f64, N, NN>(&mut owned);
    Values {
        diagonal: owned.row2val,
        entries: owned.idx2val,
    }
    .words()
}

pub fn decomposed(dim: u32, factor: &Factor, words: &Words) -> Words {
    match dim {
        1 => decomposed_by::<1, 1>(factor, words),
        2 => decomposed_by::<2, 4>(factor, words),
        _ => decomposed_by::<3, 9>(factor, words),
    }
}

#[cfg(test)]
mod tests {
    use super::*;
    use crate::sparse;

    /// Where the pivots are regular decompose comes to the end, and what it leaves of a dense matrix is whole.
    #[test]
    fn nothing_is_rounded() {
        let random = &mut Random::new(1);
        for way in WAYS {
            let factor = Factor::filled(&sparse::arrow(6, 0), way);
            let given = with_pivots(3, &factor, &[Pivot::Regular; 6], random);
            let left = decomposed(3, &factor, &given);
            let values = words::values_of(&left.entries).into_iter();
            assert!(values
                .chain(words::values_of(&left.diagonal))
                .all(|value| { value == value.round() && value.abs() < 1e3 }));
        }
    }
}
