// Document 01's "Numbers to check by hand", run through the original: cases 1 to 3 and 5 to 12.
// Case 4 is about room, which the original does not have: it is in the comparison and in the fixed list.

use del_msh_cpu::sparse_solver::cg;
use del_msh_cpu::sparse_solver::sparse_ilu::{self, Preconditioner};
use del_msh_cpu::sparse_solver::sparse_square::MatrixOwned;

type Matrix = MatrixOwned<[f64; 1]>;
type Factor = Preconditioner<[f64; 1]>;

/// The pattern of pairs, both ways.
fn pattern(n: usize, pairs: &[(usize, usize)]) -> Matrix {
    let (mut offsets, mut columns) = (vec![0], Vec::new());
    for i in 0..n {
        for &(a, b) in pairs {
            if a == i {
                columns.push(b);
            } else if b == i {
                columns.push(a);
            }
        }
        offsets.push(columns.len());
    }
    Matrix::from_vtx2vtx(&offsets, &columns)
}

fn filled(matrix: &Matrix, k: usize) -> Factor {
    let mut factor = Factor::new();
    factor.initialize_iluk(matrix, k);
    factor
}

fn pattern_p() -> Matrix {
    pattern(5, &[(0, 2), (0, 3), (1, 2), (1, 4)])
}

#[test]
fn case_1() {
    let factor = filled(&pattern_p(), 0);
    assert_eq!(factor.row2idx, [0, 2, 4, 6, 7, 8]);
    assert_eq!(factor.row2idx_dia, [0, 2, 6, 7, 8]);
}

#[test]
fn case_2() {
    let factor = filled(&pattern_p(), 1);
    assert_eq!(factor.row2idx, [0, 2, 4, 8, 10, 12]);
    assert_eq!(factor.row2idx_dia, [0, 2, 6, 10, 12]);
}

#[test]
fn case_3() {
    let factor = filled(&pattern_p(), 2);
    assert_eq!(factor.row2idx, [0, 2, 4, 8, 11, 14]);
    assert_eq!(factor.idx2col, [2, 3, 2, 4, 0, 1, 3, 4, 0, 2, 4, 1, 2, 3]);
    assert_eq!(factor.row2idx_dia, [0, 2, 6, 10, 14]);
}

#[test]
fn case_5() {
    let matrix = pattern(5, &[(0, 3), (0, 1), (1, 2), (2, 4)]);
    let entries = |k| filled(&matrix, k).idx2col.len();
    assert_eq!([0, 1, 2, 3].map(entries), [8, 10, 12, 14]);
}

/// Walk 6 3 1 0 5 0 2 4 7 meets row 0 twice and has nesting 4; without the turn to 5 it would have 5.
#[test]
fn a_needed_walk_may_meet_a_low_row_twice() {
    let walk = [6, 3, 1, 0, 2, 4, 7];
    let mut pairs: Vec<(usize, usize)> = walk.windows(2).map(|step| (step[0], step[1])).collect();
    pairs.push((0, 5));
    let stands = |matrix: &Matrix, k| {
        let factor = filled(matrix, k);
        factor.idx2col[factor.row2idx[6]..factor.row2idx[7]].contains(&7)
    };
    let turning = pattern(8, &pairs);
    assert_eq!([3, 4].map(|k| stands(&turning, k)), [false, true]);
    let straight = pattern(8, &pairs[..6]);
    assert_eq!([4, 5].map(|k| stands(&straight, k)), [false, true]);
}

#[test]
fn case_6() {
    let matrix = pattern(1, &[]);
    for k in [0, 1, 4_294_967_295] {
        let factor = filled(&matrix, k);
        assert!(factor.idx2col.is_empty());
        assert_eq!(factor.row2idx_dia, [0]);
    }
}

#[test]
fn case_7() {
    let mut factor = Factor::new();
    factor.initialize_full(3);
    assert_eq!(factor.row2idx, [0, 2, 4, 6]);
    assert_eq!(factor.idx2col, [1, 2, 0, 2, 0, 1]);
    assert_eq!(factor.row2idx_dia, [0, 3, 6]);
}

/// Two rows, full, with the given diagonal and entries.
fn two_rows(diagonal: [f64; 2], entries: [f64; 2]) -> Matrix {
    let mut matrix = pattern(2, &[(0, 1)]);
    matrix.row2val = diagonal.map(|v| [v]).to_vec();
    matrix.idx2val = entries.map(|v| [v]).to_vec();
    matrix
}

fn copied(matrix: &Matrix) -> Factor {
    let mut factor = Factor::new();
    factor.initialize_ilu0(matrix);
    sparse_ilu::copy_value(&mut factor, matrix);
    factor
}

#[test]
fn case_8() {
    let mut factor = copied(&two_rows([4.0, 5.0], [2.0, 2.0]));
    assert!(sparse_ilu::decompose::<f64, 1, 1>(&mut factor).is_ok());
    assert_eq!(factor.row2val, [[0.25], [0.25]]);
    assert_eq!(factor.idx2val, [[0.5], [2.0]]);
    let mut x = [[8.0], [12.0]];
    sparse_ilu::solve_preconditioning_vec(&mut x, &factor);
    assert_eq!(x, [[1.0], [2.0]]);
}

#[test]
fn case_9() {
    let mut factor = copied(&two_rows([1.0, 1.0], [1.0, 1.0]));
    assert!(sparse_ilu::decompose::<f64, 1, 1>(&mut factor).is_err());
    assert_eq!(factor.row2val, [[1.0], [0.0]]);
}

/// x and the norms of a preconditioned run on the one row A = 2 with its own factor, tolerance 0.5.
fn solve(b: f64, limit: usize) -> (f64, Vec<f64>) {
    let mut matrix = pattern(1, &[]);
    matrix.row2val = vec![[2.0]];
    let mut factor = copied(&matrix);
    assert!(sparse_ilu::decompose::<f64, 1, 1>(&mut factor).is_ok());
    let (mut x, mut pr, mut p) = (Vec::new(), Vec::new(), Vec::new());
    let norms = cg::preconditioned_conjugate_gradient::<f64, 1, 1>(
        &mut [[b]],
        &mut x,
        &mut pr,
        &mut p,
        0.5,
        limit,
        &matrix,
        &factor,
    );
    (x[0][0], norms)
}

#[test]
fn case_10() {
    assert_eq!(solve(4.0, 5), (2.0, vec![4.0, 0.0]));
    // limit + 2 norms, the last one twice: Unsettled.
    assert_eq!(solve(4.0, 0), (0.0, vec![4.0, 4.0]));
}

#[test]
fn case_11() {
    let power = |power: i32| 2_f64.powi(power);
    assert_eq!(solve(power(-27), 5), (0.0, vec![power(-27)]));
    assert_eq!(solve(power(-26), 5).1.len(), 2);
}

#[test]
fn case_12() {
    assert_eq!(2_f64.sqrt().to_bits(), 0x3FF6_A09E_667F_3BCD);
    assert_eq!(f64::from_bits(1).sqrt(), 2_f64.powi(-537));
}
