// What the original does where it and document 01 part, each on the smallest input that shows it.
// The original alone is run here; docs/DECISIONS.md and docs/DIFFERENCES.md say what the port does.

use std::panic;

use del_msh_cpu::sparse_solver::cg;
use del_msh_cpu::sparse_solver::merge;
use del_msh_cpu::sparse_solver::sparse_ilu::{self, Preconditioner};
use del_msh_cpu::sparse_solver::sparse_square::{self, MatrixOwned};
use del_msh_cpu::vtx2xn;

/// 01's reading of a dot product: one running sum over rows, then places in the row.
fn one_running_sum<const N: usize>(v0: &[[f64; N]], v1: &[[f64; N]]) -> f64 {
    let pairs = v0.as_flattened().iter().zip(v1.as_flattened());
    pairs.fold(0.0, |sum, (x, y)| sum + x * y)
}

/// A matrix without entries whose diagonal blocks are the identity.
fn identity<const N: usize, const NN: usize>(n: usize) -> MatrixOwned<[f64; NN]> {
    let mut matrix = MatrixOwned::<[f64; NN]>::from_vtx2vtx(&vec![0; n + 1], &[]);
    for block in &mut matrix.row2val {
        for i in 0..N {
            block[i + N * i] = 1.0;
        }
    }
    matrix
}

/// Its factor.
fn factor_of<const N: usize, const NN: usize>(
    matrix: &MatrixOwned<[f64; NN]>,
) -> Preconditioner<[f64; NN]> {
    let mut factor = Preconditioner::<[f64; NN]>::new();
    factor.initialize_ilu0(matrix);
    sparse_ilu::copy_value(&mut factor, matrix);
    sparse_ilu::decompose::<f64, N, NN>(&mut factor).expect("no pivot is singular");
    factor
}

const EPSILON: f64 = f64::EPSILON; // 2^-52

/// 2^power, for a power of a normal number.
fn two_to(power: i64) -> f64 {
    f64::from_bits(((power + 1023) as u64) << 52)
}

#[test]
fn dot_adds_each_rows_own_sum() {
    let small = two_to(-26);
    let v = [[1.0, 1.0], [small, small]];
    assert_eq!(vtx2xn::dot(&v, &v), 2.0 + two_to(-51));
    assert_eq!(one_running_sum(&v, &v), 2.0);
}

#[test]
fn dot_is_one_running_sum_for_one_value_a_row() {
    let v = [[1.0], [two_to(-26)], [two_to(-26)], [3.7], [-1e-9]];
    assert_eq!(vtx2xn::dot(&v, &v), one_running_sum(&v, &v));
}

/// 0x1.7a244886db48dp-27, 0x1.592f6a123c968p-27 in row 0 and 0x1.947ae147ae148p-54 twice in row 1.
fn right_side_between() -> [[f64; 2]; 2] {
    let first = [0x3E47_A244_886D_B48D, 0x3E45_92F6_A123_C968];
    let second = [0x3C99_47AE_147A_E148; 2];
    [first.map(f64::from_bits), second.map(f64::from_bits)]
}

#[test]
fn a_verdict_turns_on_the_order_of_the_dot_product() {
    let right_side = right_side_between();
    // Not empty by the original's sum, empty by one running sum.
    assert!(vtx2xn::dot(&right_side, &right_side) >= EPSILON);
    assert!(one_running_sum(&right_side, &right_side) < EPSILON);

    let matrix = identity::<2, 4>(2);
    let factor = factor_of::<2, 4>(&matrix);
    let (mut r, limit) = (right_side, 5);
    let (mut x, mut pr, mut p) = (Vec::new(), Vec::new(), Vec::new());
    let norms = cg::preconditioned_conjugate_gradient::<f64, 2, 4>(
        &mut r, &mut x, &mut pr, &mut p, 0.5, limit, &matrix, &factor,
    );
    // One norm would be Empty and limit + 2 Unsettled: two are Settled.
    assert_eq!(norms.len(), 2);
    assert_eq!(x, right_side);

    let mut r = right_side;
    let (mut u, mut ap, mut p) = ([[7.0; 2]; 2], [[7.0; 2]; 2], [[7.0; 2]; 2]);
    let ratios = cg::conjugate_gradient::<f64, 2, 4>(
        &mut r,
        &mut u,
        &mut ap,
        &mut p,
        0.5,
        limit,
        matrix.as_ref(),
    );
    assert_eq!(ratios, [0.0]);
    assert_eq!(u, right_side);
}

/// Pairs 0-1 and 1-2, both ways: places 0 (0,1), 1 (1,0), 2 (1,2), 3 (2,1).
const OFFSETS: [usize; 4] = [0, 1, 3, 4];
const COLUMNS: [usize; 4] = [1, 0, 2, 1];

/// An element on nodes 0 and 2, whose pair has no entry.
const NODES: [usize; 2] = [0, 2];
const ELEMENT: [[[f64; 1]; 2]; 2] = [[[1.0], [2.0]], [[4.0], [8.0]]];

fn panics(work: impl FnOnce()) -> bool {
    panic::catch_unwind(panic::AssertUnwindSafe(work)).is_err()
}

#[test]
fn merge_reads_what_its_buffer_held() {
    let mut matrix = MatrixOwned::<[f64; 1]>::from_vtx2vtx(&OFFSETS, &COLUMNS);
    assert!(panics(|| matrix.merge(&ELEMENT, &NODES, &mut Vec::new())));

    // The same element with a buffer that was used before is added, to entries of row 1.
    let mut matrix = MatrixOwned::<[f64; 1]>::from_vtx2vtx(&OFFSETS, &COLUMNS);
    matrix.merge(&ELEMENT, &NODES, &mut vec![1, usize::MAX, 2]);
    assert_eq!(matrix.row2val, [[1.0], [0.0], [8.0]]);
    assert_eq!(matrix.idx2val, [[0.0], [4.0], [2.0], [0.0]]);
}

#[test]
fn csrdia_and_blkcsr_read_what_their_buffer_held() {
    let csrdia = |buffer: &mut Vec<usize>| {
        let (mut diagonal, mut entries) = ([0.0; 3], [0.0; 4]);
        merge::csrdia(
            &NODES,
            &NODES,
            &ELEMENT,
            &OFFSETS,
            &COLUMNS,
            &mut diagonal,
            &mut entries,
            buffer,
        );
        (diagonal, entries)
    };
    assert!(panics(|| {
        csrdia(&mut Vec::new());
    }));
    let (diagonal, entries) = csrdia(&mut vec![1, usize::MAX, 2]);
    assert_eq!(diagonal, [1.0, 0.0, 8.0]);
    assert_eq!(entries, [0.0, 4.0, 2.0, 0.0]);

    let blkcsr = |buffer: &mut Vec<usize>| {
        let mut entries = [0.0; 4];
        let rows = [0];
        merge::blkcsr(
            &rows,
            &[2],
            &[[[5.0]]],
            &OFFSETS,
            &COLUMNS,
            &mut entries,
            buffer,
        );
        entries
    };
    assert!(panics(|| {
        blkcsr(&mut Vec::new());
    }));
    let entries = blkcsr(&mut vec![usize::MAX, usize::MAX, 2]);
    assert_eq!(entries, [0.0, 0.0, 5.0, 0.0]);
}

#[test]
fn an_element_is_added_as_far_as_it_goes_before_the_panic() {
    let mut matrix = MatrixOwned::<[f64; 1]>::from_vtx2vtx(&OFFSETS, &COLUMNS);
    assert!(panics(|| matrix.merge(&ELEMENT, &NODES, &mut Vec::new())));
    assert_eq!(matrix.row2val, [[1.0], [0.0], [0.0]]);
}

#[test]
fn csrdia_adds_only_the_first_value_of_a_larger_block() {
    let element = [[[1.0, 2.0, 3.0, 4.0]; 1]; 1];
    let mut diagonal = [0.0; 8];
    merge::csrdia::<f64, 4, 1>(
        &[1],
        &[1],
        &element,
        &[0, 0, 0],
        &[],
        &mut diagonal,
        &mut [],
        &mut Vec::new(),
    );
    assert_eq!(diagonal, [0.0, 1.0, 0.0, 0.0, 0.0, 0.0, 0.0, 0.0]);
}

#[test]
fn initialize_sets_values_to_zero() {
    let mut matrix = MatrixOwned::<[f64; 1]>::from_vtx2vtx(&OFFSETS, &COLUMNS);
    matrix.row2val = vec![[4.0]; 3];
    matrix.idx2val = vec![[1.0]; 4];
    let zeroed = |initialize: &dyn Fn(&mut Preconditioner<[f64; 1]>)| {
        let mut factor = Preconditioner::<[f64; 1]>::new();
        factor.row2val = vec![[7.0]; 3];
        factor.idx2val = vec![[7.0]; 4];
        initialize(&mut factor);
        let zero = [0.0_f64.to_bits()];
        let values = factor.row2val.iter().chain(&factor.idx2val);
        assert!(values.into_iter().all(|v| v.map(f64::to_bits) == zero));
        (factor.row2val.len(), factor.idx2val.len())
    };
    assert_eq!(zeroed(&|factor| factor.initialize_ilu0(&matrix)), (3, 4));
    assert_eq!(zeroed(&|factor| factor.initialize_iluk(&matrix, 1)), (3, 4));
    assert_eq!(zeroed(&|factor| factor.initialize_full(3)), (3, 6));
}

#[test]
fn beta_zero_multiplies() {
    let matrix = identity::<1, 1>(3);
    let mut y = [[f64::INFINITY], [-1.0], [f64::NAN]];
    matrix.mult_vec(&mut y, 0.0, 1.0, &[[2.0], [-0.0], [1.0]]);
    assert!(y[0][0].is_nan() && y[2][0].is_nan());
    // -1 * 0 is -0, and the block times -0 sums to +0.
    assert_eq!(y[1][0].to_bits(), 0.0_f64.to_bits());
}

#[test]
fn flags_may_be_longer_than_the_vector() {
    let mut right_side = [[1.0, 2.0]];
    sparse_square::set_fix_dof_to_rhs_vector(&mut right_side, &[[0, -3], [1, 1]]);
    assert_eq!(right_side, [[1.0, 0.0]]);
}

/// A matrix of N = 1 with these offsets and columns; values are 1, 2, 4, ... and the diagonal is 100 each.
fn matrix_of(offsets: &[usize], columns: &[usize]) -> MatrixOwned<[f64; 1]> {
    let n = offsets.len() - 1;
    let mut power = 0.5;
    let values = columns.iter().map(|_| {
        power *= 2.0;
        [power]
    });
    MatrixOwned {
        num_blk: n,
        row2idx: offsets.to_vec(),
        idx2col: columns.to_vec(),
        idx2val: values.collect(),
        row2val: vec![[100.0]; n],
    }
}

/// y of y = A*x for x = (1, 10, 1000).
fn times(matrix: &MatrixOwned<[f64; 1]>) -> Vec<f64> {
    let mut y = vec![[0.0]; matrix.num_blk];
    matrix.mult_vec(&mut y, 1.0, 1.0, &[[1.0], [10.0], [1000.0]]);
    y.concat()
}

#[test]
fn mult_vec_takes_a_longer_x() {
    // 01 refuses it by 2. A shorter one panics.
    assert_eq!(times(&matrix_of(&[0, 1, 1], &[1])), [110.0, 1000.0]);
    let matrix = matrix_of(&[0, 1, 1], &[1]);
    assert!(panics(|| matrix.mult_vec(
        &mut [[0.0]; 2],
        1.0,
        1.0,
        &[[1.0]]
    )));
}

#[test]
fn mult_vec_takes_patterns_that_are_not_valid() {
    // 01 refuses each by 3. A row's own column is added beside the diagonal.
    assert_eq!(times(&matrix_of(&[0, 1, 1], &[0])), [101.0, 1000.0]);
    // A column that stands twice is added twice.
    assert_eq!(times(&matrix_of(&[0, 2, 2], &[1, 1])), [130.0, 1000.0]);
    // Where offsets fall the row has no entry, and a first offset above 0 passes entries over.
    assert_eq!(times(&matrix_of(&[0, 1, 0], &[1])), [110.0, 1000.0]);
    assert_eq!(times(&matrix_of(&[1, 2, 2], &[1, 1])), [120.0, 1000.0]);
    // So does a last offset below the number of columns.
    assert_eq!(times(&matrix_of(&[0, 1, 1], &[1, 0])), [110.0, 1000.0]);
}

#[test]
fn merge_takes_any_number_of_nodes() {
    // 01 refuses 0 and 9 nodes by 2.
    let mut matrix = matrix_of(&[0, 1, 2], &[1, 0]);
    matrix.merge(&[], &[], &mut Vec::new());
    assert_eq!(matrix.row2val, [[100.0], [100.0]]);
    let offsets: Vec<usize> = (0..=9).map(|i| 8 * i).collect();
    let columns: Vec<usize> = (0..9)
        .flat_map(|i| (0..9).filter(move |&j| j != i))
        .collect();
    let mut matrix = MatrixOwned::<[f64; 1]>::from_vtx2vtx(&offsets, &columns);
    let nodes = [8, 7, 6, 5, 4, 3, 2, 1, 0];
    matrix.merge(&[[[1.0]; 9]; 9], &nodes, &mut Vec::new());
    let all = matrix.row2val.iter().chain(&matrix.idx2val);
    assert!(all.into_iter().all(|value| *value == [1.0]));
}

#[test]
fn merge_takes_patterns_that_are_not_valid() {
    // 01 refuses both by 3. A column that stands twice is added to at its last place.
    let mut matrix = matrix_of(&[0, 2, 3], &[1, 1, 0]);
    matrix.merge(&[[[8.0]; 2]; 2], &[0, 1], &mut Vec::new());
    assert_eq!(matrix.idx2val, [[1.0], [10.0], [12.0]]);
    // With its own column in the row, a vertex may be named twice.
    let mut matrix = matrix_of(&[0, 1], &[0]);
    matrix.merge(&[[[8.0]; 2]; 2], &[0, 0], &mut Vec::new());
    assert_eq!((matrix.row2val[0], matrix.idx2val[0]), ([116.0], [17.0]));
}

#[test]
fn merge_adds_before_it_panics_on_a_vertex_named_twice() {
    // 01 refuses it by 7, and nothing has changed.
    let mut matrix = matrix_of(&[0, 1, 2], &[1, 0]);
    assert!(panics(|| matrix.merge(
        &[[[8.0]; 2]; 2],
        &[0, 0],
        &mut Vec::new()
    )));
    assert_eq!(matrix.row2val, [[108.0], [100.0]]);
}

#[test]
fn csrdia_and_blkcsr_add_repeated_nodes_one_after_another() {
    // As 01 has it: a list may name a row or a column again. By row node, then column node the sum is 1, since
    // 1e16 takes the first 1 in; by column node it would be 2, and backwards 0.
    let element = [[[1e16], [1.0]], [[-1e16], [1.0]]];
    let (offsets, columns) = ([0, 1, 1], [1]);
    let csrdia = |cols: [usize; 2]| {
        let (mut diagonal, mut entries) = ([0.0; 2], [0.0; 1]);
        merge::csrdia(
            &[0, 0],
            &cols,
            &element,
            &offsets,
            &columns,
            &mut diagonal,
            &mut entries,
            &mut Vec::new(),
        );
        (diagonal, entries)
    };
    assert_eq!(csrdia([1, 1]), ([0.0, 0.0], [1.0]));
    assert_eq!(csrdia([0, 0]), ([1.0, 0.0], [0.0]));
    let mut entries = [0.0];
    merge::blkcsr(
        &[0, 0],
        &[1, 1],
        &element,
        &offsets,
        &columns,
        &mut entries,
        &mut Vec::new(),
    );
    assert_eq!(entries, [1.0]);
}

#[test]
fn blkcsr_does_not_look_at_the_length_of_the_values() {
    // 01 refuses one value too many by 2.
    let mut entries = [0.0; 2];
    let (offsets, columns) = ([0, 1, 1], [1]);
    merge::blkcsr(
        &[0],
        &[1],
        &[[[5.0]]],
        &offsets,
        &columns,
        &mut entries,
        &mut Vec::new(),
    );
    assert_eq!(entries, [5.0, 0.0]);
}

#[test]
fn vectors_may_have_no_row_or_any_number() {
    // 01 refuses both by 1.
    assert_eq!(vtx2xn::dot::<f64, 2>(&[], &[]), 0.0);
    let ones = vec![[1.0]; 4097];
    assert_eq!(vtx2xn::dot(&ones, &ones), 4097.0);
}

/// Offsets, columns and splits that a fill of this matrix has: without fill, or at level k.
fn pattern_by(matrix: &MatrixOwned<[f64; 1]>, k: Option<usize>) -> [Vec<usize>; 3] {
    let mut factor = Preconditioner::<[f64; 1]>::new();
    match k {
        None => factor.initialize_ilu0(matrix),
        Some(k) => factor.initialize_iluk(matrix, k),
    }
    [factor.row2idx, factor.idx2col, factor.row2idx_dia]
}

#[test]
fn a_fill_takes_patterns_that_are_not_valid() {
    // 01 refuses each by 3. A row's own column stays, before the split.
    let own = matrix_of(&[0, 1, 1], &[0]);
    for k in [None, Some(0), Some(1)] {
        assert_eq!(pattern_by(&own, k), [vec![0, 1, 1], vec![0], vec![1, 1]]);
    }
    // A column that stands twice stays twice without fill, and once at level k.
    let twice = matrix_of(&[0, 2, 2], &[1, 1]);
    assert_eq!(
        pattern_by(&twice, None),
        [vec![0, 2, 2], vec![1, 1], vec![0, 2]]
    );
    let once = [vec![0, 1, 1], vec![1], vec![0, 1]];
    assert_eq!(pattern_by(&twice, Some(0)), once);
    // So do entries that no row has, before the first offset or after the last; at level k they are left out.
    let before = matrix_of(&[1, 2, 2], &[1, 1]);
    assert_eq!(
        pattern_by(&before, None),
        [vec![1, 2, 2], vec![1, 1], vec![1, 2]]
    );
    assert_eq!(pattern_by(&before, Some(0)), once);
    let after = matrix_of(&[0, 1, 1], &[1, 0]);
    assert_eq!(
        pattern_by(&after, None),
        [vec![0, 1, 1], vec![1, 0], vec![0, 1]]
    );
    assert_eq!(pattern_by(&after, Some(0)), once);
    // Offsets that fall panic.
    let falling = matrix_of(&[0, 1, 0], &[1]);
    assert!(panics(|| drop(pattern_by(&falling, None))));
    assert!(panics(|| drop(pattern_by(&falling, Some(0)))));
}

#[test]
fn a_fill_at_level_k_may_write_a_column_beyond_n() {
    // 01 refuses it by 3. Without fill it panics, at level k only where a row would take it over.
    let beyond = matrix_of(&[0, 1, 2], &[5, 0]);
    assert!(panics(|| drop(pattern_by(&beyond, None))));
    assert_eq!(
        pattern_by(&beyond, Some(0)),
        [vec![0, 1, 2], vec![5, 0], vec![0, 2]]
    );
    assert!(panics(|| drop(pattern_by(&beyond, Some(1)))));
}

#[test]
fn a_fill_may_have_no_row_or_any_number_of_entries() {
    // 01 refuses the first by 1, the others by 4: there is never room for more than 65,535 entries.
    let none = matrix_of(&[0], &[]);
    for k in [None, Some(3)] {
        assert_eq!(pattern_by(&none, k), [vec![0], vec![], vec![]]);
    }
    let mut factor = Preconditioner::<[f64; 1]>::new();
    factor.initialize_full(257);
    assert_eq!(factor.idx2col.len(), 65_792);
    // Row 0 and its column are dense, so that level 1 fills every row.
    let (mut offsets, mut columns): (Vec<usize>, Vec<usize>) = (vec![0], (1..257).collect());
    for _ in 0..257 {
        offsets.push(columns.len());
        columns.push(0);
    }
    columns.pop();
    let [_, columns, _] = pattern_by(&matrix_of(&offsets, &columns), Some(1));
    assert_eq!(columns.len(), 65_792);
}

/// A factor of N = 1 with this pattern and these splits, whose diagonal is 2 each and whose entries are 8 each.
fn factor_with(offsets: &[usize], columns: &[usize], splits: &[usize]) -> Preconditioner<[f64; 1]> {
    Preconditioner {
        num_blk: splits.len(),
        row2idx: offsets.to_vec(),
        idx2col: columns.to_vec(),
        row2idx_dia: splits.to_vec(),
        idx2val: vec![[8.0]; columns.len()],
        row2val: vec![[2.0]; splits.len()],
    }
}

#[test]
fn copy_value_writes_before_it_panics() {
    // The entry (1,0) has no place in the factor: 01 refuses it by 8, and no word has changed.
    let matrix = matrix_of(&[0, 1, 2], &[1, 0]);
    let mut factor = factor_with(&[0, 1, 1], &[1], &[0, 1]);
    assert!(panics(|| sparse_ilu::copy_value(&mut factor, &matrix)));
    assert_eq!(factor.row2val, [[100.0], [100.0]]);
    assert_eq!(factor.idx2val, [[1.0]]);
}

#[test]
fn copy_value_takes_a_factor_with_unsorted_rows_and_wrong_splits() {
    // 01 refuses it by 11.
    let matrix = matrix_of(&[0, 2, 2, 2], &[1, 2]);
    let mut factor = factor_with(&[0, 2, 2, 2], &[2, 1], &[9, 9, 9]);
    sparse_ilu::copy_value(&mut factor, &matrix);
    assert_eq!(factor.idx2val, [[2.0], [1.0]]);
}

#[test]
fn decompose_takes_a_wrong_split() {
    // 01 refuses it by 11. Row 0's entry stands above the diagonal and is not multiplied by the pivot.
    let mut factor = factor_with(&[0, 1, 1], &[1], &[1, 1]);
    assert!(sparse_ilu::decompose::<f64, 1, 1>(&mut factor).is_ok());
    assert_eq!(factor.idx2val, [[8.0]]);
    let mut right = factor_with(&[0, 1, 1], &[1], &[0, 1]);
    assert!(sparse_ilu::decompose::<f64, 1, 1>(&mut right).is_ok());
    assert_eq!(right.idx2val, [[4.0]]);
}

#[test]
fn decompose_does_not_say_where_it_stops() {
    // 01 names the row by 9.
    let mut factor = factor_with(&[0, 0, 0], &[], &[0, 0]);
    factor.row2val = vec![[0.0], [0.0]];
    let at_row_0 = sparse_ilu::decompose::<f64, 1, 1>(&mut factor);
    factor.row2val = vec![[2.0], [0.0]];
    let at_row_1 = sparse_ilu::decompose::<f64, 1, 1>(&mut factor);
    assert!(at_row_0.is_err() && at_row_0 == at_row_1);
    assert_eq!(factor.row2val, [[0.5], [0.0]]);
}

/// A's factor, filled with its diagonal alone.
fn factor_of_diagonal(matrix: &MatrixOwned<[f64; 1]>) -> Preconditioner<[f64; 1]> {
    let mut alone = MatrixOwned::from_vtx2vtx(&vec![0; matrix.num_blk + 1], &[]);
    alone.row2val.copy_from_slice(&matrix.row2val);
    factor_of::<1, 1>(&alone)
}

/// What a preconditioned run leaves: r, x and its norms.
fn preconditioned(
    matrix: &MatrixOwned<[f64; 1]>,
    factor: &Preconditioner<[f64; 1]>,
    right_side: &[f64],
    tolerance: f64,
    limit: usize,
) -> [Vec<f64>; 3] {
    let mut r: Vec<[f64; 1]> = right_side.iter().map(|&b| [b]).collect();
    let (mut x, mut pr, mut p) = (Vec::new(), Vec::new(), Vec::new());
    let norms = cg::preconditioned_conjugate_gradient::<f64, 1, 1>(
        &mut r, &mut x, &mut pr, &mut p, tolerance, limit, matrix, factor,
    );
    [r.as_flattened().to_vec(), x.as_flattened().to_vec(), norms]
}

/// The same of a plain run: r, u and its ratios.
fn plain(
    matrix: &MatrixOwned<[f64; 1]>,
    right_side: &[f64],
    tolerance: f64,
    limit: usize,
) -> [Vec<f64>; 3] {
    let mut r: Vec<[f64; 1]> = right_side.iter().map(|&b| [b]).collect();
    let zeros = vec![[0.0]; r.len()];
    let (mut u, mut ap, mut p) = (zeros.clone(), zeros.clone(), zeros);
    let ratios = cg::conjugate_gradient::<f64, 1, 1>(
        &mut r,
        &mut u,
        &mut ap,
        &mut p,
        tolerance,
        limit,
        matrix.as_ref(),
    );
    [r.as_flattened().to_vec(), u.as_flattened().to_vec(), ratios]
}

/// Rows (2, 1) and (1, 4).
fn two_rows() -> MatrixOwned<[f64; 1]> {
    let mut matrix = MatrixOwned::from_vtx2vtx(&[0, 1, 2], &[1, 0]);
    matrix.row2val = vec![[2.0], [4.0]];
    matrix.idx2val = vec![[1.0], [1.0]];
    matrix
}

fn bits(values: &[f64]) -> Vec<u64> {
    values.iter().map(|value| value.to_bits()).collect()
}

/// The least number above 0.
const LEAST: f64 = f64::from_bits(1);

/// A squared norm that overflows makes every later ratio 0: two norms of a run with limit 5 are Settled by 01, at
/// whatever tolerance above 0, with half of the right side not yet solved for.
#[test]
fn an_overflowing_norm_settles_a_run_at_its_first_step() {
    let matrix = two_rows();
    let factor = factor_of_diagonal(&matrix);
    let [r, x, norms] = preconditioned(&matrix, &factor, &[two_to(512), 0.0], LEAST, 5);
    assert_eq!(norms, [f64::INFINITY, two_to(511)]);
    assert_eq!(r, [0.0, -two_to(511)]);
    assert_eq!(x, [two_to(511), 0.0]);
    // With half of that right side nothing overflows, and the run goes on until it has solved the system.
    let [r, x, norms] = preconditioned(&matrix, &factor, &[two_to(511), 0.0], LEAST, 5);
    assert_eq!(norms, [two_to(511), two_to(510), 0.0]);
    assert_eq!(r, [0.0, 0.0]);
    assert_eq!(bits(&x), [0x5FD2_4924_9249_2492, 0xDFB2_4924_9249_2492]);
    // The plain run does not settle: its alpha is infinite or a NaN.
    let [_, _, ratios] = plain(&matrix, &[two_to(512), 0.0], LEAST, 5);
    assert!(ratios.len() == 5 && ratios.iter().all(|ratio| ratio.is_nan()));
}

/// The same with A's own factor: without fill it is not exact from three rows on.
#[test]
fn an_overflowing_norm_settles_a_run_with_its_own_factor() {
    let mut matrix = MatrixOwned::<[f64; 1]>::from_vtx2vtx(&[0, 2, 3, 4], &[1, 2, 0, 0]);
    matrix.row2val = vec![[2.0]; 3];
    matrix.idx2val = vec![[1.0]; 4];
    let factor = factor_of::<1, 1>(&matrix);
    let [r, _, norms] = preconditioned(&matrix, &factor, &[0.0, two_to(512), 0.0], LEAST, 5);
    // A third of the right side's norm, 0x1.5555555555555p+510, is left.
    assert_eq!(bits(&norms), [0x7FF0_0000_0000_0000, 0x5FD5_5555_5555_5555]);
    assert_eq!(bits(&r), [0, 0, 0x5FD5_5555_5555_5555]);
}

/// The residual decides, and not the solution: u = 2^1040 overflows, and the run is Settled by 01.
#[test]
fn a_settled_solution_may_be_infinite() {
    let mut matrix = identity::<1, 1>(1);
    matrix.row2val[0] = [two_to(-1000)];
    let [r, u, ratios] = plain(&matrix, &[two_to(40)], 0.5, 5);
    assert_eq!((r, u, ratios), (vec![0.0], vec![f64::INFINITY], vec![0.0]));
}

/// A NaN is not below epsilon, and no ratio of it is below a tolerance: all steps are taken, and 01's verdict is
/// Unsettled. So it is with an infinity.
#[test]
fn a_right_side_that_is_not_finite_takes_all_steps() {
    let matrix = identity::<1, 1>(1);
    let factor = factor_of::<1, 1>(&matrix);
    for b in [f64::NAN, f64::INFINITY] {
        let [_, x, norms] = preconditioned(&matrix, &factor, &[b], f64::INFINITY, 3);
        assert!(norms.len() == 5 && norms[1..].iter().all(|norm| norm.is_nan()));
        assert!(x[0].is_nan());
        let [_, u, ratios] = plain(&matrix, &[b], f64::INFINITY, 3);
        assert!(ratios.len() == 3 && ratios.iter().all(|ratio| ratio.is_nan()));
        assert!(u[0].is_nan());
    }
}

/// A plain history is empty below epsilon and at limit 0 alike: by 01's verdict both are Empty, whatever stands on
/// the pan. At limit 0 the preconditioned one has two norms, and is Unsettled.
#[test]
fn a_plain_history_is_empty_at_limit_0() {
    let matrix = two_rows();
    let [r, u, ratios] = plain(&matrix, &[8.0, 12.0], 0.5, 0);
    assert!(ratios.is_empty());
    assert_eq!((r, u), (vec![8.0, 12.0], vec![0.0, 0.0]));
    let factor = factor_of::<1, 1>(&matrix);
    assert_eq!(
        preconditioned(&matrix, &factor, &[3.0, 4.0], 0.5, 0)[2],
        [5.0, 5.0]
    );
}

#[test]
fn a_solver_takes_any_limit() {
    let matrix = two_rows();
    let factor = factor_of::<1, 1>(&matrix);
    assert_eq!(plain(&matrix, &[8.0, 12.0], 0.0, 5000)[2].len(), 5000);
    assert_eq!(
        preconditioned(&matrix, &factor, &[8.0, 12.0], 0.0, 5000)[2].len(),
        5002
    );
}

/// The preconditioned solver makes x, Pr and p as long as r.
#[test]
fn the_preconditioned_solver_takes_vectors_of_any_length() {
    let matrix = two_rows();
    let factor = factor_of::<1, 1>(&matrix);
    let (mut x, mut pr, mut p) = (vec![[7.0]; 5], vec![[7.0]], Vec::new());
    let mut r = [[8.0], [12.0]];
    cg::preconditioned_conjugate_gradient::<f64, 1, 1>(
        &mut r, &mut x, &mut pr, &mut p, 0.5, 5, &matrix, &factor,
    );
    assert_eq!([x.len(), pr.len(), p.len()], [2; 3]);
}

/// Below epsilon the original looks at nothing more: not at the other vectors, nor at the factor.
#[test]
fn below_epsilon_lengths_do_not_matter() {
    let matrix = two_rows();
    let (mut r, mut u) = ([[0.0]; 2], [[7.0]; 3]);
    let ratios = cg::conjugate_gradient::<f64, 1, 1>(
        &mut r,
        &mut u,
        &mut [],
        &mut [],
        0.5,
        5,
        matrix.as_ref(),
    );
    assert!(ratios.is_empty());
    assert_eq!(u, [[0.0]; 3]);
    let none = Preconditioner::new();
    assert_eq!(
        preconditioned(&matrix, &none, &[0.0, 0.0], 0.5, 5)[2],
        [0.0]
    );
    assert!(panics(|| {
        preconditioned(&matrix, &none, &[8.0, 12.0], 0.5, 5);
    }));
}

/// Rows of a factor need not be sorted for it, as long as the lower entries come first.
#[test]
fn a_solver_takes_a_factor_with_an_unsorted_row() {
    let matrix = MatrixOwned::<[f64; 1]>::from_vtx2vtx(&[0, 2, 2, 2], &[1, 2]);
    let mut factor = factor_with(&[0, 2, 2, 2], &[2, 1], &[0, 2, 2]);
    factor.row2val = vec![[1.0]; 3];
    let norms = &preconditioned(&matrix, &factor, &[1.0, 0.0, 0.0], 0.5, 0)[2];
    assert_eq!(norms, &[1.0, 1.0]);
}
