// The port's C entry points, in the order of its crates `host`, `factor_host` and `solver_host`. This is the only
// place that declares them.
// A lent slice is a pointer and a count of elements: bytes for `u8`, values for `f64`, words for `u32`, `i32` and `u16`.

/// Document 01's number, 0 for done, and the row of number 9.
#[repr(C)]
#[derive(Clone, Copy, Debug, PartialEq, Eq)]
pub struct Outcome {
    pub number: u32,
    pub row: u32,
}

/// The same with a sum, which is +0 if the call was refused.
#[repr(C)]
#[derive(Clone, Copy, Debug)]
pub struct Summed {
    pub number: u32,
    pub row: u32,
    pub sum: f64,
}

/// What a solve answers. After a refusal the last three are 0, `last` as +0.
#[repr(C)]
#[derive(Clone, Copy, Debug)]
pub struct Solved {
    pub number: u32,
    /// How many numbers of the history are written.
    pub count: u32,
    /// 1 Empty, 2 Settled, 3 Unsettled.
    pub verdict: u32,
    /// The last of them, +0 if there is none.
    pub last: f64,
}

#[rustfmt::skip]
extern "C" {
    pub(crate) fn pierbramble_square_root(x: f64) -> f64;
    pub(crate) fn pierbramble_check_vector(n: u32, dim: u32, length: usize) -> Outcome;
    pub(crate) fn pierbramble_apply(dim: u32, a: *const u8, a_count: usize, x: *const u8, x_count: usize, out: *mut u8, out_count: usize) -> Outcome;
    pub(crate) fn pierbramble_product(dim: u32, a: *const u8, a_count: usize, b: *const u8, b_count: usize, out: *mut u8, out_count: usize) -> Outcome;
    pub(crate) fn pierbramble_scale(dim: u32, v: *const u8, v_count: usize, s: f64, out: *mut u8, out_count: usize) -> Outcome;
    pub(crate) fn pierbramble_add(dim: u32, u: *const u8, u_count: usize, v: *const u8, v_count: usize, out: *mut u8, out_count: usize) -> Outcome;
    pub(crate) fn pierbramble_subtract(dim: u32, u: *const u8, u_count: usize, v: *const u8, v_count: usize, out: *mut u8, out_count: usize) -> Outcome;
    pub(crate) fn pierbramble_add_block(dim: u32, u: *const u8, u_count: usize, v: *const u8, v_count: usize, out: *mut u8, out_count: usize) -> Outcome;
    pub(crate) fn pierbramble_subtract_block(dim: u32, u: *const u8, u_count: usize, v: *const u8, v_count: usize, out: *mut u8, out_count: usize) -> Outcome;
    pub(crate) fn pierbramble_inverse(dim: u32, a: *const u8, a_count: usize, out: *mut u8, out_count: usize) -> Outcome;
    pub(crate) fn pierbramble_timed_product(dim: u32, a: *const f64, a_count: usize, b: *const f64, b_count: usize, out: *mut f64, out_count: usize);
    pub(crate) fn pierbramble_timed_apply(dim: u32, a: *const f64, a_count: usize, x: *const f64, x_count: usize, out: *mut f64, out_count: usize);
    pub(crate) fn pierbramble_timed_inverse(dim: u32, a: *const f64, a_count: usize, out: *mut f64, out_count: usize);
    pub(crate) fn pierbramble_timed_square_root(x: *const f64, x_count: usize, out: *mut f64, out_count: usize);
    pub(crate) fn pierbramble_timed_add(dim: u32, u: *const f64, u_count: usize, v: *const f64, v_count: usize, out: *mut f64, out_count: usize);
    pub(crate) fn pierbramble_timed_add_block(dim: u32, u: *const f64, u_count: usize, v: *const f64, v_count: usize, out: *mut f64, out_count: usize);
    pub(crate) fn pierbramble_timed_subtract(dim: u32, u: *const f64, u_count: usize, v: *const f64, v_count: usize, out: *mut f64, out_count: usize);
    pub(crate) fn pierbramble_timed_subtract_block(dim: u32, u: *const f64, u_count: usize, v: *const f64, v_count: usize, out: *mut f64, out_count: usize);
    pub(crate) fn pierbramble_timed_scale(dim: u32, v: *const f64, v_count: usize, s: f64, out: *mut f64, out_count: usize);
    pub(crate) fn pierbramble_set_zero(dim: u32, n: u32, p: *mut u8, p_count: usize) -> Outcome;
    pub(crate) fn pierbramble_copy(dim: u32, n: u32, p: *mut u8, p_count: usize, u: *const u8, u_count: usize) -> Outcome;
    pub(crate) fn pierbramble_add_scaled_vector(dim: u32, n: u32, u: *mut u8, u_count: usize, alpha: f64, p: *const u8, p_count: usize) -> Outcome;
    pub(crate) fn pierbramble_scale_and_add_vec(dim: u32, n: u32, p: *mut u8, p_count: usize, beta: f64, r: *const u8, r_count: usize) -> Outcome;
    pub(crate) fn pierbramble_set_fixed(dim: u32, n: u32, values: *mut u8, values_count: usize, flags: *const u8, flags_count: usize) -> Outcome;
    pub(crate) fn pierbramble_set_fix_dof_to_rhs_vector(dim: u32, n: u32, rhs: *mut u8, rhs_count: usize, flags: *const u8, flags_count: usize) -> Outcome;
    pub(crate) fn pierbramble_dot(dim: u32, n: u32, v0: *const u8, v0_count: usize, v1: *const u8, v1_count: usize) -> Summed;
    pub(crate) fn pierbramble_check_pattern(offsets: *const u8, offsets_count: usize, columns: *const u8, columns_count: usize) -> Outcome;
    pub(crate) fn pierbramble_check_entries(offsets: *const u8, offsets_count: usize, columns: *const u8, columns_count: usize) -> Outcome;
    pub(crate) fn pierbramble_check_factor(offsets: *const u8, offsets_count: usize, columns: *const u8, columns_count: usize, splits: *const u8, splits_count: usize) -> Outcome;
    pub(crate) fn pierbramble_sort_row(columns: *mut u8, columns_count: usize) -> Outcome;
    pub(crate) fn pierbramble_initialize_ilu0(starts: *const u8, starts_count: usize, entries: *const u8, entries_count: usize, offsets: *mut u8, offsets_count: usize, columns: *mut u8, columns_count: usize, splits: *mut u8, splits_count: usize) -> Outcome;
    pub(crate) fn pierbramble_initialize_full(n: u32, offsets: *mut u8, offsets_count: usize, columns: *mut u8, columns_count: usize, splits: *mut u8, splits_count: usize) -> Outcome;
    pub(crate) fn pierbramble_initialize_iluk(starts: *const u8, starts_count: usize, entries: *const u8, entries_count: usize, k: u32, offsets: *mut u8, offsets_count: usize, columns: *mut u8, columns_count: usize, splits: *mut u8, splits_count: usize, levels: *mut u8, levels_count: usize, row: *mut u8, row_count: usize) -> Outcome;
    pub(crate) fn pierbramble_mult_vec(dim: u32, offsets: *const u8, offsets_count: usize, columns: *const u8, columns_count: usize, values: *const u8, values_count: usize, diagonal: *const u8, diagonal_count: usize, y: *mut u8, y_count: usize, beta: f64, alpha: f64, x: *const u8, x_count: usize) -> Outcome;
    pub(crate) fn pierbramble_matrix_set_zero(dim: u32, offsets: *const u8, offsets_count: usize, columns: *const u8, columns_count: usize, values: *mut u8, values_count: usize, diagonal: *mut u8, diagonal_count: usize) -> Outcome;
    pub(crate) fn pierbramble_set_fixed_bc(dim: u32, val_dia: f64, flags: *const u8, flags_count: usize, diagonal: *mut u8, diagonal_count: usize, values: *mut u8, values_count: usize, offsets: *const u8, offsets_count: usize, columns: *const u8, columns_count: usize) -> Outcome;
    pub(crate) fn pierbramble_merge(dim: u32, nodes: *const u8, nodes_count: usize, element: *const u8, element_count: usize, offsets: *const u8, offsets_count: usize, columns: *const u8, columns_count: usize, diagonal: *mut u8, diagonal_count: usize, values: *mut u8, values_count: usize) -> Outcome;
    pub(crate) fn pierbramble_csrdia(rows: *const u8, rows_count: usize, cols: *const u8, cols_count: usize, element: *const u8, element_count: usize, offsets: *const u8, offsets_count: usize, columns: *const u8, columns_count: usize, diagonal: *mut u8, diagonal_count: usize, values: *mut u8, values_count: usize) -> Outcome;
    pub(crate) fn pierbramble_blkcsr(dim: u32, rows: *const u8, rows_count: usize, cols: *const u8, cols_count: usize, element: *const u8, element_count: usize, offsets: *const u8, offsets_count: usize, columns: *const u8, columns_count: usize, values: *mut u8, values_count: usize) -> Outcome;
    pub(crate) fn pierbramble_copy_value(dim: u32, starts: *const u8, starts_count: usize, entries: *const u8, entries_count: usize, a_diagonal: *const u8, a_diagonal_count: usize, a_values: *const u8, a_values_count: usize, offsets: *const u8, offsets_count: usize, columns: *const u8, columns_count: usize, splits: *const u8, splits_count: usize, diagonal: *mut u8, diagonal_count: usize, values: *mut u8, values_count: usize) -> Outcome;
    pub(crate) fn pierbramble_decompose(dim: u32, offsets: *const u8, offsets_count: usize, columns: *const u8, columns_count: usize, splits: *const u8, splits_count: usize, diagonal: *mut u8, diagonal_count: usize, values: *mut u8, values_count: usize) -> Outcome;
    pub(crate) fn pierbramble_solve_preconditioning_vec(dim: u32, vec: *mut u8, vec_count: usize, offsets: *const u8, offsets_count: usize, columns: *const u8, columns_count: usize, splits: *const u8, splits_count: usize, diagonal: *const u8, diagonal_count: usize, values: *const u8, values_count: usize) -> Outcome;
    pub(crate) fn pierbramble_timed_set_zero(dim: u32, n: u32, p: *mut f64, p_count: usize) -> u32;
    pub(crate) fn pierbramble_timed_copy(dim: u32, n: u32, p: *mut f64, p_count: usize, u: *const f64, u_count: usize) -> u32;
    pub(crate) fn pierbramble_timed_add_scaled_vector(dim: u32, n: u32, u: *mut f64, u_count: usize, alpha: f64, p: *const f64, p_count: usize) -> u32;
    pub(crate) fn pierbramble_timed_scale_and_add_vec(dim: u32, n: u32, p: *mut f64, p_count: usize, beta: f64, r: *const f64, r_count: usize) -> u32;
    pub(crate) fn pierbramble_timed_set_fixed(dim: u32, n: u32, values: *mut f64, values_count: usize, flags: *const i32, flags_count: usize) -> u32;
    pub(crate) fn pierbramble_timed_dot(dim: u32, n: u32, v0: *const f64, v0_count: usize, v1: *const f64, v1_count: usize) -> Summed;
    pub(crate) fn pierbramble_timed_check_pattern(offsets: *const u32, offsets_count: usize, columns: *const u32, columns_count: usize) -> u32;
    pub(crate) fn pierbramble_timed_initialize_ilu0(starts: *const u32, starts_count: usize, entries: *const u32, entries_count: usize, offsets: *mut u32, offsets_count: usize, columns: *mut u32, columns_count: usize, splits: *mut u32, splits_count: usize) -> u32;
    pub(crate) fn pierbramble_timed_initialize_full(n: u32, offsets: *mut u32, offsets_count: usize, columns: *mut u32, columns_count: usize, splits: *mut u32, splits_count: usize) -> u32;
    pub(crate) fn pierbramble_timed_initialize_iluk(starts: *const u32, starts_count: usize, entries: *const u32, entries_count: usize, k: u32, offsets: *mut u32, offsets_count: usize, columns: *mut u32, columns_count: usize, splits: *mut u32, splits_count: usize, levels: *mut u16, levels_count: usize, row: *mut u32, row_count: usize) -> u32;
    pub(crate) fn pierbramble_timed_mult_vec(dim: u32, offsets: *const u32, offsets_count: usize, columns: *const u32, columns_count: usize, values: *const f64, values_count: usize, diagonal: *const f64, diagonal_count: usize, y: *mut f64, y_count: usize, beta: f64, alpha: f64, x: *const f64, x_count: usize) -> u32;
    pub(crate) fn pierbramble_unchecked_mult_vec(dim: u32, offsets: *const u32, offsets_count: usize, columns: *const u32, columns_count: usize, values: *const f64, values_count: usize, diagonal: *const f64, diagonal_count: usize, y: *mut f64, y_count: usize, beta: f64, alpha: f64, x: *const f64, x_count: usize);
    pub(crate) fn pierbramble_timed_merge(dim: u32, nodes: *const u32, nodes_count: usize, element: *const f64, element_count: usize, offsets: *const u32, offsets_count: usize, columns: *const u32, columns_count: usize, diagonal: *mut f64, diagonal_count: usize, values: *mut f64, values_count: usize) -> u32;
    pub(crate) fn pierbramble_unchecked_merge(dim: u32, nodes: *const u32, nodes_count: usize, element: *const f64, element_count: usize, offsets: *const u32, offsets_count: usize, columns: *const u32, columns_count: usize, diagonal: *mut f64, diagonal_count: usize, values: *mut f64, values_count: usize);
    pub(crate) fn pierbramble_timed_set_fixed_bc(dim: u32, val_dia: f64, flags: *const i32, flags_count: usize, diagonal: *mut f64, diagonal_count: usize, values: *mut f64, values_count: usize, offsets: *const u32, offsets_count: usize, columns: *const u32, columns_count: usize) -> u32;
    pub(crate) fn pierbramble_timed_copy_value(dim: u32, starts: *const u32, starts_count: usize, entries: *const u32, entries_count: usize, a_diagonal: *const f64, a_diagonal_count: usize, a_values: *const f64, a_values_count: usize, offsets: *const u32, offsets_count: usize, columns: *const u32, columns_count: usize, splits: *const u32, splits_count: usize, diagonal: *mut f64, diagonal_count: usize, values: *mut f64, values_count: usize) -> u32;
    pub(crate) fn pierbramble_timed_decompose(dim: u32, offsets: *const u32, offsets_count: usize, columns: *const u32, columns_count: usize, splits: *const u32, splits_count: usize, diagonal: *mut f64, diagonal_count: usize, values: *mut f64, values_count: usize) -> Outcome;
    pub(crate) fn pierbramble_timed_solve_preconditioning_vec(dim: u32, vec: *mut f64, vec_count: usize, offsets: *const u32, offsets_count: usize, columns: *const u32, columns_count: usize, splits: *const u32, splits_count: usize, diagonal: *const f64, diagonal_count: usize, values: *const f64, values_count: usize) -> u32;
    pub(crate) fn pierbramble_unchecked_copy_value(dim: u32, starts: *const u32, starts_count: usize, entries: *const u32, entries_count: usize, a_diagonal: *const f64, a_diagonal_count: usize, a_values: *const f64, a_values_count: usize, offsets: *const u32, offsets_count: usize, columns: *const u32, columns_count: usize, diagonal: *mut f64, diagonal_count: usize, values: *mut f64, values_count: usize);
    pub(crate) fn pierbramble_unchecked_decompose(dim: u32, offsets: *const u32, offsets_count: usize, columns: *const u32, columns_count: usize, splits: *const u32, splits_count: usize, diagonal: *mut f64, diagonal_count: usize, values: *mut f64, values_count: usize) -> usize;
    pub(crate) fn pierbramble_unchecked_solve_preconditioning_vec(dim: u32, vec: *mut f64, vec_count: usize, offsets: *const u32, offsets_count: usize, columns: *const u32, columns_count: usize, splits: *const u32, splits_count: usize, diagonal: *const f64, diagonal_count: usize, values: *const f64, values_count: usize);
    pub(crate) fn pierbramble_conjugate_gradient(dim: u32, r: *mut u8, r_count: usize, u: *mut u8, u_count: usize, ap: *mut u8, ap_count: usize, p: *mut u8, p_count: usize, tolerance: f64, limit: u32, offsets: *const u8, offsets_count: usize, columns: *const u8, columns_count: usize, values: *const u8, values_count: usize, diagonal: *const u8, diagonal_count: usize, history: *mut u8, history_count: usize) -> Solved;
    pub(crate) fn pierbramble_preconditioned_conjugate_gradient(dim: u32, r: *mut u8, r_count: usize, x: *mut u8, x_count: usize, pr: *mut u8, pr_count: usize, p: *mut u8, p_count: usize, tolerance: f64, limit: u32, starts: *const u8, starts_count: usize, entries: *const u8, entries_count: usize, a_values: *const u8, a_values_count: usize, a_diagonal: *const u8, a_diagonal_count: usize, offsets: *const u8, offsets_count: usize, columns: *const u8, columns_count: usize, splits: *const u8, splits_count: usize, diagonal: *const u8, diagonal_count: usize, values: *const u8, values_count: usize, history: *mut u8, history_count: usize) -> Solved;
    pub(crate) fn pierbramble_timed_conjugate_gradient(dim: u32, r: *mut f64, r_count: usize, u: *mut f64, u_count: usize, ap: *mut f64, ap_count: usize, p: *mut f64, p_count: usize, tolerance: f64, limit: u32, offsets: *const u32, offsets_count: usize, columns: *const u32, columns_count: usize, values: *const f64, values_count: usize, diagonal: *const f64, diagonal_count: usize, history: *mut f64, history_count: usize) -> Solved;
    pub(crate) fn pierbramble_timed_preconditioned_conjugate_gradient(dim: u32, r: *mut f64, r_count: usize, x: *mut f64, x_count: usize, pr: *mut f64, pr_count: usize, p: *mut f64, p_count: usize, tolerance: f64, limit: u32, starts: *const u32, starts_count: usize, entries: *const u32, entries_count: usize, a_values: *const f64, a_values_count: usize, a_diagonal: *const f64, a_diagonal_count: usize, offsets: *const u32, offsets_count: usize, columns: *const u32, columns_count: usize, splits: *const u32, splits_count: usize, diagonal: *const f64, diagonal_count: usize, values: *const f64, values_count: usize, history: *mut f64, history_count: usize) -> Solved;
}
