// A safe wrapper for each of the port's entry points: the only file of this workspace with `unsafe`.
// It is sound because the port stays within a lent slice's count, which is proved; see what `unchecked_` calls ask.

use crate::entries::*;

/// Declares a wrapper: the same name without its prefix, with slices in place of pointers and counts.
/// `read` and `write` are lent slices, `take` is a number.
macro_rules! wrap {
    ($(#[$about:meta])* $name:ident => $entry:ident ( $($kind:ident $arg:ident : $type:ty),* ) $(-> $answer:ty)?) => {
        $(#[$about])*
        #[allow(clippy::too_many_arguments)]
        #[inline]
        pub fn $name($($arg: wrap!(@type $kind $type)),*) $(-> $answer)? {
            wrap!(@call $entry [] $($kind $arg,)*)
        }
    };
    (@type take $type:ty) => { $type };
    (@type read $type:ty) => { &[$type] };
    (@type write $type:ty) => { &mut [$type] };
    (@call $entry:ident [$($done:expr),*]) => { unsafe { $entry($($done),*) } };
    (@call $entry:ident [$($done:expr),*] take $arg:ident, $($rest:tt)*) => {
        wrap!(@call $entry [$($done,)* $arg] $($rest)*)
    };
    (@call $entry:ident [$($done:expr),*] read $arg:ident, $($rest:tt)*) => {
        wrap!(@call $entry [$($done,)* $arg.as_ptr(), $arg.len()] $($rest)*)
    };
    (@call $entry:ident [$($done:expr),*] write $arg:ident, $($rest:tt)*) => {
        wrap!(@call $entry [$($done,)* $arg.as_mut_ptr(), $arg.len()] $($rest)*)
    };
}

wrap! {
    /// The nearest number to the exact root.
    square_root => pierbramble_square_root(take x: f64) -> f64
}
wrap! {
    /// The checks of a call that is given n and one vector of `dim` values a row.
    check_vector => pierbramble_check_vector(take n: u32, take dim: u32, take length: usize) -> Outcome
}
wrap! {
    /// Block times vector.
    apply => pierbramble_apply(take dim: u32, read a: u8, read x: u8, write out: u8) -> Outcome
}
wrap! {
    /// Block times block.
    product => pierbramble_product(take dim: u32, read a: u8, read b: u8, write out: u8) -> Outcome
}
wrap! {
    /// Vector times number.
    scale => pierbramble_scale(take dim: u32, read v: u8, take s: f64, write out: u8) -> Outcome
}
wrap! {
    /// Vector plus vector.
    add => pierbramble_add(take dim: u32, read u: u8, read v: u8, write out: u8) -> Outcome
}
wrap! {
    /// Vector minus vector.
    subtract => pierbramble_subtract(take dim: u32, read u: u8, read v: u8, write out: u8) -> Outcome
}
wrap! {
    /// Block plus block.
    add_block => pierbramble_add_block(take dim: u32, read u: u8, read v: u8, write out: u8) -> Outcome
}
wrap! {
    /// Block minus block.
    subtract_block => pierbramble_subtract_block(take dim: u32, read u: u8, read v: u8, write out: u8) -> Outcome
}
wrap! {
    /// A block's inverse, or 9 and the block as given.
    inverse => pierbramble_inverse(take dim: u32, read a: u8, write out: u8) -> Outcome
}
wrap! {
    /// Products of as many blocks as are lent, for measuring.
    timed_product => pierbramble_timed_product(take dim: u32, read a: f64, read b: f64, write out: f64)
}
wrap! {
    /// Blocks times vectors, as many as are lent, for measuring.
    timed_apply => pierbramble_timed_apply(take dim: u32, read a: f64, read x: f64, write out: f64)
}
wrap! {
    /// Inverses of as many blocks as are lent, for measuring.
    timed_inverse => pierbramble_timed_inverse(take dim: u32, read a: f64, write out: f64)
}
wrap! {
    /// Roots of as many numbers as are lent, for measuring.
    timed_square_root => pierbramble_timed_square_root(read x: f64, write out: f64)
}
wrap! {
    /// Sums of as many vectors as are lent, for measuring.
    timed_add => pierbramble_timed_add(take dim: u32, read u: f64, read v: f64, write out: f64)
}
wrap! {
    /// Sums of as many blocks as are lent, for measuring.
    timed_add_block => pierbramble_timed_add_block(take dim: u32, read u: f64, read v: f64, write out: f64)
}
wrap! {
    /// Differences of as many vectors as are lent, for measuring.
    timed_subtract => pierbramble_timed_subtract(take dim: u32, read u: f64, read v: f64, write out: f64)
}
wrap! {
    /// Differences of as many blocks as are lent, for measuring.
    timed_subtract_block => pierbramble_timed_subtract_block(take dim: u32, read u: f64, read v: f64, write out: f64)
}
wrap! {
    /// As many vectors as are lent, scaled, for measuring.
    timed_scale => pierbramble_timed_scale(take dim: u32, read v: f64, take s: f64, write out: f64)
}
wrap! {
    /// Every value +0.
    set_zero => pierbramble_set_zero(take dim: u32, take n: u32, write p: u8) -> Outcome
}
wrap! {
    /// The other vector's values.
    copy => pierbramble_copy(take dim: u32, take n: u32, write p: u8, read u: u8) -> Outcome
}
wrap! {
    /// u + p*alpha, to u.
    add_scaled_vector => pierbramble_add_scaled_vector(take dim: u32, take n: u32, write u: u8, take alpha: f64, read p: u8) -> Outcome
}
wrap! {
    /// r + p*beta, to p.
    scale_and_add_vec => pierbramble_scale_and_add_vec(take dim: u32, take n: u32, write p: u8, take beta: f64, read r: u8) -> Outcome
}
wrap! {
    /// +0 at every fixed value.
    set_fixed => pierbramble_set_fixed(take dim: u32, take n: u32, write values: u8, read flags: u8) -> Outcome
}
wrap! {
    /// +0 at every fixed value; flags may be longer than the vector.
    set_fix_dof_to_rhs_vector => pierbramble_set_fix_dof_to_rhs_vector(take dim: u32, take n: u32, write rhs: u8, read flags: u8) -> Outcome
}
wrap! {
    /// Each row's own sum added to a running sum.
    dot => pierbramble_dot(take dim: u32, take n: u32, read v0: u8, read v1: u8) -> Summed
}
wrap! {
    /// Whether a pattern is valid: the row's own column is absent.
    check_pattern => pierbramble_check_pattern(read offsets: u8, read columns: u8) -> Outcome
}
wrap! {
    /// Whether a pattern is valid where the row's own column may stand.
    check_entries => pierbramble_check_entries(read offsets: u8, read columns: u8) -> Outcome
}
wrap! {
    /// Whether a factor pattern is valid, its rows rise and its splits are right.
    check_factor => pierbramble_check_factor(read offsets: u8, read columns: u8, read splits: u8) -> Outcome
}
wrap! {
    /// Columns in rising order.
    sort_row => pierbramble_sort_row(write columns: u8) -> Outcome
}
wrap! {
    /// The pattern of a factor without fill: A's rows sorted, and their splits.
    initialize_ilu0 => pierbramble_initialize_ilu0(read starts: u8, read entries: u8, write offsets: u8, write columns: u8, write splits: u8) -> Outcome
}
wrap! {
    /// The pattern of a full factor: all other columns in each row.
    initialize_full => pierbramble_initialize_full(take n: u32, write offsets: u8, write columns: u8, write splits: u8) -> Outcome
}
wrap! {
    /// The pattern of a factor with fill up to level k.
    initialize_iluk => pierbramble_initialize_iluk(read starts: u8, read entries: u8, take k: u32, write offsets: u8, write columns: u8, write splits: u8, write levels: u8, write row: u8) -> Outcome
}
wrap! {
    /// y*beta + (A*x)*alpha, to y.
    mult_vec => pierbramble_mult_vec(take dim: u32, read offsets: u8, read columns: u8, read values: u8, read diagonal: u8, write y: u8, take beta: f64, take alpha: f64, read x: u8) -> Outcome
}
wrap! {
    /// Every value of a matrix +0.
    matrix_set_zero => pierbramble_matrix_set_zero(take dim: u32, read offsets: u8, read columns: u8, write values: u8, write diagonal: u8) -> Outcome
}
wrap! {
    /// Rows and columns of fixed values cleared, `val_dia` at their own place.
    set_fixed_bc => pierbramble_set_fixed_bc(take dim: u32, take val_dia: f64, read flags: u8, write diagonal: u8, write values: u8, read offsets: u8, read columns: u8) -> Outcome
}
wrap! {
    /// An element added, the same node place to the diagonal.
    merge => pierbramble_merge(take dim: u32, read nodes: u8, read element: u8, read offsets: u8, read columns: u8, write diagonal: u8, write values: u8) -> Outcome
}
wrap! {
    /// An element added at N = 1, equal row and column numbers to the diagonal.
    csrdia => pierbramble_csrdia(read rows: u8, read cols: u8, read element: u8, read offsets: u8, read columns: u8, write diagonal: u8, write values: u8) -> Outcome
}
wrap! {
    /// An element added, every pair to an entry.
    blkcsr => pierbramble_blkcsr(take dim: u32, read rows: u8, read cols: u8, read element: u8, read offsets: u8, read columns: u8, write values: u8) -> Outcome
}
wrap! {
    /// A's values in a factor, +0 where A has no entry.
    copy_value => pierbramble_copy_value(take dim: u32, read starts: u8, read entries: u8, read a_diagonal: u8, read a_values: u8, read offsets: u8, read columns: u8, read splits: u8, write diagonal: u8, write values: u8) -> Outcome
}
wrap! {
    /// A factor's values decomposed in place, or 9 with the row of the pivot that cannot be inverted.
    decompose => pierbramble_decompose(take dim: u32, read offsets: u8, read columns: u8, read splits: u8, write diagonal: u8, write values: u8) -> Outcome
}
wrap! {
    /// A vector solved in place with a decomposed factor: forward, then backward.
    solve_preconditioning_vec => pierbramble_solve_preconditioning_vec(take dim: u32, write vec: u8, read offsets: u8, read columns: u8, read splits: u8, read diagonal: u8, read values: u8) -> Outcome
}
wrap! {
    /// `set_zero` on values, for measuring. So are the next ones, and they answer as the calls on bytes.
    timed_set_zero => pierbramble_timed_set_zero(take dim: u32, take n: u32, write p: f64) -> u32
}
wrap! {
    /// `copy` on values.
    timed_copy => pierbramble_timed_copy(take dim: u32, take n: u32, write p: f64, read u: f64) -> u32
}
wrap! {
    /// `add_scaled_vector` on values.
    timed_add_scaled_vector => pierbramble_timed_add_scaled_vector(take dim: u32, take n: u32, write u: f64, take alpha: f64, read p: f64) -> u32
}
wrap! {
    /// `scale_and_add_vec` on values.
    timed_scale_and_add_vec => pierbramble_timed_scale_and_add_vec(take dim: u32, take n: u32, write p: f64, take beta: f64, read r: f64) -> u32
}
wrap! {
    /// `set_fixed` on values.
    timed_set_fixed => pierbramble_timed_set_fixed(take dim: u32, take n: u32, write values: f64, read flags: i32) -> u32
}
wrap! {
    /// `dot` on values.
    timed_dot => pierbramble_timed_dot(take dim: u32, take n: u32, read v0: f64, read v1: f64) -> Summed
}
wrap! {
    /// `check_pattern` on indexes.
    timed_check_pattern => pierbramble_timed_check_pattern(read offsets: u32, read columns: u32) -> u32
}
wrap! {
    /// `initialize_ilu0` on indexes.
    timed_initialize_ilu0 => pierbramble_timed_initialize_ilu0(read starts: u32, read entries: u32, write offsets: u32, write columns: u32, write splits: u32) -> u32
}
wrap! {
    /// `initialize_full` on indexes.
    timed_initialize_full => pierbramble_timed_initialize_full(take n: u32, write offsets: u32, write columns: u32, write splits: u32) -> u32
}
wrap! {
    /// `initialize_iluk` on indexes and levels.
    timed_initialize_iluk => pierbramble_timed_initialize_iluk(read starts: u32, read entries: u32, take k: u32, write offsets: u32, write columns: u32, write splits: u32, write levels: u16, write row: u32) -> u32
}
wrap! {
    /// `mult_vec` on values.
    timed_mult_vec => pierbramble_timed_mult_vec(take dim: u32, read offsets: u32, read columns: u32, read values: f64, read diagonal: f64, write y: f64, take beta: f64, take alpha: f64, read x: f64) -> u32
}
wrap! {
    /// `mult_vec` without any check. Only to be called with a valid matrix and right lengths: what
    /// `timed_mult_vec` answers with 0. With anything else it may go beyond the slices.
    unchecked_mult_vec => pierbramble_unchecked_mult_vec(take dim: u32, read offsets: u32, read columns: u32, read values: f64, read diagonal: f64, write y: f64, take beta: f64, take alpha: f64, read x: f64)
}
wrap! {
    /// `merge` on values.
    timed_merge => pierbramble_timed_merge(take dim: u32, read nodes: u32, read element: f64, read offsets: u32, read columns: u32, write diagonal: f64, write values: f64) -> u32
}
wrap! {
    /// `merge` without a check of the pattern. Only to be called with a valid matrix and an element that
    /// fits it: what `timed_merge` answers with 0. With anything else it may go beyond the slices.
    unchecked_merge => pierbramble_unchecked_merge(take dim: u32, read nodes: u32, read element: f64, read offsets: u32, read columns: u32, write diagonal: f64, write values: f64)
}
wrap! {
    /// `set_fixed_bc` on values.
    timed_set_fixed_bc => pierbramble_timed_set_fixed_bc(take dim: u32, take val_dia: f64, read flags: i32, write diagonal: f64, write values: f64, read offsets: u32, read columns: u32) -> u32
}
wrap! {
    /// `copy_value` on values.
    timed_copy_value => pierbramble_timed_copy_value(take dim: u32, read starts: u32, read entries: u32, read a_diagonal: f64, read a_values: f64, read offsets: u32, read columns: u32, read splits: u32, write diagonal: f64, write values: f64) -> u32
}
wrap! {
    /// `decompose` on values; it says the row of 9 too.
    timed_decompose => pierbramble_timed_decompose(take dim: u32, read offsets: u32, read columns: u32, read splits: u32, write diagonal: f64, write values: f64) -> Outcome
}
wrap! {
    /// `solve_preconditioning_vec` on values.
    timed_solve_preconditioning_vec => pierbramble_timed_solve_preconditioning_vec(take dim: u32, write vec: f64, read offsets: u32, read columns: u32, read splits: u32, read diagonal: f64, read values: f64) -> u32
}
wrap! {
    /// `copy_value` without any check. Only to be called with what `timed_copy_value` answers with 0. With
    /// anything else it may go beyond the slices. So it is with the next two.
    unchecked_copy_value => pierbramble_unchecked_copy_value(take dim: u32, read starts: u32, read entries: u32, read a_diagonal: f64, read a_values: f64, read offsets: u32, read columns: u32, write diagonal: f64, write values: f64)
}
wrap! {
    /// `decompose` without any check. It answers the row of the pivot that it stops at, or the number of rows.
    unchecked_decompose => pierbramble_unchecked_decompose(take dim: u32, read offsets: u32, read columns: u32, read splits: u32, write diagonal: f64, write values: f64) -> usize
}
wrap! {
    /// `solve_preconditioning_vec` without any check.
    unchecked_solve_preconditioning_vec => pierbramble_unchecked_solve_preconditioning_vec(take dim: u32, write vec: f64, read offsets: u32, read columns: u32, read splits: u32, read diagonal: f64, read values: f64)
}
wrap! {
    /// The solver of A*u = r. r is left as the residual; `history` has a ratio for each step.
    conjugate_gradient => pierbramble_conjugate_gradient(take dim: u32, write r: u8, write u: u8, write ap: u8, write p: u8, take tolerance: f64, take limit: u32, read offsets: u8, read columns: u8, read values: u8, read diagonal: u8, write history: u8) -> Solved
}
wrap! {
    /// The same with a factor, which need not be A's. `starts`, `entries`, `a_values` and `a_diagonal` are A's, the
    /// next five the factor's; `history` has norms.
    preconditioned_conjugate_gradient => pierbramble_preconditioned_conjugate_gradient(take dim: u32, write r: u8, write x: u8, write pr: u8, write p: u8, take tolerance: f64, take limit: u32, read starts: u8, read entries: u8, read a_values: u8, read a_diagonal: u8, read offsets: u8, read columns: u8, read splits: u8, read diagonal: u8, read values: u8, write history: u8) -> Solved
}
wrap! {
    /// `conjugate_gradient` on values.
    timed_conjugate_gradient => pierbramble_timed_conjugate_gradient(take dim: u32, write r: f64, write u: f64, write ap: f64, write p: f64, take tolerance: f64, take limit: u32, read offsets: u32, read columns: u32, read values: f64, read diagonal: f64, write history: f64) -> Solved
}
wrap! {
    /// `preconditioned_conjugate_gradient` on values.
    timed_preconditioned_conjugate_gradient => pierbramble_timed_preconditioned_conjugate_gradient(take dim: u32, write r: f64, write x: f64, write pr: f64, write p: f64, take tolerance: f64, take limit: u32, read starts: u32, read entries: u32, read a_values: f64, read a_diagonal: f64, read offsets: u32, read columns: u32, read splits: u32, read diagonal: f64, read values: f64, write history: f64) -> Solved
}
