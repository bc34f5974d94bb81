// Declares the original's five files as modules, at their own paths. This file is ours, they are not:
// they stay as they were handed over (see ../CHECKSUMS), so warnings and formatting are held off here.

#[rustfmt::skip]
#[allow(warnings, clippy::all)]
pub mod vtx2xn;

pub mod sparse_solver {
    #[rustfmt::skip]
    #[allow(warnings, clippy::all)]
    pub mod cg;
    #[rustfmt::skip]
    #[allow(warnings, clippy::all)]
    pub mod merge;
    #[rustfmt::skip]
    #[allow(warnings, clippy::all)]
    pub mod sparse_ilu;
    #[rustfmt::skip]
    #[allow(warnings, clippy::all)]
    pub mod sparse_square;
}
