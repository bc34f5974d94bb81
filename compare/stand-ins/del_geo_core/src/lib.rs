// A stand-in for the crate del_geo_core: exactly what the original's five files use, for N = 1, 2, 3.
// Written from document 01, "Small blocks", which decides these helpers; no text of that crate is here.

pub mod matn_col_major;
pub mod vecn;
