// The port as Rust sees it: `entries` declares its C entry points, `calls` wraps each of them safely.
// `Outcome` is what a call answers: document 01's number, and the row that 9 carries; `Summed` has a sum besides,
// and `Solved` is what a solver answers.

mod calls;
mod entries;

pub use calls::*;
pub use entries::{Outcome, Solved, Summed};
