// Every group of calls that is compared, in one list: the comparison, the fixed list and its replay go by it.
// To add a call, add a module or an entry of one; docs/COMPARING.md has the steps.

pub mod blocks;
pub mod checks;
pub mod elements;
pub mod factors;
pub mod fills;
pub mod inverse;
pub mod matrix;
pub mod patterns;
pub mod root;
pub mod solvers;
pub mod timed;
pub mod vectors;

use crate::list::Line;
use crate::settings::Settings;
use crate::tally::Tally;

pub struct Group {
    pub name: &'static str,
    pub compare: fn(&Settings, &mut Tally),
    /// Lines for the fixed list, from a seed; none for a group that has no place in it.
    pub sample: fn(u64) -> Vec<Line>,
    /// For each call what the words of its lines are.
    pub about: fn() -> Vec<String>,
    /// How many of a line's words are inputs, by its call, its N and the words; None if the call is not of
    /// this group.
    pub input_words: fn(&str, usize, &[u64]) -> Option<usize>,
    /// Calls the port on a line and gives the line that it makes.
    pub replay: fn(&Line) -> Line,
}

pub const ALL: &[Group] = &[
    checks::GROUP,
    blocks::GROUP,
    inverse::GROUP,
    root::GROUP,
    timed::GROUP,
    vectors::GROUP,
    patterns::GROUP,
    matrix::GROUP,
    elements::GROUP,
    fills::GROUP,
    factors::GROUP,
    solvers::GROUP,
];
