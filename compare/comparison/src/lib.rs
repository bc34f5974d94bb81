// The comparison of the port with the original, bit for bit: what all groups of calls share.
// The groups themselves, with their generators, oracles and refusals, are in `groups`.

pub mod answered;
pub mod byte_call;
pub mod factored;
pub mod groups;
pub mod judge;
pub mod lent;
pub mod list;
pub mod panics;
pub mod random;
pub mod rules;
pub mod settings;
pub mod slice_call;
pub mod sparse;
pub mod stack;
pub mod systems;
pub mod tally;
pub mod timed;
pub mod typed;
pub mod values;
pub mod words;
