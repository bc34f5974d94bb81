// Calls on small blocks and vectors: product, block times vector, scaling, sums and differences.
// The oracle is the stand-in that the original's five files call, at the same N.

use del_geo_core::matn_col_major;
use del_geo_core::vecn::VecN;

use super::Group;
use crate::by_dim;
use crate::byte_call::{ByteCall, Values, Worked};
use crate::list::Line;
use crate::rules::Shape::{Block, Vector};
use crate::settings::Settings;
use crate::tally::Tally;

pub const GROUP: Group = Group {
    name: "blocks",
    compare,
    sample,
    about,
    input_words,
    replay,
};

/// Done, or a wrong shape.
const ANSWERS: &[u32] = &[0, 2];

const CALLS: &[ByteCall] = &[
    ByteCall {
        name: "apply",
        inputs: &[("a", Block), ("x", Vector)],
        number: None,
        output: Vector,
        answers: ANSWERS,
        special: None,
        oracle: by_dim!(apply),
        port: |dim, s, _, out| port::apply(dim, s[0], s[1], out),
    },
    ByteCall {
        name: "product",
        inputs: &[("a", Block), ("b", Block)],
        number: None,
        output: Block,
        answers: ANSWERS,
        special: None,
        oracle: by_dim!(product),
        port: |dim, s, _, out| port::product(dim, s[0], s[1], out),
    },
    ByteCall {
        name: "scale",
        inputs: &[("v", Vector)],
        number: Some("s"),
        output: Vector,
        answers: ANSWERS,
        special: None,
        oracle: by_dim!(scale),
        port: |dim, s, number, out| port::scale(dim, s[0], number, out),
    },
    ByteCall {
        name: "add",
        inputs: &[("u", Vector), ("v", Vector)],
        number: None,
        output: Vector,
        answers: ANSWERS,
        special: None,
        oracle: by_dim!(add),
        port: |dim, s, _, out| port::add(dim, s[0], s[1], out),
    },
    ByteCall {
        name: "subtract",
        inputs: &[("u", Vector), ("v", Vector)],
        number: None,
        output: Vector,
        answers: ANSWERS,
        special: None,
        oracle: by_dim!(subtract),
        port: |dim, s, _, out| port::subtract(dim, s[0], s[1], out),
    },
    ByteCall {
        name: "add_block",
        inputs: &[("u", Block), ("v", Block)],
        number: None,
        output: Block,
        answers: ANSWERS,
        special: None,
        oracle: by_dim!(add_block),
        port: |dim, s, _, out| port::add_block(dim, s[0], s[1], out),
    },
    ByteCall {
        name: "subtract_block",
        inputs: &[("u", Block), ("v", Block)],
        number: None,
        output: Block,
        answers: ANSWERS,
        special: None,
        oracle: by_dim!(subtract_block),
        port: |dim, s, _, out| port::subtract_block(dim, s[0], s[1], out),
    },
];

fn apply<const N: usize, const NN: usize>(values: &Values) -> Worked {
    let (a, x) = (values.array::<NN>(0), values.array::<N>(1));
    Worked::Done(matn_col_major::mult_vec::<f64, N, NN>(a, x).to_vec())
}

fn product<const N: usize, const NN: usize>(values: &Values) -> Worked {
    let (a, b) = (values.array::<NN>(0), values.array::<NN>(1));
    Worked::Done(matn_col_major::mult_mat_col_major::<f64, N, NN>(a, b).to_vec())
}

fn scale<const N: usize, const NN: usize>(values: &Values) -> Worked {
    let v = values.array::<N>(0);
    Worked::Done(v.scale(values.number()).to_vec())
}

fn add<const N: usize, const NN: usize>(values: &Values) -> Worked {
    let (u, v) = (values.array::<N>(0), values.array::<N>(1));
    Worked::Done(u.add(v).to_vec())
}

fn subtract<const N: usize, const NN: usize>(values: &Values) -> Worked {
    let (u, v) = (values.array::<N>(0), values.array::<N>(1));
    Worked::Done(u.sub(v).to_vec())
}

fn add_block<const N: usize, const NN: usize>(values: &Values) -> Worked {
    let mut sum = *values.array::<NN>(0);
    matn_col_major::add_in_place(&mut sum, values.array::<NN>(1));
    Worked::Done(sum.to_vec())
}

fn subtract_block<const N: usize, const NN: usize>(values: &Values) -> Worked {
    let mut difference = *values.array::<NN>(0);
    matn_col_major::sub_in_place(&mut difference, values.array::<NN>(1));
    Worked::Done(difference.to_vec())
}

fn compare(settings: &Settings, tally: &mut Tally) {
    for call in CALLS {
        call.compare(settings, tally);
    }
}

fn sample(seed: u64) -> Vec<Line> {
    CALLS.iter().flat_map(|call| call.sample(seed)).collect()
}

fn about() -> Vec<String> {
    CALLS.iter().map(ByteCall::about).collect()
}

fn input_words(name: &str, dim: usize, _: &[u64]) -> Option<usize> {
    named(name).map(|call| call.input_words(dim))
}

fn replay(line: &Line) -> Line {
    named(&line.call)
        .expect("a line of this group")
        .replay(line)
}

fn named(name: &str) -> Option<&'static ByteCall> {
    CALLS.iter().find(|call| call.name == name)
}
