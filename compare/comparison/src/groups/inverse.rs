// The block inverse: done, refused by 9 where the determinant compares equal to zero, or by 2.
// The oracle is the stand-in's `try_inverse`, whose None is the original's failed factorisation.

use del_geo_core::matn_col_major;

use super::Group;
use crate::by_dim;
use crate::byte_call::{ByteCall, Inputs, Values, Worked};
use crate::list::Line;
use crate::random::Random;
use crate::rules::Shape::Block;
use crate::settings::Settings;
use crate::tally::Tally;
use crate::values::{self, Kind};

pub const GROUP: Group = Group {
    name: "inverse",
    compare,
    sample: |seed| CALL.sample(seed),
    about: || vec![CALL.about()],
    input_words: |name, dim, _| (name == CALL.name).then(|| CALL.input_words(dim)),
    replay: |line: &Line| CALL.replay(line),
};

const CALL: ByteCall = ByteCall {
    name: "inverse",
    inputs: &[("a", Block)],
    number: None,
    output: Block,
    answers: &[0, 2, 9],
    special: Some(nearly_singular),
    oracle: by_dim!(inverse),
    port: |dim, s, _, out| port::inverse(dim, s[0], out),
};

fn compare(settings: &Settings, tally: &mut Tally) {
    CALL.compare(settings, tally);
}

fn inverse<const N: usize, const NN: usize>(values: &Values) -> Worked {
    match matn_col_major::try_inverse::<f64, N, NN>(values.array::<NN>(0)) {
        Some(inverse) => Worked::Done(inverse.to_vec()),
        None => Worked::Singular,
    }
}

/// Blocks that are singular, or that miss it by a rounding or by one value.
fn nearly_singular(dim: usize, random: &mut Random) -> Inputs {
    let block = match random.below(6) {
        0 => values::of_kind(Kind::Zero, dim * dim, random),
        1 => multiple_columns(Kind::Whole, dim, random),
        2 => multiple_columns(Kind::Ordinary, dim, random),
        3 => zero_row(dim, random),
        4 => values::of_kind(Kind::Half, dim * dim, random),
        _ => {
            let mut block = multiple_columns(Kind::Whole, dim, random);
            let at = random.below(block.len());
            block[at] = values::word(*random.pick(&values::KINDS), random);
            block
        }
    };
    Inputs {
        slices: vec![block],
        number: None,
    }
}

/// The last column is the first one times a power of two, so that products cancel exactly. At N = 1 the
/// value is a zero of either sign.
fn multiple_columns(kind: Kind, dim: usize, random: &mut Random) -> Vec<u64> {
    if dim == 1 {
        return values::of_kind(Kind::Zero, 1, random);
    }
    let mut block = values::of_kind(kind, dim * dim, random);
    let factor = *random.pick(&[1.0, -1.0, 2.0, -0.5]);
    for r in 0..dim {
        let value = f64::from_bits(block[r]) * factor;
        block[r + dim * (dim - 1)] = value.to_bits();
    }
    block
}

/// One row is zeros of either sign.
fn zero_row(dim: usize, random: &mut Random) -> Vec<u64> {
    let mut block = values::of_kind(Kind::Ordinary, dim * dim, random);
    let r = random.below(dim);
    for c in 0..dim {
        block[r + dim * c] = values::word(Kind::Zero, random);
    }
    block
}
