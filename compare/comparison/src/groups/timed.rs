// The timed calls on many blocks at once, held to the same work by the original's helpers on the same slices.
// Those on vectors and matrices answer with a number and are compared beside the calls that they stand for.

use super::Group;
use crate::random::Random;
use crate::settings::Settings;
use crate::tally::{Dim, Tally};
use crate::timed::blocks::BLOCKS;
use crate::timed::{ordinary, Timed};
use crate::values;
use crate::words;

/// These make the same words as the calls that the fixed list has, so it has no lines of them.
pub const GROUP: Group = Group {
    name: "timed",
    compare,
    sample: |_| Vec::new(),
    about: Vec::new,
    input_words: |_, _, _| None,
    replay: |_| unreachable!("the fixed list has no timed call"),
};

/// Cases for each count of blocks.
const CASES: usize = 100;

const COUNTS: [usize; 7] = [0, 1, 2, 3, 17, 64, 256];

/// Values on each side of the output that the port must leave alone.
const GUARD: usize = 4;

fn compare(settings: &Settings, tally: &mut Tally) {
    for timed in BLOCKS {
        let random = &mut settings.random(timed.name);
        for &dim in timed.dims {
            eprintln!("comparing {}, N = {dim}", timed.name);
            tally.can_answer(timed.name, label(timed, dim), &[0]);
            for count in COUNTS {
                for _ in 0..settings.cases(CASES) {
                    try_count(timed, dim, count, random, tally);
                }
            }
        }
    }
}

fn label(timed: &Timed, dim: usize) -> Dim {
    if timed.dims.len() > 1 {
        Dim::Is(dim as u32)
    } else {
        Dim::None
    }
}

fn try_count(timed: &Timed, dim: usize, count: usize, random: &mut Random, tally: &mut Tally) {
    let mut inputs = (timed.inputs)(dim, count, random);
    let mut length = (timed.output)(dim, count);
    if random.flip() {
        for input in &mut inputs.values {
            *input = words::values_of(&values::mixed(input.len(), random));
        }
    }
    if random.flip() {
        shorten(&mut inputs.values, &mut length, random);
    }
    let dirty: Vec<f64> = ordinary(length + 2 * GUARD, random);
    let (mut expected, mut got) = (dirty.clone(), dirty);
    let inside = GUARD..GUARD + length;
    let rust = timed.rust.expect("the original does the same");
    rust(dim, &mut inputs, &mut expected[inside.clone()]);
    (timed.port)(dim, &mut inputs, &mut got[inside]);
    let (expected, got) = (words::words_of(&expected), words::words_of(&got));
    let nans = expected.iter().filter(|&&word| words::is_nan(word)).count();
    tally.answered(timed.name, label(timed, dim), 0, 1);
    tally.compared(timed.name, label(timed, dim), length as u64, nans as u64);
    if let Some(at) = (0..got.len()).find(|&at| expected[at] != got[at]) {
        tally.differs(timed.name, label(timed, dim), || {
            let lengths: Vec<usize> = inputs.values.iter().map(Vec::len).collect();
            format!(
                "  {count} {}, inputs of {lengths:?} values, place {} of out (of {length})\n  expected: {}\n  got:      {}\n",
                timed.unit,
                at as i64 - GUARD as i64,
                words::show_words(&expected[at..at + 1]),
                words::show_words(&got[at..at + 1])
            )
        });
    }
}

/// Takes values from the end of one of the slices: both sides do as many blocks as all of them hold.
fn shorten(inputs: &mut [Vec<f64>], length: &mut usize, random: &mut Random) {
    let at = random.below(inputs.len() + 1);
    match inputs.get_mut(at) {
        Some(input) => input.truncate(random.below(input.len() + 1)),
        None => *length = random.below(*length + 1),
    }
}
