// The form that calls on vectors and blocks in bytes share, and how such a call is compared:
// accepted and refused inputs go one way, in which the rules say first whether the oracle is asked.

use port::Outcome;

use crate::answered::Besides;
use crate::judge::{judge, After, Case, Expected, Given};
use crate::lent::Lent;
use crate::list::Line;
use crate::random::Random;
use crate::rules::{self, Shape};
use crate::settings::Settings;
use crate::tally::{Dim, Tally};
use crate::values::{self, KINDS};
use crate::words::{self, Element};

/// What a call is given, as words.
#[derive(Clone)]
pub struct Inputs {
    pub slices: Vec<Vec<u64>>,
    /// The number that is given by value, if the call takes one.
    pub number: Option<u64>,
}

/// The same as the oracle reads it.
pub struct Values {
    slices: Vec<Vec<f64>>,
    number: f64,
}

impl Values {
    /// Slice `at` as an array.
    pub fn array<const L: usize>(&self, at: usize) -> &[f64; L] {
        let slice: &[f64] = &self.slices[at];
        slice
            .try_into()
            .expect("the rules let only right lengths by")
    }

    pub fn number(&self) -> f64 {
        self.number
    }
}

/// What the original answers.
pub enum Worked {
    Done(Vec<f64>),
    /// Refused by 9 with row 0, and the output is the first slice as given.
    Singular,
}

pub struct ByteCall {
    pub name: &'static str,
    /// The lent inputs in order, by name.
    pub inputs: &'static [(&'static str, Shape)],
    /// The name of the number that the call takes by value, if it does.
    pub number: Option<&'static str>,
    pub output: Shape,
    /// The answers that can occur at each N.
    pub answers: &'static [u32],
    /// A generator beside the usual one, for what that one seldom makes.
    pub special: Option<fn(usize, &mut Random) -> Inputs>,
    pub oracle: fn(usize, &Values) -> Worked,
    pub port: Port,
}

/// The port, given dim, the inputs, the number and the output.
pub type Port = fn(u32, &[&[u8]], f64, &mut [u8]) -> Outcome;

/// Makes an oracle over dim of a function over N and N*N.
#[macro_export]
macro_rules! by_dim {
    ($work:ident) => {
        |dim, values| match dim {
            1 => $work::<1, 1>(values),
            2 => $work::<2, 4>(values),
            3 => $work::<3, 9>(values),
            _ => unreachable!("the rules let only 1, 2 and 3 by"),
        }
    };
}

/// Cases of the usual generator for each N; the special one adds half as many.
const CASES: usize = 200_000;

/// Cases for each wrong length, with other values each time.
const WRONG_LENGTHS: usize = 20;

/// Cases with random lengths for each dim.
const MISSHAPEN: usize = 2_000;

/// Values of `dim` that are none of 1, 2, 3.
const OTHER_DIMS: [u32; 4] = [0, 4, 7, u32::MAX];

impl ByteCall {
    pub fn compare(&self, settings: &Settings, tally: &mut Tally) {
        let random = &mut settings.random(self.name);
        for dim in 1..=3 {
            eprintln!("comparing {}, N = {dim}", self.name);
            tally.can_answer(self.name, Dim::Is(dim as u32), self.answers);
            self.compare_accepted(dim, settings, random, tally);
            self.compare_wrong_lengths(dim, random, tally);
            self.compare_any_lengths(dim as u32, settings, random, tally);
        }
        tally.can_answer(self.name, Dim::Other, &[rules::SHAPE]);
        for dim in OTHER_DIMS {
            self.compare_other_dim(dim, random, tally);
            self.compare_any_lengths(dim, settings, random, tally);
        }
    }

    fn compare_accepted(
        &self,
        dim: usize,
        settings: &Settings,
        random: &mut Random,
        tally: &mut Tally,
    ) {
        for _ in 0..settings.cases(CASES) {
            let inputs = self.mixed(dim, random);
            self.try_inputs(dim, &inputs, random, tally);
        }
        if let Some(special) = self.special {
            for _ in 0..settings.cases(CASES / 2) {
                let inputs = special(dim, random);
                self.try_inputs(dim, &inputs, random, tally);
            }
        }
    }

    /// Each slice in turn at each wrong length, the others right: a byte and a value short and long,
    /// empty, and as long as at another N.
    fn compare_wrong_lengths(&self, dim: usize, random: &mut Random, tally: &mut Tally) {
        let right = self.right_lengths(dim);
        for (at, &(shape, length)) in right.iter().enumerate() {
            let mut wrong = vec![0, length - 8, length - 1, length + 1, length + 8];
            wrong.extend((1..=4).map(|other| shape.bytes(other)));
            for length in wrong {
                let mut lengths: Vec<usize> = right.iter().map(|&(_, length)| length).collect();
                lengths[at] = length;
                for _ in 0..WRONG_LENGTHS {
                    self.try_lengths(dim as u32, &lengths, random, tally);
                }
            }
        }
    }

    /// A `dim` that is none, with the lengths of each N and with those that it would have itself.
    fn compare_other_dim(&self, dim: u32, random: &mut Random, tally: &mut Tally) {
        let mut like = vec![1, 2, 3];
        if dim <= 8 {
            like.push(dim as usize);
        }
        for like in like {
            let right = self.right_lengths(like);
            let lengths: Vec<usize> = right.iter().map(|&(_, length)| length).collect();
            self.try_lengths(dim, &lengths, random, tally);
        }
    }

    /// Lengths that are each right for some N, or near that.
    fn compare_any_lengths(
        &self,
        dim: u32,
        settings: &Settings,
        random: &mut Random,
        tally: &mut Tally,
    ) {
        for _ in 0..settings.cases(MISSHAPEN) {
            let lengths: Vec<usize> = self
                .shapes()
                .iter()
                .map(|shape| any_length(*shape, dim, random))
                .collect();
            self.try_lengths(dim, &lengths, random, tally);
        }
    }

    /// The shapes of every lent slice, the output last.
    fn shapes(&self) -> Vec<Shape> {
        let inputs = self.inputs.iter().map(|&(_, shape)| shape);
        inputs.chain([self.output]).collect()
    }

    fn right_lengths(&self, dim: usize) -> Vec<(Shape, usize)> {
        let shapes = self.shapes().into_iter();
        shapes.map(|shape| (shape, shape.bytes(dim))).collect()
    }

    /// Inputs of mixed kinds, each slice by itself.
    fn mixed(&self, dim: usize, random: &mut Random) -> Inputs {
        self.inputs_by(dim, |count| values::mixed(count, random))
    }

    fn inputs_by(&self, dim: usize, mut words: impl FnMut(usize) -> Vec<u64>) -> Inputs {
        let shapes = self.inputs.iter();
        let slices = shapes.map(|(_, shape)| words(shape.values(dim))).collect();
        let number = self.number.map(|_| words(1)[0]);
        Inputs { slices, number }
    }

    /// A case whose lengths are right.
    fn try_inputs(&self, dim: usize, inputs: &Inputs, random: &mut Random, tally: &mut Tally) {
        let slices = inputs.slices.iter();
        let bytes: Vec<Vec<u8>> = slices.map(|words| words::bytes_of(words)).collect();
        let length = self.output.bytes(dim);
        self.try_bytes(dim as u32, &bytes, inputs.number, length, random, tally);
    }

    /// A case by the lengths of its slices, the output last. They hold any values, singular blocks too:
    /// lengths are asked first.
    fn try_lengths(&self, dim: u32, lengths: &[usize], random: &mut Random, tally: &mut Tally) {
        let (&out, inputs) = lengths.split_last().expect("every call has an output");
        let bytes: Vec<Vec<u8>> = inputs
            .iter()
            .map(|&length| mixed_bytes(length, random))
            .collect();
        let number = self.number.map(|_| values::mixed(1, random)[0]);
        self.try_bytes(dim, &bytes, number, out, random, tally);
    }

    /// One call of the port, held to what the rules and the oracle say.
    fn try_bytes(
        &self,
        dim: u32,
        bytes: &[Vec<u8>],
        number: Option<u64>,
        out_length: usize,
        random: &mut Random,
        tally: &mut Tally,
    ) {
        let mut lent: Vec<Lent> = self
            .inputs
            .iter()
            .zip(bytes)
            .map(|(&(name, _), bytes)| Lent::new(name, Element::Value, bytes, random))
            .collect();
        let mut out = Lent::dirty("out", out_length, random);
        let value = f64::from_bits(number.unwrap_or(0));
        let got = {
            let slices: Vec<&[u8]> = lent.iter().map(Lent::bytes).collect();
            (self.port)(dim, &slices, value, out.bytes_mut())
        };
        lent.push(out);
        let mut given = vec![("dim", Given::Count(u64::from(dim)))];
        given.extend(self.number.zip(number.map(Given::Value)));
        let case = Case {
            call: self.name,
            dim: Dim::of(dim),
            given: &given,
            lent: &lent,
        };
        let expected = self.expect(dim, bytes, number, out_length);
        judge(&case, &expected, got.into(), tally);
    }

    fn expect(
        &self,
        dim: u32,
        bytes: &[Vec<u8>],
        number: Option<u64>,
        out_length: usize,
    ) -> Expected {
        let lengths = bytes.iter().map(Vec::len).chain([out_length]);
        let lent: Vec<(Shape, usize)> = self.shapes().into_iter().zip(lengths).collect();
        let refusal = rules::byte_call_refusal(dim, &lent);
        if refusal != rules::DONE {
            return Expected::refused(refusal, lent.len());
        }
        let slices = bytes.iter().map(|bytes| words::words_in(bytes)).collect();
        let line = self.work(dim as usize, &Inputs { slices, number });
        let mut after: Vec<After> = bytes.iter().map(|_| After::Unchanged).collect();
        after.push(if line.number == rules::DONE {
            After::Values(line.outputs)
        } else {
            After::Bytes(words::bytes_of(&line.outputs))
        });
        Expected {
            number: line.number,
            row: line.row,
            besides: Besides::Nothing,
            end: None,
            after,
        }
    }

    /// What the oracle makes of inputs whose lengths are right, as a line of the fixed list.
    fn work(&self, dim: usize, inputs: &Inputs) -> Line {
        let slices = inputs.slices.iter();
        let values = Values {
            slices: slices.map(|words| words::values_of(words)).collect(),
            number: f64::from_bits(inputs.number.unwrap_or(0)),
        };
        let (number, outputs) = match (self.oracle)(dim, &values) {
            Worked::Done(out) => (rules::DONE, words::words_of(&out)),
            Worked::Singular => (rules::SINGULAR, inputs.slices[0].clone()),
        };
        Line {
            call: self.name.to_string(),
            dim: dim as u32,
            inputs: flat(inputs),
            number,
            row: 0,
            outputs,
        }
    }

    /// Lines for the fixed list: each N, each kind of value, mixed kinds, and the special ones.
    pub fn sample(&self, seed: u64) -> Vec<Line> {
        let random = &mut Random::named(seed, self.name);
        let mut lines = Vec::new();
        for dim in 1..=3 {
            for kind in KINDS {
                let inputs = self.inputs_by(dim, |count| values::of_kind(kind, count, random));
                lines.push(self.work(dim, &inputs));
            }
            for _ in 0..SAMPLED_MIXED {
                let inputs = self.mixed(dim, random);
                lines.push(self.work(dim, &inputs));
            }
            if let Some(special) = self.special {
                for _ in 0..SAMPLED_SPECIAL {
                    let inputs = special(dim, random);
                    lines.push(self.work(dim, &inputs));
                }
            }
        }
        lines
    }

    /// How many words the fixed list gives the call at this N.
    pub fn input_words(&self, dim: usize) -> usize {
        let shapes = self.inputs.iter();
        let slices: usize = shapes.map(|(_, shape)| shape.values(dim)).sum();
        slices + usize::from(self.number.is_some())
    }

    /// Calls the port on a line of the fixed list and gives the line that it makes.
    pub fn replay(&self, line: &Line) -> Line {
        let dim = line.dim as usize;
        let mut rest = &line.inputs[..];
        let mut bytes = Vec::new();
        for (_, shape) in self.inputs {
            let (words, after) = rest.split_at(shape.values(dim));
            bytes.push(words::bytes_of(words));
            rest = after;
        }
        let number = f64::from_bits(rest.first().copied().unwrap_or(0));
        let slices: Vec<&[u8]> = bytes.iter().map(|bytes| &bytes[..]).collect();
        let mut out = vec![0xA5; self.output.bytes(dim)];
        let outcome = (self.port)(line.dim, &slices, number, &mut out);
        Line {
            number: outcome.number,
            row: outcome.row,
            outputs: words::words_in(&out),
            ..line.clone()
        }
    }

    /// What the words of a line are, for the list's header.
    pub fn about(&self) -> String {
        let name = |&(name, shape): &(&str, Shape)| match shape {
            Shape::Vector => format!("{name} (N words)"),
            Shape::Block => format!("{name} (N*N words)"),
        };
        let mut inputs: Vec<String> = self.inputs.iter().map(name).collect();
        inputs.extend(self.number.map(|name| format!("{name} (1 word)")));
        let output = name(&("out", self.output));
        format!("{}: {}; {output}", self.name, inputs.join(", "))
    }
}

const SAMPLED_MIXED: usize = 11;
const SAMPLED_SPECIAL: usize = 8;

fn flat(inputs: &Inputs) -> Vec<u64> {
    let slices = inputs.slices.iter().flatten();
    slices.chain(&inputs.number).copied().collect()
}

fn any_length(shape: Shape, dim: u32, random: &mut Random) -> usize {
    let like = if rules::is_dim(dim) && random.flip() {
        dim as usize
    } else {
        random.below(5)
    };
    let length = shape.bytes(like);
    match random.below(8) {
        0 => length + 1 + random.below(8),
        1 => length.saturating_sub(1 + random.below(8)),
        _ => length,
    }
}

fn mixed_bytes(length: usize, random: &mut Random) -> Vec<u8> {
    let words = values::mixed(length.div_ceil(8), random);
    let mut bytes = words::bytes_of(&words);
    bytes.truncate(length);
    bytes
}
