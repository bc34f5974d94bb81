// Calls on lent slices in the fixed list: a line begins with the counts of all slices, so that they can be cut
// apart, then come the numbers and slices in the order in which the call takes them.

use super::{Access, Given, SliceCall, Take};
use crate::list::Line;
use crate::random::Random;
use crate::rules;

/// For each call what the words of its lines are.
pub fn about(calls: &[SliceCall]) -> Vec<String> {
    calls.iter().map(SliceCall::about).collect()
}

/// How many of a line's words are inputs; None if it is a line of none of these calls.
pub fn input_words(calls: &[SliceCall], name: &str, words: &[u64]) -> Option<usize> {
    let call = calls.iter().find(|call| call.name == name);
    call.map(|call| call.input_words(words))
}

/// Calls the port on a line and gives the line that it makes.
pub fn replay(calls: &[SliceCall], line: &Line) -> Line {
    let call = calls.iter().find(|call| call.name == line.call);
    call.expect("a line of this group").replay(line)
}

impl SliceCall {
    /// A line of the fixed list: what the rules and the original say of whole words.
    pub fn line(&self, given: &Given) -> Line {
        let reading = self.reading(given);
        let (mut number, mut row) = ((self.refusal)(&reading), 0);
        let mut outputs: Vec<u64> = Vec::new();
        if number == rules::DONE {
            let worked = (self.oracle)(&reading);
            (number, row) = worked.answer();
            outputs.extend(worked.besides.words());
            outputs.extend(self.words_after(&given.slices, &worked.written));
        } else {
            outputs.extend(self.written_words(&given.slices));
            if rules::CLEARED.contains(&number) {
                outputs.fill(0);
            }
            outputs.splice(0..0, self.besides.words());
        }
        Line {
            call: self.name.to_string(),
            dim: given.dim,
            inputs: self.line_inputs(given),
            number,
            row,
            outputs,
        }
    }

    fn line_inputs(&self, given: &Given) -> Vec<u64> {
        let slices = self.slices().zip(&given.slices);
        let words: Vec<Vec<u64>> = slices
            .map(|(slice, bytes)| slice.element.words_in(bytes))
            .collect();
        let mut inputs: Vec<u64> = words.iter().map(|words| words.len() as u64).collect();
        let (mut numbers, mut words) = (given.numbers.iter(), words.into_iter());
        for take in self.takes {
            match take {
                Take::Slice(_) => inputs.extend(words.next().expect("every slice is given")),
                _ => inputs.extend(numbers.next()),
            }
        }
        inputs
    }

    /// The words of the slices that the call writes, once it has written these: it may write a part of one.
    fn words_after(&self, bytes: &[Vec<u8>], written: &[Vec<u64>]) -> Vec<u64> {
        let slices = self.slices().zip(bytes);
        let slices = slices.filter(|(slice, _)| slice.access != Access::Read);
        let mut words = Vec::new();
        for ((slice, bytes), written) in slices.zip(written) {
            words.extend(written);
            words.extend(&slice.element.words_in(bytes)[written.len()..]);
        }
        words
    }

    /// The words of the slices that the call writes.
    fn written_words(&self, bytes: &[Vec<u8>]) -> Vec<u64> {
        let written = self.slices().zip(bytes);
        written
            .filter(|(slice, _)| slice.access != Access::Read)
            .flat_map(|(slice, bytes)| slice.element.words_in(bytes))
            .collect()
    }

    /// The line's first words say how many the others are.
    fn input_words(&self, words: &[u64]) -> usize {
        let slices = self.slices().count();
        let lent: u64 = words.iter().take(slices).sum();
        slices + lent as usize + self.number_names().count()
    }

    /// What the inputs of a line give the call.
    fn given_by_line(&self, line: &Line) -> Given {
        let (counts, mut rest) = line.inputs.split_at(self.slices().count());
        let mut counts = counts.iter();
        let mut cut = |count: usize| {
            let (words, after) = rest.split_at(count);
            rest = after;
            words
        };
        let (mut numbers, mut slices) = (Vec::new(), Vec::new());
        for take in self.takes {
            match take {
                Take::Slice(slice) => {
                    let count = *counts.next().expect("a count of each slice");
                    slices.push(slice.element.bytes_of(cut(count as usize)));
                }
                _ => numbers.extend(cut(1)),
            }
        }
        Given {
            dim: line.dim,
            numbers,
            slices,
        }
    }

    fn replay(&self, line: &Line) -> Line {
        let given = self.given_by_line(line);
        let mut lent = self.lend(&given, &mut Random::new(0));
        let got = (self.port)(&given, &mut lent);
        let after: Vec<Vec<u8>> = lent.iter().map(|lent| lent.bytes().to_vec()).collect();
        let mut outputs = got.besides.words();
        outputs.extend(self.written_words(&after));
        Line {
            number: got.number,
            row: got.row,
            outputs,
            ..line.clone()
        }
    }

    fn about(&self) -> String {
        let counts: Vec<&str> = self.slices().map(|slice| slice.name).collect();
        let takes = self.takes.iter().map(|take| match take {
            Take::Count(name) | Take::Number(name) => format!("{name} (1 word)"),
            Take::Slice(slice) => slice.name.to_string(),
        });
        let takes: Vec<String> = takes.collect();
        let written = self.slices().filter(|slice| slice.access != Access::Read);
        let mut outputs = self.besides.about().to_vec();
        outputs.extend(written.map(|slice| slice.name));
        if outputs.is_empty() {
            outputs.push("no output word");
        }
        let dim = if self.has_dim {
            ""
        } else {
            ". N is written as 1"
        };
        format!(
            "{}: counts of {}; {}; {}{dim}",
            self.name,
            counts.join(", "),
            takes.join(", "),
            outputs.join(", ")
        )
    }
}
