// The fixed list of the original's answers: one case a line, in a form that is easy to read without Rust.
// `name N words`, where the words are the inputs, the number, its row and the outputs, 16 digits each.

/// The seed of the list; another seed would make another list.
pub const SEED: u64 = 20_261_023;

/// One case. What the words are is said in the list's header, call by call.
#[derive(Clone, Debug, PartialEq, Eq)]
pub struct Line {
    pub call: String,
    pub dim: u32,
    pub inputs: Vec<u64>,
    pub number: u32,
    pub row: u32,
    pub outputs: Vec<u64>,
}

impl Line {
    pub fn text(&self) -> String {
        let answer = [u64::from(self.number), u64::from(self.row)];
        let words = self.inputs.iter().chain(&answer).chain(&self.outputs);
        let mut text = format!("{} {}", self.call, self.dim);
        for word in words {
            text.push_str(&format!(" {word:016X}"));
        }
        text
    }

    /// Reads a line; None if it is not one. How many of its words are inputs is said by its call, its N and
    /// the words.
    pub fn parse(
        text: &str,
        input_words: impl Fn(&str, usize, &[u64]) -> Option<usize>,
    ) -> Option<Line> {
        let mut fields = text.split(' ');
        let call = fields.next()?.to_string();
        let dim: u32 = fields.next()?.parse().ok()?;
        let words = fields.map(parse_word).collect::<Option<Vec<u64>>>()?;
        let input_count = input_words(&call, dim as usize, &words)?;
        let (inputs, rest) = words.split_at_checked(input_count)?;
        let [number, row, outputs @ ..] = rest else {
            return None;
        };
        Some(Line {
            call,
            dim,
            inputs: inputs.to_vec(),
            number: u32::try_from(*number).ok()?,
            row: u32::try_from(*row).ok()?,
            outputs: outputs.to_vec(),
        })
    }
}

/// A reader without Rust has room for so many words of a line.
const MOST_WORDS: usize = 123;

pub fn is_short(line: &Line) -> bool {
    line.inputs.len() + 2 + line.outputs.len() <= MOST_WORDS
}

fn parse_word(text: &str) -> Option<u64> {
    if text.len() != 16 {
        return None;
    }
    u64::from_str_radix(text, 16).ok()
}

#[cfg(test)]
mod tests {
    use super::*;

    #[test]
    fn a_line_reads_back() {
        let line = Line {
            call: "scale".to_string(),
            dim: 2,
            inputs: vec![1, 2, u64::MAX],
            number: 9,
            row: 7,
            outputs: vec![0x3FF0_0000_0000_0000, 5],
        };
        assert_eq!(Line::parse(&line.text(), |_, _, _| Some(3)), Some(line));
    }
}
