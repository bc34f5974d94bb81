// Doubles, indexes, flags and levels as words and as bytes, low byte first, and when two doubles count as equal:
// if they are the same, or if both are a NaN of whatever pattern.

/// What a word of a lent slice is.
#[derive(Clone, Copy, Debug, PartialEq, Eq)]
pub enum Element {
    /// The 64 bits of a double.
    Value,
    /// A u32.
    Index,
    /// An i32, of which the word has the 32 bits.
    Flag,
    /// A u16.
    Level,
}

impl Element {
    /// Bytes of one word.
    pub fn bytes(self) -> usize {
        match self {
            Element::Value => 8,
            Element::Index | Element::Flag => 4,
            Element::Level => 2,
        }
    }

    /// The whole words of bytes; what is left over is passed over.
    pub fn words_in(self, bytes: &[u8]) -> Vec<u64> {
        match self {
            Element::Value => {
                let words = bytes.as_chunks::<8>().0.iter();
                words.map(|word| u64::from_le_bytes(*word)).collect()
            }
            Element::Index | Element::Flag => {
                let words = bytes.as_chunks::<4>().0.iter();
                words
                    .map(|word| u64::from(u32::from_le_bytes(*word)))
                    .collect()
            }
            Element::Level => {
                let words = bytes.as_chunks::<2>().0.iter();
                words
                    .map(|word| u64::from(u16::from_le_bytes(*word)))
                    .collect()
            }
        }
    }

    /// The bytes of words, of which an index or a flag has the lower half and a level the lowest quarter.
    pub fn bytes_of(self, words: &[u64]) -> Vec<u8> {
        let low = |word: &u64| (*word as u32).to_le_bytes();
        let lowest = |word: &u64| (*word as u16).to_le_bytes();
        match self {
            Element::Value => bytes_of(words),
            Element::Index | Element::Flag => words.iter().flat_map(low).collect(),
            Element::Level => words.iter().flat_map(lowest).collect(),
        }
    }
}

/// The pattern that the port writes for a NaN.
pub const NAN: u64 = 0x7FF8_0000_0000_0000;

pub fn is_nan(word: u64) -> bool {
    f64::from_bits(word).is_nan()
}

pub fn agree(expected: u64, got: u64) -> bool {
    expected == got || (is_nan(expected) && is_nan(got))
}

/// The word of a value, every NaN as the one pattern.
pub fn word_of(value: f64) -> u64 {
    if value.is_nan() {
        NAN
    } else {
        value.to_bits()
    }
}

pub fn words_of(values: &[f64]) -> Vec<u64> {
    values.iter().map(|&value| word_of(value)).collect()
}

pub fn values_of(words: &[u64]) -> Vec<f64> {
    words.iter().map(|&word| f64::from_bits(word)).collect()
}

pub fn bytes_of(words: &[u64]) -> Vec<u8> {
    words.iter().flat_map(|word| word.to_le_bytes()).collect()
}

/// The words of bytes, whose count is a multiple of 8.
pub fn words_in(bytes: &[u8]) -> Vec<u64> {
    let (words, rest) = bytes.as_chunks::<8>();
    assert!(rest.is_empty(), "{} bytes are not words", bytes.len());
    words.iter().map(|word| u64::from_le_bytes(*word)).collect()
}

/// At most this many words of a slice are shown in a message.
const SHOWN: usize = 32;

/// Words in hexadecimal, each with the value that it stands for.
pub fn show_words(words: &[u64]) -> String {
    let mut parts: Vec<String> = words
        .iter()
        .take(SHOWN)
        .map(|&word| format!("{word:016X} ({:e})", f64::from_bits(word)))
        .collect();
    if words.len() > SHOWN {
        parts.push(format!("and {} more", words.len() - SHOWN));
    }
    parts.join(", ")
}

/// Indexes and levels as they are, flags with their sign.
fn show_numbers(element: Element, words: &[u64]) -> String {
    let number = |word: u64| match element {
        Element::Flag => i64::from(word as u32 as i32),
        _ => word as i64,
    };
    let shown = words.iter().take(8 * SHOWN);
    let mut parts: Vec<String> = shown.map(|&word| number(word).to_string()).collect();
    if words.len() > parts.len() {
        parts.push(format!("and {} more", words.len() - parts.len()));
    }
    parts.join(", ")
}

/// Lent bytes as words, or as single bytes where they are not whole words.
pub fn show_bytes(element: Element, bytes: &[u8]) -> String {
    if bytes.len().is_multiple_of(element.bytes()) {
        let words = element.words_in(bytes);
        let shown = match element {
            Element::Value => show_words(&words),
            _ => show_numbers(element, &words),
        };
        return format!("{} bytes: {shown}", bytes.len());
    }
    let shown: Vec<String> = bytes
        .iter()
        .take(8 * SHOWN)
        .map(|byte| format!("{byte:02X}"))
        .collect();
    format!("{} bytes: {}", bytes.len(), shown.join(" "))
}
