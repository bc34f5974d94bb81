// The square root, on millions of numbers: against the machine's root, and for positive finite numbers
// against document 01's own words, the nearest double by comparing squares of whole numbers.

use super::Group;
use crate::list::Line;
use crate::random::Random;
use crate::settings::Settings;
use crate::tally::{Dim, Tally};
use crate::values::{self, KINDS};
use crate::words;

pub const GROUP: Group = Group {
    name: "root",
    compare,
    sample,
    about: || vec![ABOUT.to_string()],
    input_words: |name, _, _| (name == NAME).then_some(1),
    replay,
};

const NAME: &str = "square_root";
const ABOUT: &str =
    "square_root: x (1 word); out (1 word). N is written as 1, and number and row are 0";

/// Random numbers of each family.
const CASES: usize = 1_000_000;

const LEADING: u64 = 1 << 52;
const INFINITY: u64 = 0x7FF << 52;

/// Words that 01's text and IEEE 754 single out.
const CHOSEN: [u64; 20] = [
    0,
    1 << 63,
    INFINITY,
    INFINITY | 1 << 63,
    words::NAN,
    INFINITY + 1,
    u64::MAX,
    INFINITY + (1 << 51) + 1,
    1,
    (1 << 63) | 1,
    LEADING - 1,
    LEADING,
    INFINITY - 1,
    u64::MAX >> 1,
    0x3FEF_FFFF_FFFF_FFFF,
    0x3FF0_0000_0000_0000,
    0x3FF0_0000_0000_0001,
    0x4000_0000_0000_0000,
    0x400F_FFFF_FFFF_FFFF,
    0x4010_0000_0000_0001,
];

type Make = fn(&mut Random) -> u64;

const FAMILIES: [(&str, Make); 5] = [
    ("squares and their neighbours", near_square),
    ("squares of middles and their neighbours", near_middle),
    ("subnormal numbers", subnormal),
    ("positive bits", |random| random.bits() >> 1),
    ("any kind", |random| {
        values::word(*random.pick(&KINDS), random)
    }),
];

fn compare(settings: &Settings, tally: &mut Tally) {
    let random = &mut settings.random(NAME);
    tally.can_answer(NAME, Dim::None, &[0]);
    for word in CHOSEN {
        try_word(word, tally);
    }
    eprintln!("comparing {NAME}: around each power of two");
    for exponent in 0..0x7FF_u64 {
        for step in -64..=64 {
            try_word((exponent << 52).wrapping_add_signed(step), tally);
        }
    }
    for (about, make) in FAMILIES {
        eprintln!("comparing {NAME}: {about}");
        for _ in 0..settings.cases(CASES) {
            try_word(make(random), tally);
        }
    }
}

/// The square of a number of at most 26 digits, times a power of four, or a neighbour.
fn near_square(random: &mut Random) -> u64 {
    let digits = (random.bits() >> 38 >> random.below(26)).max(1);
    let square = (digits * digits) as f64 * 4_f64.powi(random.between(-500, 450) as i32);
    square.to_bits().wrapping_add_signed(random.between(-2, 2))
}

/// The odd number below 2^bits whose square is c modulo 2^bits, by lifting digit by digit; c is 1 modulo 8.
fn root_modulo(c: u128, bits: u32) -> u128 {
    let mut root = 1;
    for bit in 3..bits {
        if ((root * root) ^ c) >> bit & 1 == 1 {
            root += 1 << (bit - 1);
        }
    }
    root
}

/// A number whose root all but lies in the middle of two doubles, where it is hardest to round: the odd
/// number `middle`, of 54 digits, has a square that ends in zeros but for a small c, and the 53 digits above
/// are the number's.
fn near_middle(random: &mut Random) -> u64 {
    loop {
        let c = 8 * random.between(-4096, 4095) + 1;
        let bits = 54 + random.below(2) as u32;
        let root = root_modulo(c as u128, bits) % (1 << (bits - 1));
        let middle = root | 1 << 53;
        let square = (middle * middle).wrapping_sub(c as u128);
        let digits = square >> bits;
        if square.trailing_zeros() >= bits && digits >> 52 == 1 {
            // An even power of two keeps the digits of the root, and a field of 1075 stands for a power of 0.
            let field = 2 * random.below(1000) as u64 + 20 + u64::from((bits + 1) % 2);
            return field << 52 | digits as u64 & (LEADING - 1);
        }
    }
}

fn subnormal(random: &mut Random) -> u64 {
    (random.bits() >> 12 >> random.below(52)).max(1)
}

/// x as digits * 2^power, for a positive finite word.
fn taken_apart(word: u64) -> (u128, i64) {
    let (field, fraction) = (word >> 52, word & (LEADING - 1));
    if field == 0 {
        (u128::from(fraction), -1074)
    } else {
        (u128::from(fraction | LEADING), field as i64 - 1075)
    }
}

/// x, and the squares of the middles below and above a root, in the same unit: whole numbers, for positive
/// finite words. None if the root is too far off for that.
fn enclosed(x: u64, root: u64) -> Option<[u128; 3]> {
    let (digits, power) = taken_apart(x);
    let (root_digits, root_power) = taken_apart(root);
    // In quarters of the root's last place: the middle above is 2 away, the one below 2, or 1 where the
    // root is a power of two and its lower neighbour is half as far.
    let quarters = 4 * root_digits;
    let lower = if root_digits == u128::from(LEADING) {
        1
    } else {
        2
    };
    let shift = power - 2 * (root_power - 2);
    if shift < 0 || shift > i64::from(digits.leading_zeros()) || quarters < lower {
        return None;
    }
    Some([
        (quarters - lower).pow(2),
        digits << shift,
        (quarters + 2).pow(2),
    ])
}

/// Whether root is the double nearest the exact root of x, both positive and finite.
fn is_nearest(x: u64, root: u64) -> bool {
    enclosed(x, root).is_some_and(|[below, x, above]| below < x && x < above)
}

fn is_positive_finite(word: u64) -> bool {
    0 < word && word < INFINITY
}

fn try_word(word: u64, tally: &mut Tally) {
    let x = f64::from_bits(word);
    let expected = x.sqrt().to_bits();
    let got = port::square_root(x).to_bits();
    tally.answered(NAME, Dim::None, 0, 1);
    tally.compared(NAME, Dim::None, 1, u64::from(words::is_nan(expected)));
    let nearest = !is_positive_finite(word) || (is_positive_finite(got) && is_nearest(word, got));
    if !words::agree(expected, got) || !nearest {
        tally.differs(NAME, Dim::None, || {
            format!(
                "  x: {}\n  expected: {}\n  got:      {}\n  nearest by squares: {nearest}\n",
                words::show_words(&[word]),
                words::show_words(&[expected]),
                words::show_words(&[got])
            )
        });
    }
}

fn sample(seed: u64) -> Vec<Line> {
    let random = &mut Random::named(seed, NAME);
    let mut inputs = CHOSEN.to_vec();
    for kind in KINDS {
        inputs.extend(values::of_kind(kind, 2, random));
    }
    for make in [near_square, near_middle, subnormal] {
        inputs.extend((0..6).map(|_| make(random)));
    }
    inputs.into_iter().map(line).collect()
}

fn line(word: u64) -> Line {
    Line {
        call: NAME.to_string(),
        dim: 1,
        inputs: vec![word],
        number: 0,
        row: 0,
        outputs: vec![words::word_of(f64::from_bits(word).sqrt())],
    }
}

fn replay(line: &Line) -> Line {
    let root = port::square_root(f64::from_bits(line.inputs[0]));
    Line {
        outputs: vec![words::word_of(root)],
        ..line.clone()
    }
}

#[cfg(test)]
mod tests {
    use super::*;

    #[test]
    fn squares_decide() {
        for x in [1.0, 2.0, 4.0, 0.25, 1e300, f64::MIN_POSITIVE, 5e-324, 3.0] {
            let root = x.sqrt().to_bits();
            assert!(is_nearest(x.to_bits(), root), "{x:e}");
            assert!(!is_nearest(x.to_bits(), root + 1), "{x:e}");
            assert!(!is_nearest(x.to_bits(), root - 1), "{x:e}");
        }
    }

    #[test]
    fn hard_roots_are_hard() {
        let random = &mut Random::new(1);
        for _ in 0..1000 {
            let x = near_middle(random);
            let root = f64::from_bits(x).sqrt().to_bits();
            let [below, x, above] = enclosed(x, root).expect("the machine's root is near");
            // Of about 2^110, which is the square.
            assert!((x - below).min(above - x) < 1 << 18);
        }
    }
}
