// Kinds of doubles that comparisons are made on, lists of them, factors and fixing flags.
// Purely random bits are mostly huge or tiny; rounding, signs of zero and NaN need kinds of their own.

use crate::random::Random;

#[derive(Clone, Copy, Debug, PartialEq, Eq)]
pub enum Kind {
    /// Near 1, with all digits in use: sums of these show the order of additions.
    Ordinary,
    /// -4 to 4: sums of products of these are exact and often cancel.
    Whole,
    Zero,
    Subnormal,
    /// Just above the subnormal numbers.
    Tiny,
    /// Close to the largest number, and that number.
    Huge,
    /// About the root of the largest or the smallest number: products overflow, underflow or just do not.
    Half,
    /// A power of two, or a neighbour of one.
    Power,
    Infinite,
    NotANumber,
    /// Any 64 bits.
    Bits,
}

pub const KINDS: [Kind; 11] = [
    Kind::Ordinary,
    Kind::Whole,
    Kind::Zero,
    Kind::Subnormal,
    Kind::Tiny,
    Kind::Huge,
    Kind::Half,
    Kind::Power,
    Kind::Infinite,
    Kind::NotANumber,
    Kind::Bits,
];

/// Those that stand for a finite number.
pub const FINITE: [Kind; 8] = [
    Kind::Ordinary,
    Kind::Whole,
    Kind::Zero,
    Kind::Subnormal,
    Kind::Tiny,
    Kind::Huge,
    Kind::Half,
    Kind::Power,
];

const SIGN: u64 = 1 << 63;
const FRACTION: u64 = (1 << 52) - 1;
const INFINITY: u64 = 0x7FF << 52;

/// NaN patterns that a careless reader may take for something else.
const NAN_FRACTIONS: [u64; 6] = [1, 1 << 51, (1 << 51) + 1, (1 << 51) - 1, FRACTION, 1 << 32];

fn sign(random: &mut Random) -> u64 {
    random.bits() & SIGN
}

fn fraction(random: &mut Random) -> u64 {
    random.bits() & FRACTION
}

/// A number of the given power of two, with random digits and sign.
fn with_power(random: &mut Random, power: i64) -> u64 {
    sign(random) | ((power + 1023) as u64) << 52 | fraction(random)
}

/// A number above 0 and below 2^52 with any count of binary digits.
fn subnormal(random: &mut Random) -> u64 {
    match random.below(8) {
        0 => 1,
        1 => FRACTION,
        _ => (fraction(random) >> random.below(52)).max(1),
    }
}

fn half(random: &mut Random) -> u64 {
    let power = if random.flip() {
        random.between(505, 515)
    } else {
        random.between(-545, -505)
    };
    with_power(random, power)
}

fn huge(random: &mut Random) -> u64 {
    if random.below(8) == 0 {
        return sign(random) | (INFINITY - 1);
    }
    let power = random.between(1010, 1023);
    with_power(random, power)
}

fn tiny(random: &mut Random) -> u64 {
    let power = random.between(-1022, -1000);
    with_power(random, power)
}

fn near_power(random: &mut Random) -> u64 {
    let bits = ((random.between(-40, 40) + 1023) as u64) << 52;
    let step = random.between(-1, 1);
    sign(random) | bits.wrapping_add_signed(step)
}

fn not_a_number(random: &mut Random) -> u64 {
    let fraction = if random.flip() {
        *random.pick(&NAN_FRACTIONS)
    } else {
        fraction(random).max(1)
    };
    sign(random) | INFINITY | fraction
}

pub fn word(kind: Kind, random: &mut Random) -> u64 {
    match kind {
        Kind::Ordinary => {
            let power = random.between(-3, 3);
            with_power(random, power)
        }
        Kind::Whole => (random.between(-4, 4) as f64).to_bits(),
        Kind::Zero => sign(random),
        Kind::Subnormal => sign(random) | subnormal(random),
        Kind::Tiny => tiny(random),
        Kind::Huge => huge(random),
        Kind::Half => half(random),
        Kind::Power => near_power(random),
        Kind::Infinite => sign(random) | INFINITY,
        Kind::NotANumber => not_a_number(random),
        Kind::Bits => random.bits(),
    }
}

fn of_kinds(kinds: &[Kind], count: usize, random: &mut Random) -> Vec<u64> {
    (0..count)
        .map(|_| word(*random.pick(kinds), random))
        .collect()
}

/// All of one kind.
pub fn of_kind(kind: Kind, count: usize, random: &mut Random) -> Vec<u64> {
    of_kinds(&[kind], count, random)
}

/// Values of one kind, of two, of all, or ordinary ones with one of another kind among them.
pub fn mixed(count: usize, random: &mut Random) -> Vec<u64> {
    let one = *random.pick(&KINDS);
    let other = *random.pick(&FINITE);
    match random.below(8) {
        0 => of_kind(one, count, random),
        1 => of_kinds(&[one, other], count, random),
        2 => of_kinds(&KINDS, count, random),
        3 => of_kinds(&FINITE, count, random),
        4 => {
            let mut words = of_kind(Kind::Ordinary, count, random);
            if count > 0 {
                words[random.below(count)] = word(one, random);
            }
            words
        }
        5 => of_kinds(&[Kind::Whole, Kind::Zero], count, random),
        _ => of_kind(Kind::Ordinary, count, random),
    }
}

/// Factors that a careless reader may treat apart.
const FACTORS: [f64; 8] = [
    0.0,
    -0.0,
    1.0,
    -1.0,
    f64::INFINITY,
    f64::NEG_INFINITY,
    f64::NAN,
    0.5,
];

/// A number that values are multiplied by, or that is written to the diagonal.
pub fn factor(random: &mut Random) -> u64 {
    match random.below(3) {
        0 => random.pick(&FACTORS).to_bits(),
        1 => word(*random.pick(&KINDS), random),
        _ => word(Kind::Ordinary, random),
    }
}

/// Flags that fix, of either sign, some with zeros in all bytes but one.
const FIXING: [i32; 8] = [1, -1, i32::MIN, i32::MAX, 2, 1 << 8, 1 << 16, 1 << 24];

fn flag(random: &mut Random) -> i32 {
    match random.below(3) {
        0 => random.bits() as i32,
        _ => *random.pick(&FIXING),
    }
}

/// Fixing flags, as the 32 bits of each: none, all, or some that fix.
pub fn flags(count: usize, random: &mut Random) -> Vec<u64> {
    let fixed_in_8 = *random.pick(&[0, 1, 3, 3, 4, 8]);
    let each = (0..count).map(|_| {
        let fixes = random.below(8) < fixed_in_8;
        let flag = if fixes { flag(random) } else { 0 };
        u64::from(flag as u32)
    });
    each.collect()
}
