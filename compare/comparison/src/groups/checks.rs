// The checks of a call that is given n and one vector: 1 for n, then 2 for the length.
// Held to the rules, and to the original, which panics where two vectors differ in length.

use del_msh_cpu::vtx2xn;

use super::Group;
use crate::list::Line;
use crate::panics::original_panics;
use crate::random::Random;
use crate::rules;
use crate::settings::Settings;
use crate::tally::{Dim, Tally};

pub const GROUP: Group = Group {
    name: "checks",
    compare,
    sample,
    about: || vec![ABOUT.to_string()],
    input_words: |name, _, _| (name == NAME).then_some(2),
    replay,
};

const NAME: &str = "check_vector";
const ABOUT: &str = "check_vector: n (1 word), length (1 word); no output word. N is dim";

const DIMS: [u32; 7] = [1, 2, 3, 0, 4, 7, u32::MAX];
const ROWS: [u32; 9] = [0, 1, 2, 4095, 4096, 4097, 4098, 1 << 31, u32::MAX];

/// Random cases for each dim.
const CASES: usize = 100_000;

/// Cases that are run through the original as well, each with two vectors of its own.
const ORIGINAL: usize = 300;

fn compare(settings: &Settings, tally: &mut Tally) {
    let random = &mut settings.random(NAME);
    for dim in DIMS {
        eprintln!("comparing {NAME}, dim = {dim}");
        tally.can_answer(NAME, Dim::of(dim), &[0, 1, 2]);
        for n in ROWS {
            for length in lengths(n, dim) {
                try_case(n, dim, length, tally);
            }
        }
        for _ in 0..settings.cases(CASES) {
            let n = any_rows(random);
            let length = *random.pick(&lengths(n, dim));
            try_case(n, dim, length, tally);
        }
    }
    compare_with_original(random, tally);
}

/// The right length, its neighbours, those of other dims, what is left of it in 32 bits, and the ends.
fn lengths(n: u32, dim: u32) -> Vec<usize> {
    let of = |dim: u32| dim as usize * n as usize;
    let right = of(dim);
    vec![
        right,
        right.wrapping_sub(1),
        right + 1,
        of(1),
        of(2),
        of(3),
        right & 0xFFFF_FFFF,
        right + (1 << 32),
        n as usize + 1,
        0,
        1,
        usize::MAX,
    ]
}

fn any_rows(random: &mut Random) -> u32 {
    match random.below(4) {
        0 => random.bits() as u32,
        1 => random.between(4000, 4200) as u32,
        _ => random.between(0, 5000) as u32,
    }
}

fn try_case(n: u32, dim: u32, length: usize, tally: &mut Tally) {
    let expected = rules::vector_refusal(n, dim, length);
    let got = port::check_vector(n, dim, length);
    tally.answered(NAME, Dim::of(dim), got.number, 1);
    if (got.number, got.row) != (expected, 0) {
        tally.differs(NAME, Dim::of(dim), || {
            format!(
                "  n {n}, dim {dim}, length {length}\n  expected: number {expected}, row 0\n  got:      number {}, row {}\n",
                got.number, got.row
            )
        });
    }
}

/// Whether the original's `copy` to a vector of n rows from one of `rows` rows panics.
fn copy_panics<const N: usize>(n: usize, rows: usize) -> bool {
    original_panics(|| vtx2xn::copy(&mut vec![[0.0; N]; n], &vec![[1.0; N]; rows]))
}

/// For n in range the port's check refuses exactly where the original panics.
fn compare_with_original(random: &mut Random, tally: &mut Tally) {
    for _ in 0..ORIGINAL {
        let n = random.between(1, 4096) as u32;
        let rows = match random.below(3) {
            0 => random.between(0, 4200) as u32,
            1 => n + 1 - random.below(3) as u32,
            _ => n,
        };
        let dim = random.between(1, 3) as u32;
        let panics = match dim {
            1 => copy_panics::<1>(n as usize, rows as usize),
            2 => copy_panics::<2>(n as usize, rows as usize),
            _ => copy_panics::<3>(n as usize, rows as usize),
        };
        let got = port::check_vector(n, dim, (dim * rows) as usize);
        tally.answered(NAME, Dim::Is(dim), got.number, 1);
        if panics != (got.number != rules::DONE) {
            tally.differs(NAME, Dim::Is(dim), || {
                format!(
                    "  n {n}, dim {dim}, rows of the other vector {rows}\n  the original panics: {panics}\n  the port answers {}\n",
                    got.number
                )
            });
        }
    }
}

fn sample(seed: u64) -> Vec<Line> {
    let random = &mut Random::named(seed, NAME);
    let mut lines = Vec::new();
    for dim in 1..=3 {
        for n in [0, 1, 4096, 4097] {
            lines.push(line(n, dim, dim as usize * n as usize));
        }
        for _ in 0..4 {
            let n = random.between(1, 4096) as u32;
            lines.push(line(n, dim, *random.pick(&lengths(n, dim))));
        }
        lines.push(line(10, dim, 10 * dim as usize + 1));
        // Both are wrong: the size is asked first.
        lines.push(line(0, dim, 1));
        lines.push(line(4097, dim, 4096));
    }
    lines
}

fn line(n: u32, dim: u32, length: usize) -> Line {
    Line {
        call: NAME.to_string(),
        dim,
        inputs: vec![u64::from(n), length as u64],
        number: rules::vector_refusal(n, dim, length),
        row: 0,
        outputs: Vec::new(),
    }
}

fn replay(line: &Line) -> Line {
    let (n, length) = (line.inputs[0] as u32, line.inputs[1] as usize);
    let got = port::check_vector(n, line.dim, length);
    Line {
        number: got.number,
        row: got.row,
        ..line.clone()
    }
}
