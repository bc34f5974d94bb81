// What a run can be told from outside: the seed and the size, by environment variables.
// Without them a run always does the same, so that a gate that passed once passes again.

use std::env;

use crate::random::Random;

pub const SEED: &str = "COMPARE_SEED";
pub const SIZE: &str = "COMPARE_SIZE";

const DEFAULT_SEED: u64 = 20_261_023;

#[derive(Clone, Copy)]
pub struct Settings {
    pub seed: u64,
    /// 1 is the default size; 10 has ten times as many random cases.
    pub size: f64,
}

impl Settings {
    pub fn from_environment() -> Settings {
        Settings {
            seed: read(SEED, DEFAULT_SEED, parse_seed),
            size: read(SIZE, 1.0, parse_size),
        }
    }

    /// A generator of its own for each name, so that a new call leaves the others' cases as they were.
    pub fn random(&self, name: &str) -> Random {
        Random::named(self.seed, name)
    }

    /// How many random cases to try where the default size has `usual`.
    pub fn cases(&self, usual: usize) -> usize {
        (usual as f64 * self.size).ceil() as usize
    }
}

fn read<T>(name: &str, default: T, parse: fn(&str) -> Option<T>) -> T {
    match env::var(name) {
        Err(_) => default,
        Ok(text) => match parse(text.trim()) {
            Some(value) => value,
            None => panic!("{name} cannot be read: {text:?}"),
        },
    }
}

/// Decimal, or hexadecimal after 0x.
fn parse_seed(text: &str) -> Option<u64> {
    match text.strip_prefix("0x") {
        Some(digits) => u64::from_str_radix(digits, 16).ok(),
        None => text.parse().ok(),
    }
}

/// A decimal number above 0, such as 0.1 or 20.
fn parse_size(text: &str) -> Option<f64> {
    text.parse()
        .ok()
        .filter(|size: &f64| *size > 0.0 && *size <= 1e6)
}
