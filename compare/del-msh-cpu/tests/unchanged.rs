// Holds the five files of the original to CHECKSUMS: whoever edits one of them breaks this test.
// The sha256 is written out here, from FIPS 180-4, so that the test needs no program of the machine.

use std::fs;
use std::path::Path;

#[test]
fn the_five_files_are_unchanged() {
    let workspace = Path::new(env!("CARGO_MANIFEST_DIR")).join("..");
    let checksums = fs::read_to_string(workspace.join("CHECKSUMS")).expect("CHECKSUMS is there");
    let mut held = 0;
    for line in checksums.lines().filter(|line| !line.starts_with('#')) {
        let (sum, file) = line.split_once("  ").expect("a sum, two spaces, a file");
        let text = fs::read(workspace.join(file)).expect(file);
        assert_eq!(sha256(&text), sum, "{file} is not as it was handed over");
        held += 1;
    }
    assert_eq!(held, 5);
}

#[test]
fn the_sums_are_sha256() {
    let empty = "e3b0c44298fc1c149afbf4c8996fb92427ae41e4649b934ca495991b7852b855";
    let abc = "ba7816bf8f01cfea414140de5dae2223b00361a396177a9cb410ff61f20015ad";
    assert_eq!(sha256(b""), empty);
    assert_eq!(sha256(b"abc"), abc);
}

/// The whole part of 2^32 times the fraction of a prime's root of the given order, 2 or 3.
fn root_fraction(prime: u128, order: u32) -> u32 {
    let scaled = prime << (32 * order);
    let mut root: u128 = 0;
    for bit in (0..40).rev() {
        let next = root | 1 << bit;
        if next.pow(order) <= scaled {
            root = next;
        }
    }
    root as u32
}

fn primes() -> impl Iterator<Item = u128> {
    (2..).filter(|&n| (2..n).all(|divisor| n % divisor != 0))
}

fn sha256(message: &[u8]) -> String {
    let constants: Vec<u32> = primes().take(64).map(|p| root_fraction(p, 3)).collect();
    let mut state: Vec<u32> = primes().take(8).map(|p| root_fraction(p, 2)).collect();
    for block in padded(message).chunks_exact(64) {
        mix(&mut state, &schedule(block), &constants);
    }
    state.iter().map(|word| format!("{word:08x}")).collect()
}

/// The message, a bit 1, zeros, and the message's length in bits as 8 bytes: a multiple of 64 bytes.
fn padded(message: &[u8]) -> Vec<u8> {
    let mut bytes = message.to_vec();
    bytes.push(0x80);
    while bytes.len() % 64 != 56 {
        bytes.push(0);
    }
    bytes.extend((8 * message.len() as u64).to_be_bytes());
    bytes
}

fn schedule(block: &[u8]) -> Vec<u32> {
    let words = block.as_chunks::<4>().0.iter();
    let mut w: Vec<u32> = words.map(|word| u32::from_be_bytes(*word)).collect();
    for t in 16..64 {
        let (x, y) = (w[t - 15], w[t - 2]);
        let small = x.rotate_right(7) ^ x.rotate_right(18) ^ (x >> 3);
        let large = y.rotate_right(17) ^ y.rotate_right(19) ^ (y >> 10);
        let sum = w[t - 16].wrapping_add(small).wrapping_add(w[t - 7]);
        w.push(sum.wrapping_add(large));
    }
    w
}

fn mix(state: &mut [u32], w: &[u32], constants: &[u32]) {
    let [mut a, mut b, mut c, mut d, mut e, mut f, mut g, mut h] =
        <[u32; 8]>::try_from(&*state).expect("eight words of state");
    for (word, constant) in w.iter().zip(constants) {
        let s1 = e.rotate_right(6) ^ e.rotate_right(11) ^ e.rotate_right(25);
        let choice = (e & f) ^ (!e & g);
        let t1 = [s1, choice, *constant, *word]
            .iter()
            .fold(h, |sum, &term| sum.wrapping_add(term));
        let s0 = a.rotate_right(2) ^ a.rotate_right(13) ^ a.rotate_right(22);
        let majority = (a & b) ^ (a & c) ^ (b & c);
        let t2 = s0.wrapping_add(majority);
        (h, g, f, e) = (g, f, e, d.wrapping_add(t1));
        (d, c, b, a) = (c, b, a, t1.wrapping_add(t2));
    }
    for (word, change) in state.iter_mut().zip([a, b, c, d, e, f, g, h]) {
        *word = word.wrapping_add(change);
    }
}
