//! The family `crc`: parts of every short length, long parts, and parts cut in two.

use super::lines::{crc, crc_joined};
use super::{packed, Line, Script};
use crate::language::BYTES_LIMIT;
use crate::random::Random;

/// Every length up to here occurs: a little beyond a page.
const LONGEST_SHORT: usize = 4100;
const LONG_PARTS: usize = 40;
const JOINED_PARTS: usize = 4000;
const LONGEST_JOINED: usize = 200;

pub fn scripts(random: &mut Random) -> Vec<Script> {
    let mut lines: Vec<Line> = Vec::new();
    lines.extend((0..=LONGEST_SHORT).map(|len| crc(&random.bytes(len))));
    lines.extend((0..LONG_PARTS).map(|nth| crc(&long_part(random, nth))));
    lines.extend((0..JOINED_PARTS).map(|nth| joined(random, nth)));
    packed(lines)
}

/// A long part of random bytes, or, each one time in four, of zeros or of ones; the first of each
/// kind is as long as a part can be.
fn long_part(random: &mut Random, nth: usize) -> Vec<u8> {
    let len = if nth < 4 { BYTES_LIMIT } else { random.below(BYTES_LIMIT) + 1 };
    match nth % 4 {
        0 => vec![0; len],
        1 => vec![0xff; len],
        _ => random.bytes(len),
    }
}

/// A short part cut anywhere, one time in eight before its first and one time in eight after its
/// last byte.
fn joined(random: &mut Random, nth: usize) -> Line {
    let len = random.below(LONGEST_JOINED + 1);
    let cut = match nth % 8 {
        0 => 0,
        1 => len,
        _ => random.below(len + 1),
    };
    let part = random.bytes(len);
    crc_joined(&part[..cut], &part[cut..])
}
