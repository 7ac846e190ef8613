//! The family `file_headers`: the headers of Legacy and V1, both ways, at their limits, spoiled in
//! each place, and with other versions.

use super::layouts::{
    each_bit_flipped, each_byte_replaced, each_shorter, flipped, legacy, longer, v1, with,
};
use super::limits::{around_limits, combinations, LARGEST_I32, LARGEST_I64, LARGEST_U32, LIMITS};
use super::lines::{legacy_encode, legacy_parse, v1_encode, v1_parse};
use super::{packed, Line, Script};
use crate::random::Random;

const RANDOM_ENCODED: usize = 3000;
const GOOD_PARSED: usize = 2000;
const FLIPPED_HEADERS: usize = 12;
const RANDOM_PARSED: usize = 2000;

/// How many bits each field has that is accepted.
const LEGACY_BITS: [usize; 4] = [31; 4];
const V1_BITS: [usize; 4] = [63, 31, 63, 63];

/// The version word as it is written.
const V1: u32 = 0x8000_0001;
/// Version words: 1 with the top bit and without, and others, the magic of a slot among them.
#[rustfmt::skip]
const VERSIONS: [u32; 14] = [
    V1, 1, 0, 2, 3, 0x8000_0000, 0x8000_0002, 0x8000_0003, 0x7fff_ffff, u32::MAX, 0x0100_0000,
    0x8100_0001, 0x4000_0001, 0x5146_4d48,
];

pub fn scripts(random: &mut Random) -> Vec<Script> {
    let mut lines = encoded(random, LEGACY_BITS, legacy_encode);
    lines.extend(encoded(random, V1_BITS, v1_encode));
    lines.extend(legacy_parsed(random));
    lines.extend(v1_parsed(random));
    lines.extend(v1_of_every_version(random));
    lines.extend(damaged(random, good_legacy, legacy_parse));
    lines.extend(damaged(random, good_v1, v1_parse));
    lines.extend(of_other_lengths(random, good_legacy, legacy_parse));
    lines.extend(of_other_lengths(random, good_v1, v1_parse));
    packed(lines)
}

fn fields_of(random: &mut Random, bits: [usize; 4]) -> [u64; 4] {
    bits.map(|bits| random.sized(bits))
}

fn good_legacy(random: &mut Random) -> Vec<u8> {
    legacy(fields_of(random, LEGACY_BITS))
}

fn good_v1(random: &mut Random) -> Vec<u8> {
    v1(V1, fields_of(random, V1_BITS))
}

/// Every combination of limits, so that it shows which field is judged first; each field alone;
/// random fields.
fn encoded(random: &mut Random, bits: [usize; 4], line: fn([u64; 4]) -> Line) -> Vec<Line> {
    let mut lines: Vec<Line> = combinations([&LIMITS; 4]).map(line).collect();
    for field in 0..4 {
        for value in around_limits() {
            lines.push(line(with(fields_of(random, bits), field, value)));
        }
    }
    for _ in 0..RANDOM_ENCODED {
        lines.push(line(fields_of(random, bits)));
        lines.push(line(fields_of(random, [64; 4])));
    }
    lines
}

/// Good headers, and every combination of limits of 32 bits.
fn legacy_parsed(random: &mut Random) -> Vec<Line> {
    let values = [0, 1, 8192, LARGEST_I32 - 1, LARGEST_I32, LARGEST_I32 + 1, LARGEST_U32];
    let mut lines: Vec<Line> = Vec::new();
    lines.extend((0..GOOD_PARSED).map(|_| legacy_parse(&good_legacy(random))));
    lines.extend(combinations([&values; 4]).map(|fields| legacy_parse(&legacy(fields))));
    lines
}

/// Good headers, and every combination of limits, of 32 bits for the count.
fn v1_parsed(random: &mut Random) -> Vec<Line> {
    let numbers = [0, 1, LARGEST_U32 + 1, LARGEST_I64 - 1, LARGEST_I64, LARGEST_I64 + 1, u64::MAX];
    let counts = [0, 1, 8192, LARGEST_I32 - 1, LARGEST_I32, LARGEST_I32 + 1, LARGEST_U32];
    let lists: [&[u64]; 4] = [&numbers, &counts, &numbers, &numbers];
    let mut lines: Vec<Line> = Vec::new();
    lines.extend((0..GOOD_PARSED).map(|_| v1_parse(&good_v1(random))));
    lines.extend(combinations(lists).map(|fields| v1_parse(&v1(V1, fields))));
    lines
}

/// Each version with fields that are good and with some that are not, which are judged later, and
/// random versions.
fn v1_of_every_version(random: &mut Random) -> Vec<Line> {
    let numbers = [0, LARGEST_I64, LARGEST_I64 + 1];
    let counts = [0, LARGEST_I32, LARGEST_I32 + 1];
    let lists: [&[u64]; 4] = [&numbers, &counts, &numbers, &numbers];
    let mut lines: Vec<Line> = Vec::new();
    for version in VERSIONS {
        lines.extend(combinations(lists).map(|fields| v1_parse(&v1(version, fields))));
    }
    for _ in 0..RANDOM_PARSED {
        let version = random.sized(32) as u32;
        lines.push(v1_parse(&v1(version, fields_of(random, V1_BITS))));
    }
    lines
}

/// Headers spoiled by a byte or a bit, and random bytes, whole and behind the first four.
fn damaged(
    random: &mut Random,
    good: fn(&mut Random) -> Vec<u8>,
    line: fn(&[u8]) -> Line,
) -> Vec<Line> {
    let mut lines: Vec<Line> = Vec::new();
    lines.extend(each_byte_replaced(&good(random)).map(|header| line(&header)));
    for _ in 0..FLIPPED_HEADERS {
        lines.extend(each_bit_flipped(&good(random)).map(|header| line(&header)));
    }
    for _ in 0..RANDOM_PARSED {
        let good = good(random);
        lines.push(line(&random.bytes(good.len())));
        lines.push(line(&longer(random, &good[..4], good.len() - 4)));
    }
    lines
}

/// Longer strings, of which the first bytes count, and shorter ones.
fn of_other_lengths(
    random: &mut Random,
    good: fn(&mut Random) -> Vec<u8>,
    line: fn(&[u8]) -> Line,
) -> Vec<Line> {
    let mut lines: Vec<Line> = Vec::new();
    for surplus in (1..=64).chain([200, 4096]) {
        let good = good(random);
        let bad = flipped(&good, random.below(8 * good.len()));
        lines.push(line(&longer(random, &good, surplus)));
        lines.push(line(&longer(random, &bad, surplus)));
    }
    let good = good(random);
    let (zeros, ones) = (vec![0; good.len()], vec![0xff; good.len()]);
    for whole in [good, zeros, ones] {
        lines.extend(each_shorter(&whole).map(|header| line(&header)));
    }
    lines
}
