//! The family `slots`: the slot's codec at its limits and on spoiled bytes, the check at each of
//! its borders, and the election among good, bad and missing slots.

use super::layouts::{
    each_bit_flipped, each_byte_replaced, each_shorter, flipped, longer, sealed, slot, with,
    SLOT_CRC,
};
use super::limits::{around_limits, combinations, LARGEST_I32, LARGEST_I64, LARGEST_U32, LIMITS};
use super::lines::{elect, slot_check, slot_encode, slot_parse};
use super::{packed, Line, Script};
use crate::language::BYTES_LIMIT;
use crate::random::Random;

const RANDOM_ENCODED: usize = 8000;
const GOOD_PARSED: usize = 2000;
const FLIPPED_SLOTS: usize = 10;
const RANDOM_PARSED: usize = 1000;
const RANDOM_CHECKED: usize = 8000;
const RANDOM_ELECTED: usize = 3000;

/// Where the generation stands among the fields.
const GENERATION: usize = 4;
/// How many bits each field has that the parser accepts.
const PARSED_BITS: [usize; 6] = [63, 31, 63, 63, 63, 63];
/// How many bits each field has that the encoder accepts.
const ENCODED_BITS: [usize; 6] = [63, 32, 63, 63, 64, 64];

pub fn scripts(random: &mut Random) -> Vec<Script> {
    let mut lines = encoded(random);
    lines.extend(parsed(random));
    lines.extend(damaged(random));
    lines.extend(of_other_lengths(random));
    lines.extend(checked(random));
    lines.extend(elected(random));
    lines.extend(elected_of_every_kind(random));
    packed(lines)
}

fn fields_of(random: &mut Random, bits: [usize; 6]) -> [u64; 6] {
    bits.map(|bits| random.sized(bits))
}

/// Fields that the parser accepts.
fn good_fields(random: &mut Random) -> [u64; 6] {
    fields_of(random, PARSED_BITS)
}

fn good_slot(random: &mut Random) -> Vec<u8> {
    slot(good_fields(random))
}

fn good_slot_of(random: &mut Random, generation: u64) -> Vec<u8> {
    slot(with(good_fields(random), GENERATION, generation))
}

/// Every combination of limits in the four fields that the encoder judges, so that it shows which
/// is judged first; the two others at their limits; each field alone; random fields.
fn encoded(random: &mut Random) -> Vec<Line> {
    let around = around_limits();
    let mut lines = Vec::new();
    for [file_len, count, first, last] in combinations([&LIMITS; 4]) {
        let (generation, next_seq) = (random.pick(&around), random.pick(&around));
        lines.push(slot_encode([file_len, count, first, last, generation, next_seq]));
    }
    for [generation, next_seq] in combinations([&around; 2]) {
        let fields = with(fields_of(random, ENCODED_BITS), GENERATION, generation);
        lines.push(slot_encode(with(fields, GENERATION + 1, next_seq)));
    }
    for field in 0..6 {
        for &value in &around {
            lines.push(slot_encode(with(fields_of(random, ENCODED_BITS), field, value)));
        }
    }
    for _ in 0..RANDOM_ENCODED {
        lines.push(slot_encode(fields_of(random, ENCODED_BITS)));
        lines.push(slot_encode(fields_of(random, [64; 6])));
    }
    lines
}

/// Good slots, and slots whose CRC is right, with each field and with all of them at their limits.
fn parsed(random: &mut Random) -> Vec<Line> {
    let mut lines: Vec<Line> = Vec::new();
    lines.extend((0..GOOD_PARSED).map(|_| slot_parse(&good_slot(random))));
    for field in 0..6 {
        for value in around_limits() {
            lines.push(slot_parse(&slot(with(good_fields(random), field, value))));
        }
    }
    let numbers = [0, LARGEST_I64, LARGEST_I64 + 1, u64::MAX];
    let counts = [0, LARGEST_I32, LARGEST_I32 + 1, LARGEST_U32];
    let lists: [&[u64]; 6] = [&numbers, &counts, &numbers, &numbers, &numbers, &numbers];
    lines.extend(combinations(lists).map(|fields| slot_parse(&slot(fields))));
    lines
}

/// Slots spoiled by a byte or a bit, and random bytes, both with the CRC as it was and mended.
fn damaged(random: &mut Random) -> Vec<Line> {
    let mut lines: Vec<Line> = Vec::new();
    let good = good_slot(random);
    lines.extend(each_byte_replaced(&good).map(|slot| slot_parse(&slot)));
    lines.extend(each_byte_replaced(&good[..SLOT_CRC]).map(|slot| slot_parse(&sealed(&slot))));
    for _ in 0..FLIPPED_SLOTS {
        let good = good_slot(random);
        lines.extend(each_bit_flipped(&good).map(|slot| slot_parse(&slot)));
        lines.extend(each_bit_flipped(&good[..SLOT_CRC]).map(|slot| slot_parse(&sealed(&slot))));
    }
    for _ in 0..RANDOM_PARSED {
        // Nothing is right, or the first four bytes are, or the first eight.
        let right = random.pick(&[0, 4, 8]);
        let front = longer(random, &good[..right], SLOT_CRC - right);
        lines.push(slot_parse(&longer(random, &front, 4)));
        lines.push(slot_parse(&sealed(&front)));
    }
    lines
}

/// Longer strings, of which the first bytes count, and shorter ones.
fn of_other_lengths(random: &mut Random) -> Vec<Line> {
    let mut lines: Vec<Line> = Vec::new();
    let surpluses = (1..=64).chain([200, 4096, BYTES_LIMIT - 56]);
    for surplus in surpluses {
        let good = good_slot(random);
        let bad = flipped(&good, random.below(8 * good.len()));
        lines.push(slot_parse(&longer(random, &good, surplus)));
        if surplus <= 200 {
            lines.push(slot_parse(&longer(random, &bad, surplus)));
            lines.push(slot_parse(&[bad, good].concat()));
        }
    }
    let zeros = vec![0; 56];
    let any = random.bytes(56);
    for whole in [good_slot(random), zeros, any] {
        lines.extend(each_shorter(&whole).map(|slot| slot_parse(&slot)));
    }
    lines
}

/// The check at its borders, every combination of them, and near sound fields.
fn checked(random: &mut Random) -> Vec<Line> {
    let around = around_limits();
    let mut lines = Vec::new();
    for file_len in [0, 8191, 8192, 8193, 8236, 1 << 31, LARGEST_I64, u64::MAX] {
        let (before, behind) = (file_len.wrapping_sub(1), file_len.wrapping_add(1));
        let pointers = [0, 1, 8191, 8192, before, file_len, behind, u64::MAX];
        let real_lens = [before, file_len, behind, u64::MAX];
        let lists: [&[u64]; 5] =
            [&[0, 1, LARGEST_U32], &pointers, &pointers, &[0, 1, u64::MAX], &real_lens];
        for [count, first, last, next_seq, real_len] in combinations(lists) {
            let fields = [file_len, count, first, last, random.pick(&around), next_seq];
            lines.push(slot_check(fields, real_len));
        }
    }
    lines.extend((0..RANDOM_CHECKED).map(|_| checked_near_sound(random)));
    lines
}

/// Sound fields, or, three times in four, such with one or two of them replaced.
fn checked_near_sound(random: &mut Random) -> Line {
    let capacity = 1 + random.sized(62);
    let place = |random: &mut Random| 8192 + random.next() % capacity;
    let (count, first, last) = match random.below(4) {
        0 => (0, 0, 0),
        _ => (1 + random.sized(31), place(random), place(random)),
    };
    let mut fields = [8192 + capacity, count, first, last, random.sized(63), 1 + random.sized(62)];
    for _ in 0..random.below(4).min(2) {
        let field = random.below(6);
        let value = if random.below(2) == 0 { 8192 + capacity } else { random.pick(&LIMITS) };
        // The count's word has 32 bits.
        fields[field] = if field == 1 { value.min(LARGEST_U32) } else { value };
    }
    let real_len = fields[0].saturating_add(random.sized(20)).saturating_sub(random.sized(2));
    slot_check(fields, real_len)
}

/// Elections between two good slots, by generation, and with one of them spoiled in each bit.
fn elected(random: &mut Random) -> Vec<Line> {
    let mut lines = Vec::new();
    let generations: Vec<u64> =
        around_limits().into_iter().filter(|generation| *generation <= LARGEST_I64).collect();
    for [a, b] in combinations([&generations; 2]) {
        lines.push(elect(&good_slot_of(random, a), &good_slot_of(random, b)));
    }
    for _ in 0..RANDOM_ELECTED {
        let generation = 1 + random.sized(62);
        let other = generation + random.pick(&[0, 1, 2]) - 1;
        lines.push(elect(&good_slot_of(random, generation), &good_slot_of(random, other)));
    }
    for (a, b) in [(6, 5), (5, 5), (5, 6)] {
        let (a, b) = (good_slot_of(random, a), good_slot_of(random, b));
        lines.extend(each_bit_flipped(&a).map(|a| elect(&a, &b)));
        lines.extend(each_bit_flipped(&b).map(|b| elect(&a, &b)));
        lines.extend(each_shorter(&a).map(|a| elect(&a, &b)));
        lines.extend(each_shorter(&b).map(|b| elect(&a, &b)));
        lines.extend(each_shorter(&a).map(|a| elect(&a, &a)));
    }
    lines
}

/// Each kind of slot against each, with generations that differ by nothing, by one and by all.
fn elected_of_every_kind(random: &mut Random) -> Vec<Line> {
    let mut lines = Vec::new();
    let most = LARGEST_I64;
    for (a, b) in [(7, 7), (7, 8), (8, 7), (0, 0), (0, most), (most, 0), (most, most)] {
        let others = kinds(random, b);
        for a in kinds(random, a) {
            lines.extend(others.iter().map(|b| elect(&a, b)));
        }
    }
    lines
}

/// A good slot with this generation and a longer one, and what counts as no slot for each reason.
fn kinds(random: &mut Random, generation: u64) -> Vec<Vec<u8>> {
    let fields = with(good_fields(random), GENERATION, generation);
    let good = slot(fields);
    let spoiled = |bit: usize| sealed(&flipped(&good, bit)[..SLOT_CRC]);
    let mut kinds = vec![
        good.clone(),
        longer(random, &good, 8),
        flipped(&good, 8 * SLOT_CRC),
        flipped(&good, 8 * SLOT_CRC - 1),
        good[..55].to_vec(),
        good[..1].to_vec(),
        Vec::new(),
        vec![0; 56],
        random.bytes(56),
    ];
    // A bit of the magic, of the version and of each zero byte, under a CRC that is right.
    kinds.extend([0, 39, 40, 55, 63].map(spoiled));
    // The sign of each field.
    kinds.extend([64, 128, 160, 224, 288, 352].map(spoiled));
    kinds
}
