//! The part of the family `ring` that takes large rings at random places, near their ends and near
//! multiples of their capacity.

use queue_file::inside::header::V2_DATA_START;

use super::lines::{
    poke, relocate, ring_add, ring_distance, ring_erase, ring_read, ring_write, state,
};
use super::ring::{before_the_ring, nonzero_bytes, state_of};
use super::{packed_groups, Line, Script};
use crate::image::IMAGE_LEN;
use crate::language::{BYTES_LIMIT, OUTPUT_LIMIT};
use crate::random::Random;

const LARGEST: u64 = IMAGE_LEN - V2_DATA_START;
const PRIMES: [u64; 10] = [97, 769, 1543, 3079, 8191, 12_289, 49_157, 65_537, 131_071, 196_613];

const GROUPS: usize = 240;
const LINES_OF_A_GROUP: usize = 90;
const LONG_ERASURES: usize = 3;
/// One group in so many begins with a write that may be as long as a string can be.
const GROUPS_TO_A_LONG_WRITE: usize = 20;
/// Other writes and most reads are at most so long.
const LONGEST_USUAL: u64 = 2000;
/// One read in so many may be as long as the output.
const READS_TO_A_LONG_ONE: usize = 32;
/// The image is filled by copies of so many bytes: a number that no usual mistake is a multiple of.
const PATTERN: u64 = 1021;

pub fn scripts(random: &mut Random) -> Vec<Script> {
    let beginning = before_the_ring(random);
    let groups: Vec<Vec<Line>> = (0..GROUPS).map(|nth| group(random, nth)).collect();
    packed_groups(&beginning, groups)
}

/// A ring that is filled and worked on, at last by erasures that leave little of it.
fn group(random: &mut Random, nth: usize) -> Vec<Line> {
    let capacity = capacity(random);
    let file_len = V2_DATA_START + capacity;
    let real_len = real_len(random, file_len);
    let mut lines = vec![state(state_of(random, file_len, real_len))];
    lines.extend(filled(random));
    if nth % GROUPS_TO_A_LONG_WRITE == 0 {
        lines.push(long_write(random, capacity, nth / GROUPS_TO_A_LONG_WRITE));
    }
    lines.extend((0..LINES_OF_A_GROUP).map(|_| any_line(random, capacity)));
    lines.extend((0..LONG_ERASURES).flat_map(|_| long_erasure(random, capacity)));
    lines
}

/// The largest, powers of two and primes, each or one off, and any.
fn capacity(random: &mut Random) -> u64 {
    let favoured = match random.below(4) {
        0 => LARGEST,
        1 => 1 << (4 + random.below(14)),
        2 => random.pick(&PRIMES),
        _ => return 1 + random.next() % LARGEST,
    };
    near(random, favoured, 1).min(LARGEST)
}

/// The file length, some bytes more or all there are; one time in four less, so that bytes of the
/// ring lie beyond the real length.
fn real_len(random: &mut Random, file_len: u64) -> u64 {
    match random.below(4) {
        0 => file_len,
        1 => (file_len + random.sized(10)).min(IMAGE_LEN),
        2 => IMAGE_LEN,
        _ => file_len - random.next() % file_len,
    }
}

/// Bytes all over the ring and behind it: a few that are moved on, twice as many each time.
fn filled(random: &mut Random) -> Vec<Line> {
    let mut lines = vec![poke(V2_DATA_START, &nonzero_bytes(random, PATTERN as usize))];
    let mut end = V2_DATA_START + PATTERN;
    while end < IMAGE_LEN {
        let count = (end - V2_DATA_START).min(IMAGE_LEN - end);
        lines.push(relocate(end, count));
        end += count;
    }
    lines
}

/// At most so much less or more.
fn near(random: &mut Random, number: u64, most: u64) -> u64 {
    (number.saturating_add(random.next() % (2 * most + 1))).saturating_sub(most)
}

fn place(random: &mut Random, capacity: u64) -> u64 {
    match random.below(6) {
        0 => random.next() % capacity,
        1 => capacity.saturating_sub(random.sized(7)),
        2 => {
            let times = random.next() % (u64::MAX / capacity);
            near(random, times * capacity, 40)
        }
        3 => u64::MAX - random.sized(10),
        4 => random.sized(20),
        _ => random.sized(64),
    }
}

/// A length from that place on: to the ring's end, once round or further, or short.
fn length(random: &mut Random, capacity: u64, place: u64) -> u64 {
    let to_end = capacity - place % capacity;
    match random.below(6) {
        0 => near(random, to_end, 2),
        1 => near(random, capacity, 2),
        2 => near(random, to_end + capacity, 2),
        3 => random.next() % (3 * capacity + 1),
        _ => random.sized(7),
    }
}

fn any_line(random: &mut Random, capacity: u64) -> Line {
    let place = place(random, capacity);
    let len = length(random, capacity, place);
    match random.below(16) {
        0 => ring_add(place, len),
        1 => ring_add(place, random.sized(64)),
        2 | 3 => any_distance(random, capacity),
        4..=7 => ring_read(place, len.min(longest_read(random))),
        8..=11 => ring_write(place, &random.bytes(len.min(LONGEST_USUAL) as usize)),
        12 | 13 => ring_erase(place, len.min(random.sized(11))),
        14 => any_relocation(random, capacity),
        _ => poked(random, capacity),
    }
}

fn longest_read(random: &mut Random) -> u64 {
    match random.below(READS_TO_A_LONG_ONE) {
        0 => OUTPUT_LIMIT as u64,
        _ => LONGEST_USUAL,
    }
}

/// Between two places of the ring, or, one time in four, from or to any.
fn any_distance(random: &mut Random, capacity: u64) -> Line {
    let (one, other) = (random.next() % capacity, random.next() % capacity);
    match random.below(8) {
        0 => ring_distance(place(random, capacity), other),
        1 => ring_distance(one, place(random, capacity)),
        2 => ring_distance(one, near(random, one, 2)),
        3 => ring_distance(capacity - 1 - random.sized(3).min(capacity - 1), other),
        _ => ring_distance(one, other),
    }
}

/// Behind an old end in the ring, few bytes or about as many as can be.
fn any_relocation(random: &mut Random, capacity: u64) -> Line {
    let old_capacity = 1 + random.next() % capacity;
    let old_len = V2_DATA_START + old_capacity;
    let most = old_capacity.min(IMAGE_LEN - old_len);
    let count = match random.below(3) {
        0 => near(random, most, 2),
        1 => random.next() % (most + 1),
        _ => random.sized(7),
    };
    relocate(old_len, count)
}

/// New bytes at the ring's start, across its end or anywhere.
fn poked(random: &mut Random, capacity: u64) -> Line {
    let len = random.below(64);
    let bytes = random.bytes(len);
    let offset = match random.below(3) {
        0 => V2_DATA_START,
        1 => V2_DATA_START + capacity.saturating_sub(random.sized(6)),
        _ => random.next() % IMAGE_LEN,
    };
    poke(offset.min(IMAGE_LEN - len as u64), &bytes)
}

/// As long as a string can be, about a capacity or about as far as the ring's end.
fn long_write(random: &mut Random, capacity: u64, nth: usize) -> Line {
    let place = place(random, capacity);
    let len = match nth % 4 {
        0 => BYTES_LIMIT as u64,
        1 => near(random, capacity, 1),
        2 => near(random, capacity - place % capacity, 1),
        _ => near(random, 2 * capacity, 1),
    };
    ring_write(place, &random.bytes(len.min(BYTES_LIMIT as u64) as usize))
}

/// An erasure of up to three capacities between new bytes at both ends of the ring, and what is
/// left around where it began and ended.
fn long_erasure(random: &mut Random, capacity: u64) -> Vec<Line> {
    let place = place(random, capacity);
    let len = length(random, capacity, place);
    let around = |place: u64| ring_read(place.saturating_sub(20), 40);
    vec![
        ring_write(capacity.saturating_sub(20), &nonzero_bytes(random, 40)),
        ring_erase(place, len),
        around(place),
        around(place % capacity + len),
    ]
}
