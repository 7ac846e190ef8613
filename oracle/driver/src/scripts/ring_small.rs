//! The part of the family `ring` that goes over small rings at every place and every length.

use queue_file::inside::header::V2_DATA_START;

use super::limits::combinations;
use super::lines::{
    poke, relocate, ring_add, ring_distance, ring_erase, ring_read, ring_write, state,
};
use super::ring::state_of;
use super::Line;
use crate::random::Random;

const LARGEST: u64 = 12;
/// Places and lengths go up to so many times the capacity.
const TIMES: u64 = 3;
/// So many bytes behind the file length are within the real length: more than a write reaches that
/// does not come back to the ring's start.
const BEHIND: usize = 80;

/// What the ring holds, what stands behind it and what is written differ in every byte.
const IN_RING: u8 = 0x80;
const BEHIND_RING: u8 = 0x90;
const WRITTEN: u8 = 0x01;

pub fn groups(random: &mut Random) -> Vec<Vec<Line>> {
    let mut groups = Vec::new();
    for capacity in 1..=LARGEST {
        let mut group = |lines: Vec<Line>| groups.push([laid(random, capacity), lines].concat());
        group(added(capacity));
        group(distances(capacity));
        group(read(capacity));
        group(written(capacity));
        group(erased(capacity));
    }
    groups.extend(relocated(random));
    groups
}

fn counted(from: u8, len: usize) -> Vec<u8> {
    (from..).take(len).collect()
}

/// A state with this capacity, and known bytes in its ring and behind it.
fn laid(random: &mut Random, capacity: u64) -> Vec<Line> {
    let file_len = V2_DATA_START + capacity;
    let given = state_of(random, file_len, file_len + BEHIND as u64);
    vec![state(given), relaid(capacity), poke(file_len, &counted(BEHIND_RING, BEHIND))]
}

/// The ring as it was laid.
fn relaid(capacity: u64) -> Line {
    poke(V2_DATA_START, &counted(IN_RING, capacity as usize))
}

/// Every place with every length, both up to some capacities.
fn places_and_lengths(capacity: u64) -> Vec<[u64; 2]> {
    let numbers: Vec<u64> = (0..=TIMES * capacity).collect();
    combinations([&numbers; 2]).collect()
}

fn added(capacity: u64) -> Vec<Line> {
    let pairs = places_and_lengths(capacity).into_iter();
    pairs.map(|[place, distance]| ring_add(place, distance)).collect()
}

/// Between all places of the ring, and the first two behind it, which are none.
fn distances(capacity: u64) -> Vec<Line> {
    let places: Vec<u64> = (0..capacity + 2).collect();
    combinations([&places; 2]).map(|[from, to]| ring_distance(from, to)).collect()
}

fn read(capacity: u64) -> Vec<Line> {
    let pairs = places_and_lengths(capacity).into_iter();
    pairs.map(|[place, len]| ring_read(place, len)).collect()
}

/// Each on the ring as it was laid, so that the CRC tells which bytes came and which stayed.
fn written(capacity: u64) -> Vec<Line> {
    let write = |[place, len]: [u64; 2]| ring_write(place, &counted(WRITTEN, len as usize));
    let pairs = places_and_lengths(capacity).into_iter();
    pairs.flat_map(|pair| [relaid(capacity), write(pair)]).collect()
}

fn erased(capacity: u64) -> Vec<Line> {
    let pairs = places_and_lengths(capacity).into_iter();
    pairs.flat_map(|[place, len]| [relaid(capacity), ring_erase(place, len)]).collect()
}

/// Every number of bytes moved behind every old end, more than there are among them, and then the
/// larger ring read from its start and from the old end.
fn relocated(random: &mut Random) -> Vec<Vec<Line>> {
    let old_lens: Vec<u64> = (V2_DATA_START..=V2_DATA_START + LARGEST).collect();
    let counts: Vec<u64> = (0..=LARGEST + 1).collect();
    let bytes = counted(IN_RING, BEHIND);
    let real_len = V2_DATA_START + BEHIND as u64;
    let moved = |[old_len, count]: [u64; 2]| {
        let (old_capacity, new_len) = (old_len - V2_DATA_START, old_len + count);
        vec![
            state(state_of(random, old_len, real_len)),
            poke(V2_DATA_START, &bytes),
            relocate(old_len, count),
            state(state_of(random, new_len, real_len)),
            ring_read(0, old_capacity + count),
            ring_read(old_capacity, old_capacity + count),
        ]
    };
    combinations([&old_lens, &counts]).map(moved).collect()
}
