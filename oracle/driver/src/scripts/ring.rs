//! The family `ring`: small rings at every place and length, large ones at random, and the ends of
//! what the ring, the state and the image allow.

use queue_file::inside::header::{HeaderSlot, V2_DATA_START};

use super::lines::{poke, state};
use super::{packed_groups, ring_large, ring_limits, ring_small, Line, Script};
use crate::random::Random;
use crate::state::{Element, State};

pub fn scripts(random: &mut Random) -> Vec<Script> {
    let mut groups = ring_small::groups(random);
    groups.extend(ring_limits::groups(random));
    let mut scripts = packed_groups(&before_the_ring(random), groups);
    scripts.extend(ring_large::scripts(random));
    scripts.extend(ring_limits::odd_scripts(random));
    scripts
}

/// A state with these lengths. Nothing else in it concerns the ring, so it is anything.
pub fn state_of(random: &mut Random, file_len: u64, real_len: u64) -> State {
    let element = |random: &mut Random| Element {
        pos: random.sized(64),
        len: random.sized(64),
        seq: random.sized(64),
    };
    State {
        slot: random.pick(&[HeaderSlot::A, HeaderSlot::B]),
        generation: random.sized(64),
        file_len,
        real_len,
        count: random.sized(32) as u32,
        next_seq: random.sized(64),
        first: element(random),
        last: element(random),
        capacity: random.sized(64),
        overwrite: random.pick(&[false, true]),
    }
}

/// Bytes before the ring, none of them 0, so that the CRC shows a byte that is written or erased
/// there.
pub fn before_the_ring(random: &mut Random) -> [Line; 2] {
    let before = nonzero_bytes(random, V2_DATA_START as usize);
    [state(state_of(random, V2_DATA_START, V2_DATA_START)), poke(0, &before)]
}

pub fn nonzero_bytes(random: &mut Random, len: usize) -> Vec<u8> {
    (0..len).map(|_| 1 + random.below(255) as u8).collect()
}
