//! The family `lengths`: the length after growth, at the limits of its numbers and at random.

use super::limits::{around_limits, combinations};
use super::lines::grow_length;
use super::{packed, Line, Script};
use crate::random::Random;

const TIMES: usize = 30_000;

pub fn scripts(random: &mut Random) -> Vec<Script> {
    let limits = with_powers();
    let few: Vec<u64> = around_limits();
    let mut lines: Vec<Line> = combinations([&few, &few, &few]).map(spelled).collect();
    for len in &limits {
        lines.extend(at_doublings(random, *len));
    }
    lines.extend((0..TIMES).map(|_| {
        let [len, remaining, span] = [(); 3].map(|()| random.sized(64));
        grow_length(len, remaining, span)
    }));
    packed(lines)
}

fn spelled([len, remaining, span]: [u64; 3]) -> Line {
    grow_length(len, remaining, span)
}

/// The limits, and each power of two with its neighbours.
fn with_powers() -> Vec<u64> {
    let powers = (0..64).map(|bit| 1u64 << bit);
    let around = powers.flat_map(|power| [power - 1, power, power + 1]);
    let mut all: Vec<u64> = around.chain(around_limits()).collect();
    all.sort_unstable();
    all.dedup();
    all
}

/// Spans at which one more doubling is needed, with none and some bytes remaining.
fn at_doublings(random: &mut Random, len: u64) -> Vec<Line> {
    let mut lines = Vec::new();
    for doublings in [0, 1, 2, 3, 7, 30, 50, 62, 63, 64] {
        for remaining in [0, 1, random.sized(20), random.sized(64)] {
            let room = u128::from(remaining) + u128::from(len) * ((1 << doublings) - 1);
            for span in [room.saturating_sub(1), room, room + 1] {
                if let Ok(span) = u64::try_from(span) {
                    lines.push(grow_length(len, remaining, span));
                }
            }
        }
    }
    lines
}
