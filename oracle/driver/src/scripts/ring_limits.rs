//! The part of the family `ring` at the ends of what is allowed: no ring and the longest, sums and
//! places that do not fit, moves without room, bytes past the image's end, and bytes beyond the
//! real length.

use queue_file::inside::header::V2_DATA_START;

use super::limits::{combinations, LARGEST_I64, LARGEST_U32};
use super::lines::{
    extend, poke, relocate, ring_add, ring_distance, ring_erase, ring_read, ring_write, state,
};
use super::ring::{nonzero_bytes, state_of};
use super::ring_spellings::without_a_state;
use super::{joined, Line, Script};
use crate::image::IMAGE_LEN;
use crate::language::{BYTES_LIMIT, OUTPUT_LIMIT};
use crate::operations::ring::LONGEST_ERASED;
use crate::random::Random;

/// Lengths of no ring, of the shortest, of the longest, and of none again.
const FILE_LENS: [u64; 13] = [
    0,
    1,
    V2_DATA_START - 1,
    V2_DATA_START,
    V2_DATA_START + 1,
    V2_DATA_START + 100,
    IMAGE_LEN - 1,
    IMAGE_LEN,
    IMAGE_LEN + 1,
    LARGEST_U32,
    LARGEST_I64,
    LARGEST_I64 + 1,
    u64::MAX,
];
const OUTPUT: u64 = OUTPUT_LIMIT as u64;

pub fn groups(random: &mut Random) -> Vec<Vec<Line>> {
    let mut groups: Vec<Vec<Line>> =
        FILE_LENS.iter().map(|file_len| at_file_len(random, *file_len)).collect();
    groups.extend([0, IMAGE_LEN, u64::MAX].map(|file_len| relocated(random, file_len)));
    groups.push(outputs(random));
    groups.push(poked(random));
    groups.push(extended(random));
    groups.push(wrong_states(random));
    groups.extend((0..30).map(|_| beyond_the_real_length(random)));
    groups
}

/// Scripts that are more than groups: without a state, and with an erasure that only the port runs,
/// behind which nothing could be compared.
pub fn odd_scripts(random: &mut Random) -> Vec<Script> {
    let mut scripts = vec![joined(&without_a_state())];
    for len in [LONGEST_ERASED, LONGEST_ERASED + 1, LARGEST_U32 + 1, LARGEST_I64, u64::MAX] {
        let given = state(state_of(random, IMAGE_LEN, IMAGE_LEN));
        let bytes = poke(V2_DATA_START, &nonzero_bytes(random, 100));
        scripts.push(joined(&[given, bytes, ring_erase(50, len)]));
    }
    scripts
}

/// Numbers at which an answer in a ring of this file length can change.
fn borders(file_len: u64) -> Vec<u64> {
    let capacity = file_len.saturating_sub(V2_DATA_START);
    let mut borders =
        vec![0, 1, 2, V2_DATA_START, LARGEST_I64, LARGEST_I64 + 1, u64::MAX - 1, u64::MAX];
    for border in [capacity, capacity.saturating_mul(2), file_len, u64::MAX - capacity] {
        borders.extend([border.saturating_sub(1), border, border.saturating_add(1)]);
    }
    borders.sort_unstable();
    borders.dedup();
    borders
}

/// All five operations at this file length, every byte of the ring and some more within the real
/// length.
fn at_file_len(random: &mut Random, file_len: u64) -> Vec<Line> {
    let real_len = file_len.saturating_add(20).clamp(V2_DATA_START + 20, IMAGE_LEN);
    let bytes = nonzero_bytes(random, 120);
    let mut lines = vec![state(state_of(random, file_len, real_len)), poke(V2_DATA_START, &bytes)];
    let borders = borders(file_len);
    for [one, other] in combinations([&borders; 2]) {
        lines.push(ring_add(one, other));
        lines.push(ring_distance(one, other));
    }
    for &place in &borders {
        lines.extend([0, 1, 50].map(|len| ring_read(place, len)));
        lines.extend([0, 1, 50].map(|len| ring_write(place, &nonzero_bytes(random, len))));
        lines.extend([0, 1, 50].map(|len| ring_erase(place, len)));
    }
    lines
}

/// Every border against every other, whatever the state's file length is.
fn relocated(random: &mut Random, file_len: u64) -> Vec<Line> {
    let middle = V2_DATA_START + (IMAGE_LEN - V2_DATA_START) / 2;
    let old_lens = [
        0,
        V2_DATA_START - 1,
        V2_DATA_START,
        V2_DATA_START + 1,
        V2_DATA_START + 100,
        middle - 1,
        middle,
        middle + 1,
        IMAGE_LEN - 100,
        IMAGE_LEN - 1,
        IMAGE_LEN,
        IMAGE_LEN + 1,
        LARGEST_I64 + 1,
        u64::MAX - V2_DATA_START,
        u64::MAX,
    ];
    let mut lines = vec![state(state_of(random, file_len, IMAGE_LEN))];
    for old_len in old_lens {
        let (before, behind) =
            (old_len.saturating_sub(V2_DATA_START), IMAGE_LEN.saturating_sub(old_len));
        let to_wrap = 0u64.wrapping_sub(old_len);
        let counts = [before, behind, to_wrap]
            .map(|count| [count.saturating_sub(1), count, count.saturating_add(1)]);
        let counts = counts.into_iter().flatten().chain([0, 1, IMAGE_LEN, LARGEST_I64, u64::MAX]);
        for count in counts {
            lines.push(poke(V2_DATA_START, &nonzero_bytes(random, 8)));
            lines.push(relocate(old_len, count));
        }
    }
    lines
}

/// Reads as long as the output and longer by a byte, with a ring and without; the longest write.
fn outputs(random: &mut Random) -> Vec<Line> {
    let mut lines = Vec::new();
    for file_len in
        [V2_DATA_START, V2_DATA_START + 1, V2_DATA_START + 100, IMAGE_LEN, IMAGE_LEN + 1]
    {
        lines.push(state(state_of(random, file_len, IMAGE_LEN)));
        lines.push(poke(V2_DATA_START, &nonzero_bytes(random, 100)));
        for len in [OUTPUT - 1, OUTPUT, OUTPUT + 1, 2 * OUTPUT, LARGEST_U32 + 1, u64::MAX] {
            lines.push(ring_read(99, len));
        }
    }
    lines.push(state(state_of(random, V2_DATA_START + 100, IMAGE_LEN)));
    lines.push(ring_write(u64::MAX, &nonzero_bytes(random, BYTES_LIMIT)));
    lines.push(ring_read(0, 100));
    lines
}

/// Up to the image's end and past it, whatever the lengths of the state are.
fn poked(random: &mut Random) -> Vec<Line> {
    let mut lines = Vec::new();
    for real_len in [0, 1, V2_DATA_START, IMAGE_LEN - 1, IMAGE_LEN, IMAGE_LEN + 1, u64::MAX] {
        let file_len = random.pick(&FILE_LENS);
        lines.push(state(state_of(random, file_len, real_len)));
        for len in [0, 1, 2, 100] {
            for border in [0, real_len.min(IMAGE_LEN), IMAGE_LEN - len, IMAGE_LEN] {
                for offset in [border.saturating_sub(1), border, border + 1] {
                    lines.push(poke(offset, &nonzero_bytes(random, len as usize)));
                }
            }
            for offset in [LARGEST_U32 + 1, LARGEST_I64 + 1, u64::MAX - len, u64::MAX] {
                lines.push(poke(offset, &nonzero_bytes(random, len as usize)));
            }
        }
    }
    lines
}

/// By nothing, by a few and up to the image's end and past it; then again from where that led to.
fn extended(random: &mut Random) -> Vec<Line> {
    let mut lines = Vec::new();
    for real_len in [0, 1, V2_DATA_START + 5, IMAGE_LEN - 1, IMAGE_LEN, IMAGE_LEN + 1, u64::MAX] {
        let left = IMAGE_LEN.saturating_sub(real_len);
        let to_wrap = 0u64.wrapping_sub(real_len);
        for len in [0, 1, 2, 100, left.saturating_sub(1), left, left + 1, to_wrap, u64::MAX] {
            let file_len = random.pick(&FILE_LENS);
            lines.push(state(state_of(random, file_len, real_len)));
            lines.push(poke(real_len.min(IMAGE_LEN - 8), &nonzero_bytes(random, 8)));
            lines.extend([extend(len), extend(3), extend(IMAGE_LEN), extend(0)]);
        }
    }
    lines
}

/// States with a word out of its limits, each between lines that show the state that stays.
fn wrong_states(random: &mut Random) -> Vec<Line> {
    let given = state_of(random, V2_DATA_START + 100, V2_DATA_START + 100).to_string();
    let words: Vec<&str> = given.split(' ').collect();
    let with = |place: usize, word: &'static str| {
        let mut words = words.clone();
        words[place] = word;
        format!("state {}", words.join(" ")).into_bytes()
    };
    let (slot, count, overwrite) = (0, 4, 13);
    let mut lines = Vec::new();
    lines.extend(["A", "B", "a", "AB", "-", "1"].map(|word| with(slot, word)));
    lines.extend(["0", "4294967295", "4294967296"].map(|word| with(count, word)));
    lines.extend(["0", "1", "001", "2", "4294967297"].map(|word| with(overwrite, word)));
    lines.into_iter().flat_map(|line| [line, ring_add(99, 1)]).collect()
}

/// A ring of which some bytes, or all, lie beyond the real length: they are read and written like
/// the others, but not in the CRC until the real length comes to cover them.
fn beyond_the_real_length(random: &mut Random) -> Vec<Line> {
    let capacity = 1 + random.next() % 100;
    let file_len = V2_DATA_START + capacity;
    let real_lens = [0, V2_DATA_START - 1, V2_DATA_START, V2_DATA_START + random.next() % capacity];
    let real_len = random.pick(&real_lens);
    let mut place = || random.next() % capacity;
    let places = [place(), place(), place()];
    vec![
        state(state_of(random, file_len, real_len)),
        poke(V2_DATA_START, &nonzero_bytes(random, 200)),
        ring_write(places[0], &nonzero_bytes(random, 7)),
        ring_erase(places[1], 3),
        ring_read(places[2], capacity + 2),
        relocate(file_len, capacity),
        extend(5),
        ring_read(places[0], capacity),
        state(state_of(random, file_len + capacity, file_len + capacity + 5)),
        ring_read(places[1], 2 * capacity),
    ]
}
