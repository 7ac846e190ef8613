//! The family `damage`: writing on queues whose headers are spoiled, and in states with numbers at
//! their limits, so that removals and growths refuse in every way, or just do not.

use queue_file::inside::format::V2_ELEM_OVERHEAD;
use queue_file::inside::header::V2_DATA_START;

use super::layouts::{sealed, HEADER_CRC};
use super::limits::{LARGEST_I32, LARGEST_I64, LARGEST_U32};
use super::lines::{
    add, clear, commit, extend, fresh, grow, iterate, overwrite, remove, reopen, state, used,
};
use super::writer::{Header, Writer};
use super::{packed_groups, Line, Script};
use crate::image::IMAGE_LEN;
use crate::random::Random;
use crate::state::{Element, Settings, State};

/// How often each kind of group occurs.
const TIMES: usize = 130;
/// How many headers are spoiled one after the other in a queue.
const SPOILED: usize = 20;
const NONE: Element = Element { pos: 0, len: 0, seq: 0 };

pub fn scripts(random: &mut Random) -> Vec<Script> {
    packed_groups(&[], groups(random, TIMES))
}

pub fn groups(random: &mut Random, times: usize) -> impl Iterator<Item = Vec<Line>> + '_ {
    let mut writer = Writer::new();
    (0..times).flat_map(move |_| {
        let kinds = [headers_spoiled, headers_spoiled, links_changed, states_given, exhausted];
        kinds.map(|kind| {
            kind(&mut writer, random);
            writer.taken()
        })
    })
}

/// A queue of a few elements somewhere in a small ring, most often with hardly any room left.
fn laid(writer: &mut Writer, random: &mut Random) {
    let ring_len = 150 + random.next() % 300;
    let capacity = V2_DATA_START + random.next() % 500;
    let settings = Settings { capacity, overwrite: random.below(2) == 0 };
    let longest = random.pick(&[0, 12, 40]);
    let steps = 6 + random.below(12);
    writer.roll(random, ring_len, settings, longest, steps);
    // The ring made nearly full, so that it mostly goes across its end.
    let room = writer.state().remaining();
    if room >= V2_ELEM_OVERHEAD && random.below(4) > 0 {
        let len = room - V2_ELEM_OVERHEAD - random.next() % (room - V2_ELEM_OVERHEAD + 1).min(30);
        writer.say(add(&random.bytes(len as usize)));
    }
    if writer.state().count == 0 {
        writer.say(add(&[]));
    }
    if random.below(8) == 0 {
        writer.say(extend(random.next() % 600));
    }
}

/// One header after the other spoiled and put right again, as long as what comes upon it refuses.
fn headers_spoiled(writer: &mut Writer, random: &mut Random) {
    laid(writer, random);
    for _ in 0..SPOILED {
        let before = writer.state();
        let headers = writer.headers(50);
        let Some(header) = headers.get(random.below(headers.len().max(1))).cloned() else { return };
        let spoiled = spoiled(random, &header, before.ring_len());
        writer.poke_ring(header.pos, &spoiled);
        walk_over(writer, random);
        if writer.state() != before {
            writer.say(iterate());
            laid(writer, random);
        } else {
            writer.poke_ring(header.pos, &header.bytes);
        }
    }
}

/// The header with a field changed, or several, under a CRC that is right or is not.
fn spoiled(random: &mut Random, header: &Header, ring_len: u64) -> Vec<u8> {
    let mut bytes = header.bytes.to_vec();
    let largest = (ring_len - V2_ELEM_OVERHEAD) as u32;
    match random.below(10) {
        0 => bytes[random.below(4)] ^= 1 << random.below(8),
        1 => bytes[20..24].copy_from_slice(&(random.next() as u32 | 1 << 31).to_be_bytes()),
        2 => bytes[4..12].fill(0),
        3 => bytes[4..12].copy_from_slice(&random.sized(64).to_be_bytes()),
        4 => {
            let len = random.pick(&[largest + 1, largest + 2, i32::MAX as u32, 2 * largest + 45]);
            bytes[20..24].copy_from_slice(&len.to_be_bytes());
        }
        5 => {
            let len = random.pick(&[largest, largest - 1, header.len as u32 + 1, 0, 1, 7]);
            bytes[20..24].copy_from_slice(&len.to_be_bytes());
        }
        6 => bytes[12..20].copy_from_slice(&random.sized(64).to_be_bytes()),
        7 => bytes[random.below(28)] ^= 1 << random.below(8),
        8 => {
            bytes[4..12].fill(0);
            bytes[20] ^= 0x80;
        }
        _ => bytes[24 + random.below(4)] ^= 1 << random.below(8),
    }
    if random.below(4) > 0 {
        bytes = sealed(&bytes[..HEADER_CRC]);
    }
    bytes
}

/// A call that walks: a removal of some, or an add or growth for which there is no room.
fn walk_over(writer: &mut Writer, random: &mut Random) {
    let now = writer.state();
    let line = match random.below(6) {
        0 | 1 => remove(1 + random.next() % u64::from(now.count).max(1)),
        2 => remove(u64::from(now.count).saturating_sub(1)),
        3 => grow(now.remaining() + 1 + random.next() % 300),
        _ => {
            let len = (now.remaining() + 1).saturating_sub(V2_ELEM_OVERHEAD) + random.next() % 3;
            add(&random.bytes(len as usize))
        }
    };
    writer.say(line);
}

/// Backlinks around the end of what a growth moves, and others, under a CRC that is right; then the
/// queue grows, is listed and goes on.
fn links_changed(writer: &mut Writer, random: &mut Random) {
    for _ in 0..8 {
        laid(writer, random);
        let now = writer.state();
        let end = (now.last.pos + now.last.span()) % now.ring_len();
        let links = [
            0,
            1,
            8191,
            8192,
            8193,
            V2_DATA_START + end - u64::from(end > 0),
            V2_DATA_START + end,
            V2_DATA_START + end + 1,
            now.file_len,
            u64::MAX,
        ];
        for header in writer.headers(20) {
            let mut bytes = header.bytes;
            let link = match random.below(3) {
                0 => header.backlink,
                _ => random.pick(&links),
            };
            bytes[12..20].copy_from_slice(&link.to_be_bytes());
            writer.poke_ring(header.pos, &sealed(&bytes[..HEADER_CRC]));
        }
        let room = writer.state().remaining();
        writer.say(match random.below(3) {
            0 => grow(room + 1),
            _ => add(&random.bytes((room + 1).saturating_sub(V2_ELEM_OVERHEAD) as usize)),
        });
        writer.say_all([iterate(), add(&[1, 2, 3]), iterate(), reopen(now.settings()), used()]);
    }
}

/// States as they are given, each clause of a sound one just kept and just broken; each call in each.
fn states_given(writer: &mut Writer, random: &mut Random) {
    for _ in 0..6 {
        laid(writer, random);
        let good = writer.state();
        let given = random.pick(&around(&good));
        let some = random.pick(&[0, 1, 2, u64::from(given.count).min(300), u64::MAX]);
        let too_long = (good.remaining() + 1).saturating_sub(V2_ELEM_OVERHEAD);
        let calls = [
            commit(),
            add(&random.bytes(9)),
            add(&random.bytes(too_long as usize)),
            remove(some),
            grow(good.remaining() + random.next() % 2),
            grow(good.remaining() + 1),
            clear(),
        ];
        for line in calls {
            writer.say_all([state(given), line]);
        }
    }
}

/// The state with each of its numbers at its limits.
fn around(good: &State) -> Vec<State> {
    let ring_len = good.ring_len();
    let mut states = Vec::new();
    for file_len in [0, V2_DATA_START - 1, V2_DATA_START, good.file_len - 1, good.file_len + 1] {
        states.push(State { file_len, ..*good });
    }
    for file_len in [IMAGE_LEN / 2, IMAGE_LEN / 2 + 1, IMAGE_LEN, IMAGE_LEN + 1, u64::MAX] {
        states.push(State { file_len, real_len: file_len.min(IMAGE_LEN), ..*good });
    }
    for real_len in [0, good.file_len - 1, good.file_len + 1, IMAGE_LEN, IMAGE_LEN + 1, u64::MAX] {
        states.push(State { real_len, ..*good });
    }
    for next_seq in [0, 1, LARGEST_I64 - 1, LARGEST_I64, LARGEST_I64 + 1, u64::MAX] {
        states.push(State { next_seq, ..*good });
    }
    for generation in [0, LARGEST_I64 - 2, LARGEST_I64 - 1, LARGEST_I64, LARGEST_I64 + 1, u64::MAX]
    {
        states.push(State { generation, ..*good });
    }
    let counts =
        [1, good.count - 1, good.count + 1, LARGEST_I32 as u32 - 2, LARGEST_I32 as u32 - 1];
    for count in counts.into_iter().chain([LARGEST_I32 as u32, LARGEST_I32 as u32 + 1]) {
        states.push(State { count, ..*good });
    }
    states.push(State { count: LARGEST_U32 as u32, ..*good });
    for pos in [0, good.first.pos + 1, ring_len - 1, ring_len, LARGEST_I64, u64::MAX] {
        states.push(State { first: Element { pos, ..good.first }, ..*good });
        states.push(State { last: Element { pos, ..good.last }, ..*good });
    }
    for len in [0, 1, ring_len - 44, ring_len - 43, LARGEST_I64, u64::MAX - 43, u64::MAX] {
        states.push(State { first: Element { len, ..good.first }, ..*good });
        states.push(State { last: Element { len, ..good.last }, ..*good });
    }
    let room = good.remaining();
    for len in [good.last.len + room, good.last.len + room + 1] {
        states.push(State { last: Element { len, ..good.last }, ..*good });
    }
    let empty = State { count: 0, first: NONE, last: NONE, ..*good };
    states.push(empty);
    for odd in [Element { pos: 1, ..NONE }, Element { len: 1, ..NONE }, Element { seq: 1, ..NONE }]
    {
        states.extend([State { first: odd, ..empty }, State { last: odd, ..empty }]);
    }
    states
}

/// Generations and next sequences just before their end, where growth makes one commit or two.
fn exhausted(writer: &mut Writer, random: &mut Random) {
    for _ in 0..6 {
        laid(writer, random);
        writer.say(overwrite(random.below(3) > 0));
        let now = writer.state();
        let near = [LARGEST_I64 - 3, LARGEST_I64 - 2, LARGEST_I64 - 1, LARGEST_I64];
        let given = match random.below(3) {
            0 => State { next_seq: random.pick(&near), ..now },
            _ => State { generation: random.pick(&near), ..now },
        };
        writer.say(state(given));
        if random.below(3) == 0 {
            let headers = writer.headers(20);
            let header = headers[random.below(headers.len())].clone();
            writer.poke_ring(header.pos, &spoiled(random, &header, now.ring_len()));
        }
        for _ in 0..6 {
            walk_over(writer, random);
        }
        writer.say_all([commit(), grow(writer.state().remaining()), remove(0), clear(), remove(1)]);
        writer.say_all([add(&[]), commit(), reopen(now.settings()), iterate()]);
    }
    let settings = Settings { capacity: V2_DATA_START, overwrite: true };
    for len in [V2_DATA_START - 1, V2_DATA_START, IMAGE_LEN, IMAGE_LEN + 1, LARGEST_I64 + 1] {
        writer.say(fresh(len, settings));
    }
    writer.say_all([add(&[]), clear(), add(&[0; 30]), used()]);
}
