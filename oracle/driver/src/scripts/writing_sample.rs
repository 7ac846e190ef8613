//! The part of the sample that shows a queue written: every operation, every kind of growth, removal
//! and clear, and every refusal that the upstream code has too.

use queue_file::inside::format::V2_ELEM_OVERHEAD;
use queue_file::inside::header::V2_DATA_START;

use super::layouts::{element_header, sealed, HEADER_CRC};
use super::limits::{LARGEST_I32, LARGEST_I64};
use super::lines::{
    add, capacity, clear, commit, extend, fresh, grow, grow_length, iterate, overwrite, peek,
    remove, reopen, state, used,
};
use super::writer::Writer;
use super::{damage, write, Line};
use crate::answer::answered;
use crate::language::SKIP;
use crate::random::Random;
use crate::run::Run;
use crate::state::{Settings, State};

const OVERWRITING: Settings = Settings { capacity: V2_DATA_START, overwrite: true };
const KEEPING: Settings = Settings { capacity: V2_DATA_START, overwrite: false };
/// The longest line that is taken from the families.
const LONGEST_LINE: usize = 300;

/// The worked example, whose listing is known.
pub fn worked() -> Vec<Line> {
    vec![fresh(8292, OVERWRITING), add(&[]), add(&[]), remove(1), add(&[]), add(&[]), iterate()]
}

/// The script of the one known fault of the upstream code, which is mended here.
pub fn lost_element() -> Vec<Line> {
    let settings = Settings { capacity: 8381, overwrite: false };
    let mut lines = vec![fresh(8398, settings), add(&[]), add(&[0xab; 60]), add(&[]), remove(2)];
    lines.extend([add(&[1, 2, 3, 4, 5, 6]), add(&[0xcd; 492]), iterate(), reopen(settings)]);
    lines
}

/// Fresh images, and the first element in each.
pub fn begun() -> Vec<Line> {
    let mut lines = Vec::new();
    for len in [8192, 8193, 8235, 8236, 8237, 16384] {
        lines.extend([fresh(len, OVERWRITING), used(), peek(), add(&[7]), iterate(), clear()]);
    }
    lines.extend([fresh(262_144, KEEPING), add(&[1, 2, 3]), grow(253_905), used()]);
    lines
}

/// Growths that wrap or do not, overwriting or not, by an add and by themselves.
pub fn growths() -> Vec<Line> {
    let across = || vec![add(&[]), add(&[]), remove(1), add(&[])];
    let before_first = || [across(), vec![remove(1), add(&[])]].concat();
    let kinds: [(u64, Vec<Line>); 8] = [
        (8192, vec![]),
        (8292, vec![add(&[1])]),
        (8292, across()),
        (8292, before_first()),
        (8280, vec![add(&[]), add(&[])]),
        (8324, vec![add(&[]), add(&[]), add(&[]), remove(1)]),
        (8292, [across(), vec![extend(20_000)]].concat()),
        (8292, [before_first(), vec![extend(50)]].concat()),
    ];
    let mut lines = Vec::new();
    for (len, queue) in kinds {
        for settings in [OVERWRITING, KEEPING] {
            lines.push(fresh(len, settings));
            lines.extend(queue.clone());
            lines.extend([add(&[9; 60]), iterate(), reopen(settings), peek(), used()]);
        }
        lines.push(fresh(len, OVERWRITING));
        lines.extend(queue);
        lines.extend([grow(104), add(&[5]), iterate()]);
    }
    lines
}

/// Spans around what remains, and what one doubling leaves.
pub fn spans() -> Vec<Line> {
    let mut lines = Vec::new();
    for span in [0, 55, 56, 57, 8348, 8349, 24_932, 24_933] {
        lines.extend([fresh(8292, OVERWRITING), add(&[]), grow(span)]);
    }
    lines
}

pub fn lengths() -> Vec<Line> {
    let half = 1 << 62;
    [
        [8192, 0, 44],
        [8192, 0, 8192],
        [8192, 0, 8193],
        [8192, 8193, 8193],
        [8292, 99, 100],
        [0, 1, 1],
        [0, 0, 0],
        [1, 0, half - 1],
        [half, 5, 5],
        [LARGEST_I64, u64::MAX, u64::MAX],
        [1, u64::MAX, u64::MAX],
    ]
    .map(|[len, remaining, span]| grow_length(len, remaining, span))
    .to_vec()
}

/// Removals of none, some and all, straight and across the end, overwriting or not.
pub fn removals() -> Vec<Line> {
    let mut lines = Vec::new();
    for settings in [OVERWRITING, Settings { capacity: 8500, overwrite: false }] {
        for n in [0, 1, 2, 3, u64::MAX] {
            lines.push(fresh(8392, settings));
            // From place 90 on across the end to 8.
            lines.extend([add(&[1; 46]), add(&[2]), remove(1), add(&[3; 2]), add(&[])]);
            lines.extend([remove(n), iterate(), used()]);
        }
        lines.extend([remove(1), remove(0), remove(u64::MAX), reopen(settings)]);
    }
    lines
}

/// Clears that cut, do not, and find nothing; what a cut file opens as.
pub fn clears() -> Vec<Line> {
    let mut lines = Vec::new();
    for set in [8192, 8291, 8292, u64::MAX] {
        for flag in [true, false] {
            let settings = Settings { capacity: set, overwrite: flag };
            lines.extend([fresh(8292, settings), add(&[1, 2]), extend(30), clear()]);
            lines.extend([reopen(settings), clear(), commit(), reopen(settings)]);
        }
    }
    lines.extend([fresh(8192, OVERWRITING), add(&[1]), remove(1), reopen(OVERWRITING)]);
    lines.extend([capacity(8200), add(&[1]), clear(), overwrite(false), add(&[1]), clear()]);
    lines
}

/// Commits, one after the other, and with counters near their end.
pub fn commits() -> Vec<Line> {
    let mut writer = Writer::new();
    writer.say_all([fresh(8292, KEEPING), commit(), commit(), add(&[1]), commit(), commit()]);
    writer.say_all([reopen(KEEPING), iterate()]);
    let now = writer.state();
    writer.say_all([state(State { generation: LARGEST_I64 - 1, ..now }), commit(), iterate()]);
    writer.say_all([remove(0), grow(1), reopen(KEEPING)]);
    writer.say_all([state(State { generation: LARGEST_I64 - 1, ..now }), add(&[2]), iterate()]);
    writer.say_all([state(State { next_seq: LARGEST_I64 - 1, ..now }), add(&[3]), iterate()]);
    writer.say_all([state(State { count: LARGEST_I32 as u32 - 1, ..now }), add(&[4])]);
    writer.say_all([state(State { count: LARGEST_I32 as u32 - 2, ..now }), add(&[]), remove(0)]);
    writer.taken()
}

/// Each refusal of a header, in a removal and in a growth that wraps, which changes nothing.
pub fn headers_refused() -> Vec<Line> {
    let mut writer = Writer::new();
    writer.say_all([fresh(8324, OVERWRITING), add(&[]), add(&[]), add(&[])]);
    writer.say_all([remove(1), add(&[]), iterate()]);
    let headers = writer.headers(3);
    let middle = headers[1].clone();
    let good = &middle.bytes[..HEADER_CRC];
    let mut magic = good.to_vec();
    magic[0] ^= 1;
    let mut crc = middle.bytes.to_vec();
    crc[27] ^= 1;
    let ring_len = writer.state().ring_len() as u32;
    let longest = ring_len - V2_ELEM_OVERHEAD as u32;
    for spoiled in [
        sealed(&magic),
        element_header(3, middle.backlink, 1 << 31),
        element_header(0, middle.backlink, 0),
        crc,
        element_header(3, middle.backlink, longest + 1),
    ] {
        writer.poke_ring(middle.pos, &spoiled);
        writer.say_all([remove(1), remove(2), iterate()]);
        // A span that the old ring does not hold but the new one would is passed over.
        if spoiled[20..24] != (longest + 1).to_be_bytes() {
            writer.say_all([add(&[]), grow(1)]);
        }
        writer.poke_ring(middle.pos, &middle.bytes);
    }
    writer.poke_ring(middle.pos, &element_header(3, middle.backlink, i32::MAX as u32));
    writer.say_all([add(&[]), grow(1)]);
    writer.poke_ring(middle.pos, &middle.bytes);
    writer.say_all([grow(1), iterate(), remove(2)]);
    writer.taken()
}

/// Backlinks around the end of what a growth moves.
pub fn backlinks() -> Vec<Line> {
    let mut writer = Writer::new();
    for link in [0, 1, 8191, 8192, 8223, 8224, 8225, 8292, u64::MAX] {
        // The last element ends at place 32.
        writer.say_all([fresh(8292, KEEPING), add(&[]), add(&[]), remove(1), add(&[])]);
        let headers = writer.headers(2);
        writer.poke_ring(headers[1].pos, &element_header(3, link, 0));
        writer.say_all([add(&[]), iterate()]);
    }
    writer.taken()
}

/// Lines of the families that write, but for long ones and what the upstream code has no answer to.
pub fn wandered() -> Vec<Line> {
    let random = &mut Random::new(5);
    let mut lines: Vec<Line> = write::groups(random, 1).flatten().take(90).collect();
    lines.extend(damage::groups(random, 1).flatten().take(60));
    lines.retain(|line| line.len() <= LONGEST_LINE);
    let mut run = Run::new(false);
    lines.retain(|line| answered(&mut run, line) != SKIP);
    lines
}
