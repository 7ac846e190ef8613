//! The family `write`: queues in small rings that every operation changes in turn, so that they go
//! round, grow in every way, and are cut again.

use queue_file::inside::format::V2_ELEM_OVERHEAD;
use queue_file::inside::header::{V2_DATA_START, V2_SLOT_LEN};

use super::limits::LARGEST_I64;
use super::lines::{
    add, capacity, clear, commit, extend, fresh, grow, image, iterate, overwrite, peek, poke,
    remove, reopen, state, used,
};
use super::trails::rolled;
use super::writer::Writer;
use super::{packed_groups, Line, Script};
use crate::random::Random;
use crate::state::{Settings, State};

/// How many groups a seed has, and how many lines a group has at least.
const GROUPS: usize = 1800;
const LINES: usize = 100;
/// The largest ring at the start of a group, and the longest file that is worked on further.
const LARGEST_RING: u64 = 600;
const LONGEST_FILE: u64 = 36_000;

pub fn scripts(random: &mut Random) -> Vec<Script> {
    packed_groups(&[], groups(random, GROUPS))
}

pub fn groups(random: &mut Random, times: usize) -> impl Iterator<Item = Vec<Line>> + '_ {
    let mut writer = Writer::new();
    (0..times).map(move |_| {
        begin(&mut writer, random);
        while writer.written() < LINES {
            go_on(&mut writer, random);
            if writer.state().file_len > LONGEST_FILE {
                begin(&mut writer, random);
            }
        }
        writer.taken()
    })
}

/// A fresh image or, now and then, one that is laid whole, or a state as it is given.
fn begin(writer: &mut Writer, random: &mut Random) {
    let ring_len = match random.below(8) {
        0 => 0,
        1 => 44 * (1 + random.next() % 4),
        _ => random.next() % (LARGEST_RING + 1),
    };
    let settings = settings(random, V2_DATA_START + ring_len);
    if random.below(25) == 0 {
        let to = random.pick(&[0, 44, 100, 180]);
        let lens = [random.below(30), random.below(30), random.below(30)];
        let whole = rolled(random, V2_DATA_START + 300, to, &lens);
        writer.say(image(&whole.bytes, settings));
        return;
    }
    writer.say(fresh(V2_DATA_START + ring_len, settings));
    if random.below(6) == 0 {
        let given = State {
            generation: random.sized(62),
            next_seq: 1 + random.sized(62),
            real_len: writer.state().real_len,
            ..writer.state()
        };
        writer.say(state(given));
    }
}

/// Set capacities around the file length, from 8192 on, and some far off.
fn settings(random: &mut Random, file_len: u64) -> Settings {
    Settings { capacity: a_capacity(random, file_len), overwrite: random.below(2) == 0 }
}

fn a_capacity(random: &mut Random, file_len: u64) -> u64 {
    let around = match random.below(8) {
        0 | 1 => V2_DATA_START + random.next() % (LARGEST_RING + 1),
        2 => file_len,
        3 => file_len + 1,
        4 => file_len - 1,
        5 => V2_DATA_START,
        6 => V2_DATA_START + 44 * (1 + random.next() % 6),
        _ => random.pick(&[20_000, 262_144, LARGEST_I64, u64::MAX]),
    };
    around.max(V2_DATA_START)
}

/// In a small ring the queue is mostly rolled on; a large one is mostly cut or left soon.
fn go_on(writer: &mut Writer, random: &mut Random) {
    let small = writer.state().ring_len() <= LARGEST_RING + 100;
    match random.below(12) {
        0..=6 if small => roll_on(writer, random),
        0 => {
            let cut = V2_DATA_START + 50 + random.next() % LARGEST_RING;
            writer.say_all([capacity(cut), clear()]);
        }
        1 if !small => begin(writer, random),
        _ => do_anything(writer, random),
    }
}

/// An element added where one fits, else some removed, and never all where there are several.
fn roll_on(writer: &mut Writer, random: &mut Random) {
    let now = writer.state();
    let len = random.below(30);
    let fits = now.remaining() >= len as u64 + V2_ELEM_OVERHEAD;
    let line = match now.count {
        0 | 1 if fits => add(&random.bytes(len)),
        _ if fits && random.below(4) > 0 => add(&random.bytes(len)),
        0 | 1 => commit(),
        count => remove(1 + random.below(count as usize - 1) as u64),
    };
    writer.say(line);
}

fn do_anything(writer: &mut Writer, random: &mut Random) {
    let now = writer.state();
    let line = match random.below(100) {
        0..=41 => add(&payload(random, &now)),
        42..=62 => remove(a_number(random, &now)),
        63..=64 => clear(),
        65..=69 => commit(),
        70..=76 => grow(a_span(random, &now)),
        77..=79 => reopen(settings(random, now.file_len)),
        80..=85 => iterate(),
        86..=88 => peek(),
        89..=90 => used(),
        91..=94 => overwrite(random.below(2) == 0),
        95..=96 => capacity(a_capacity(random, now.file_len)),
        97..=98 => extend(an_extension(random, &now)),
        _ => return poke_unused(writer, random),
    };
    writer.say(line);
}

/// Mostly short, often just fitting or just not; now and then long.
fn payload(random: &mut Random, now: &State) -> Vec<u8> {
    let room = now.remaining().saturating_sub(V2_ELEM_OVERHEAD).min(700);
    let len = match random.below(400) {
        0..=219 => random.below(40),
        220..=299 => random.below(130),
        300..=319 => random.below(600),
        320..=359 => room as usize,
        360..=379 => room as usize + 1,
        380..=397 => 0,
        _ => random.below(20_001),
    };
    random.bytes(len)
}

fn a_number(random: &mut Random, now: &State) -> u64 {
    let count = u64::from(now.count);
    match random.below(40) {
        0..=2 => 0,
        3..=23 => 1.min(count.saturating_sub(1)),
        24..=27 => 1,
        28..=32 => random.next() % (count + 1),
        33..=36 => count.saturating_sub(1),
        37 => count,
        38 => count + 1 + random.sized(10),
        _ => u64::MAX,
    }
}

fn a_span(random: &mut Random, now: &State) -> u64 {
    let (room, len) = (now.remaining(), now.file_len);
    match random.below(14) {
        0 => 0,
        1 => room.saturating_sub(1),
        2 | 3 => room,
        4..=7 => room + 1,
        8 => room + len,
        9 => room + len + 1,
        10 => room + random.next() % 500,
        11 => random.next() % 20_000,
        12 => room + 3 * len,
        _ => random.pick(&[300_000, 1 << 20, LARGEST_I64, LARGEST_I64 + 1, u64::MAX]),
    }
}

/// A few bytes, or so many that a growth cuts the file.
fn an_extension(random: &mut Random, now: &State) -> u64 {
    match random.below(3) {
        0 => random.next() % 40,
        1 => now.file_len + random.next() % 300,
        _ => random.next() % 600,
    }
}

/// Bytes that no slot and no element has: between the slots, or behind last in the ring.
fn poke_unused(writer: &mut Writer, random: &mut Random) {
    let now = writer.state();
    let len = 1 + random.below(12);
    if now.count > 0 && now.remaining() > len as u64 {
        let behind =
            now.last.pos + now.last.span() + random.next() % (now.remaining() - len as u64);
        writer.poke_ring(behind, &random.bytes(len));
    } else {
        let gap = V2_SLOT_LEN + random.below(4096 - V2_SLOT_LEN - len);
        writer.say(poke(gap as u64 + random.pick(&[0, 4096]), &random.bytes(len)));
    }
}
