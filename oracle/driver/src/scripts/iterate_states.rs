//! The part of the family `iterate` with cursors and states as they are given: steps at every place
//! and index, peeks at elements that no opening found, and states that do not fit their image.

use queue_file::inside::header::V2_DATA_START;

use super::limits::{LARGEST_I32, LARGEST_I64, LARGEST_U32};
use super::lines::{
    capacity, iterate, overwrite, peek, peek_into, poke, recover, reopen, state, step, used,
};
use super::trails::{rolled, SETTINGS};
use super::whole::{Placed, Whole};
use super::Line;
use crate::image::IMAGE_LEN;
use crate::language::OUTPUT_LIMIT;
use crate::random::Random;
use crate::state::{Element, State};

const OUTPUT: u64 = OUTPUT_LIMIT as u64;

pub fn groups(random: &mut Random) -> Vec<Vec<Line>> {
    let images = [
        rolled(random, V2_DATA_START + 230, 0, &[9, 0, 30]),
        rolled(random, V2_DATA_START + 230, 160, &[0, 12, 3]),
        rolled(random, V2_DATA_START + 120, 100, &[20]),
    ];
    let mut groups = Vec::new();
    for whole in &images {
        groups.push(stepped_through(whole));
        groups.push(steps_everywhere(whole));
        groups.push(peeks_everywhere(whole));
        groups.push(used_everywhere(random, whole));
        groups.push(unsound(whole));
    }
    groups.push(settings_changed(&images[1]));
    groups
}

/// From each element to the next, with outputs that are too small, just large enough and larger; the
/// same element again behind a refusal.
fn stepped_through(whole: &Whole) -> Vec<Line> {
    let count = whole.elements.len() as u64;
    let mut lines = vec![whole.laid()];
    for (nth, element) in (0..).zip(&whole.elements) {
        for len in [element.len().saturating_sub(1), element.len(), element.len() + 1, OUTPUT] {
            for index in [nth, 0, count - 1, count, count + 1, LARGEST_U32, u64::MAX] {
                lines.push(step(index, element.pos, len));
            }
        }
        // A footer that fails, and then is right again.
        let spoiled = whole.ring_changed(element.footer_pos() + 12, &[0; 4]);
        lines.extend(spoiled.done());
        lines.push(step(nth, element.pos, OUTPUT));
        lines.extend(spoiled.undone(whole));
        lines.push(step(nth, element.pos, OUTPUT));
    }
    lines
}

fn steps_everywhere(whole: &Whole) -> Vec<Line> {
    let count = whole.elements.len() as u64;
    let mut lines = vec![whole.laid()];
    for place in (0..whole.ring_len() + 2).chain([LARGEST_I64, u64::MAX]) {
        for index in [0, count - 1, count] {
            lines.push(step(index, place, 100));
        }
    }
    lines
}

/// First at every place of the ring, with lengths around the right one: the state alone decides.
fn peeks_everywhere(whole: &Whole) -> Vec<Line> {
    let mut lines = vec![whole.laid()];
    let given = |first: Element| State { first, last: first, count: 1, ..whole.state };
    for pos in 0..whole.ring_len() {
        lines.push(state(given(Element { pos, len: 0, seq: 1 })));
        lines.extend([peek(), used()]);
    }
    for element in &whole.elements {
        for len in [element.len().saturating_sub(1), element.len(), element.len() + 1] {
            for seq in [0, element.seq, element.seq + 1, u64::MAX] {
                lines.push(state(given(Element { pos: element.pos, len, seq })));
                lines.extend([peek(), peek_into(len), iterate()]);
            }
        }
        // The payload changed, if there is one, else the CRC.
        let place = element.footer_pos() - 1 + if element.len() == 0 { 13 } else { 0 };
        let change = whole.ring_changed(place, &[whole.read(place, 1)[0] ^ 1]);
        let Placed { pos, seq, .. } = *element;
        lines.extend(change.done());
        lines.push(state(given(Element { pos, len: element.len(), seq })));
        lines.extend([peek(), peek_into(element.len())]);
        lines.extend(change.undone(whole));
    }
    lines
}

/// First and last at random places: used bytes go from the one to the other, round the end.
fn used_everywhere(random: &mut Random, whole: &Whole) -> Vec<Line> {
    let mut lines = vec![whole.laid()];
    for _ in 0..300 {
        let ring_len = whole.ring_len();
        let mut element = || Element {
            pos: random.next() % (ring_len + 1),
            len: random.sized(8),
            seq: random.sized(64),
        };
        let (first, last) = (element(), element());
        let count = 1 + random.below(4) as u32;
        lines.push(state(State { first, last, count, ..whole.state }));
        lines.extend([used(), peek(), iterate()]);
    }
    lines
}

/// Each clause broken by one, and just kept.
fn unsound(whole: &Whole) -> Vec<Line> {
    let good = whole.state;
    let ring_len = whole.ring_len();
    let mut states = Vec::new();
    for file_len in
        [0, V2_DATA_START - 1, V2_DATA_START, good.file_len - 1, good.file_len + 1, u64::MAX]
    {
        states.push(State { file_len, ..good });
    }
    for real_len in [0, good.file_len - 1, good.file_len + 1, IMAGE_LEN, IMAGE_LEN + 1, u64::MAX] {
        states.push(State { real_len, ..good });
    }
    for next_seq in [0, 1, LARGEST_I64, LARGEST_I64 + 1, u64::MAX] {
        states.push(State { next_seq, ..good });
    }
    for generation in [0, LARGEST_I64, LARGEST_I64 + 1, u64::MAX] {
        states.push(State { generation, ..good });
    }
    for count in [0, 1, LARGEST_I32 as u32 + 1, LARGEST_U32 as u32] {
        states.push(State { count, ..good });
    }
    for pos in [ring_len - 1, ring_len, LARGEST_I64, u64::MAX] {
        states.push(State { first: Element { pos, ..good.first }, ..good });
        states.push(State { last: Element { pos, ..good.last }, ..good });
    }
    for len in [ring_len - 44, ring_len - 43, LARGEST_I64, u64::MAX - 43, u64::MAX] {
        states.push(State { first: Element { len, ..good.first }, ..good });
        states.push(State { last: Element { len, ..good.last }, ..good });
    }
    let none = Element { pos: 0, len: 0, seq: 0 };
    let empty = State { count: 0, first: none, last: none, ..good };
    states.push(empty);
    for odd in [Element { pos: 1, ..none }, Element { len: 1, ..none }, Element { seq: 1, ..none }]
    {
        states.push(State { first: odd, ..empty });
        states.push(State { last: odd, ..empty });
    }
    let mut lines = vec![whole.laid()];
    for given in states {
        lines.push(state(given));
        lines.extend([used(), peek(), peek_into(0), peek_into(OUTPUT), iterate()]);
        lines.extend([step(0, given.first.pos, OUTPUT), step(u64::MAX, u64::MAX, 0)]);
        lines.push(recover(good.last.pos, good.last.seq, good.count));
        lines.push(reopen(SETTINGS));
    }
    lines
}

/// The settings change by themselves; nothing that reads depends on them.
fn settings_changed(whole: &Whole) -> Vec<Line> {
    let mut lines = vec![whole.laid()];
    for set in [V2_DATA_START, V2_DATA_START + 1, 20_000, LARGEST_I64, u64::MAX] {
        lines.extend([capacity(set), iterate(), overwrite(false), peek(), overwrite(true), used()]);
        lines.extend([reopen(SETTINGS), poke(0, &[]), capacity(set)]);
    }
    lines
}
