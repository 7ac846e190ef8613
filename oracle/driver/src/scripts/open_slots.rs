//! The part of the family `open` that damages slots: every bit, every field at its limits and two
//! fields at a time under a CRC that is right, and every pair of slots that a trail has had.

use queue_file::inside::header::{HeaderSlot, V2_DATA_START, V2_SLOT_LEN};

use super::layouts::{each_bit_flipped, flipped, sealed, slot, with, SLOT_CRC};
use super::limits::{combinations, LARGEST_I32, LARGEST_I64, LARGEST_U32};
use super::lines::{peek, reopen, used};
use super::open::{each_changed, looked_at, LARGEST_ITERATED};
use super::trails::{rolled, Trail, SETTINGS};
use super::whole::{Change, Whole};
use super::Line;
use crate::random::Random;

const COUNT: usize = 1;
const GENERATION: usize = 4;

pub fn groups(random: &mut Random) -> Vec<Vec<Line>> {
    let straight = rolled(random, V2_DATA_START + 230, 0, &[9, 0, 30]);
    let across = rolled(random, V2_DATA_START + 230, 160, &[0, 12, 3]);
    let single = rolled(random, V2_DATA_START + 100, 50, &[8]);
    let empty = Trail::fresh(V2_DATA_START + 60).whole();
    let mut groups = vec![
        bits_flipped(&straight),
        bits_flipped(&across),
        bits_flipped(&empty),
        bits_flipped_under_a_right_crc(&straight),
        bits_flipped_under_a_right_crc(&across),
        bits_flipped_under_a_right_crc(&single),
    ];
    for whole in [&straight, &across, &single, &empty] {
        groups.extend(fields_replaced(whole));
    }
    groups.push(slots_of_a_trail(random, V2_DATA_START + 150, 40));
    groups.push(slots_of_a_trail(random, V2_DATA_START + 400, 60));
    groups.push(generations(random));
    groups
}

/// Both slots; where the elected one fails, the other has an older state.
fn bits_flipped(whole: &Whole) -> Vec<Line> {
    let slots = [HeaderSlot::A, HeaderSlot::B].map(|slot| slot.offset() as usize);
    let changes = slots.iter().flat_map(|&offset| {
        let good = &whole.bytes[offset..offset + V2_SLOT_LEN];
        each_bit_flipped(good).map(move |bytes| Change::at(offset as u64, &bytes))
    });
    [vec![whole.laid()], each_changed(whole, changes)].concat()
}

fn bits_flipped_under_a_right_crc(whole: &Whole) -> Vec<Line> {
    let good = slot(whole.slot_fields());
    let slots = (0..8 * SLOT_CRC).map(|bit| sealed(&flipped(&good, bit)[..SLOT_CRC]));
    each_slot(whole, slots)
}

/// The elected slot replaced by each of these. A larger count than is iterated is only opened.
fn each_slot(whole: &Whole, slots: impl Iterator<Item = Vec<u8>>) -> Vec<Line> {
    let mut lines = vec![whole.laid()];
    for slot in slots {
        let change = whole.slot_changed(&slot);
        lines.extend(change.done());
        if is_iterated(&slot) {
            lines.extend(looked_at());
        } else {
            lines.extend([reopen(SETTINGS), peek(), used()]);
            lines.extend(change.undone(whole));
            lines.push(reopen(SETTINGS));
        }
    }
    lines
}

fn is_iterated(slot: &[u8]) -> bool {
    let count = u32::from_be_bytes([slot[16], slot[17], slot[18], slot[19]]);
    u64::from(count) <= LARGEST_ITERATED
}

/// Each field at each of its values, alone and with each value of another field.
fn fields_replaced(whole: &Whole) -> Vec<Vec<Line>> {
    let good = whole.slot_fields();
    let values: Vec<Vec<u64>> = (0..6).map(|field| field_values(whole, field)).collect();
    let mut groups = Vec::new();
    for one in 0..6 {
        let alone = values[one].iter().map(|value| slot(with(good, one, *value)));
        groups.push(each_slot(whole, alone));
        for other in one + 1..6 {
            let both = combinations([&values[one], &values[other]])
                .map(|[first, second]| slot(with(with(good, one, first), other, second)));
            groups.push(each_slot(whole, both));
        }
    }
    groups
}

/// Values at which an opening can change, in the order of the slot's fields.
fn field_values(whole: &Whole, field: usize) -> Vec<u64> {
    let [file_len, count, first, last, generation, next_seq] = whole.slot_fields();
    let mut values = match field {
        0 => vec![
            0,
            V2_DATA_START - 1,
            V2_DATA_START,
            V2_DATA_START + 44,
            file_len - 1,
            file_len + 1,
        ],
        COUNT => vec![0, 1, count + 1, count + 20, LARGEST_I32, LARGEST_I32 + 1, LARGEST_U32],
        2 => pointers(whole, last),
        3 => pointers(whole, first),
        GENERATION => {
            let other = generation.saturating_sub(1);
            vec![0, other, other.saturating_sub(1), LARGEST_I64]
        }
        _ => vec![0, 1, next_seq - 1, next_seq + 1, LARGEST_I64],
    };
    if field == 0 || field >= GENERATION {
        values.extend([LARGEST_I64 + 1, u64::MAX]);
    }
    values
}

/// Where a pointer is at its limits, at the other one, beside itself, and within an element.
fn pointers(whole: &Whole, other: u64) -> Vec<u64> {
    let end = whole.state.file_len;
    let mut pointers =
        vec![0, 1, V2_DATA_START - 1, V2_DATA_START, end - 1, end, LARGEST_I64, u64::MAX];
    pointers.extend([other, other + 1, other + 28]);
    pointers.extend(whole.elements.iter().map(|element| element.phys()));
    pointers.sort_unstable();
    pointers.dedup();
    pointers
}

/// Every slot that the trail has had, in either place, over the bytes that it has at its end; and
/// none.
fn slots_of_a_trail(random: &mut Random, file_len: u64, longest: usize) -> Vec<Line> {
    let mut trail = Trail::fresh(file_len);
    let mut slots = vec![vec![0; V2_SLOT_LEN]];
    for _ in 0..14 {
        trail.wander(random, longest);
        slots.push(slot(trail.whole().slot_fields()));
    }
    each_pair(&trail.whole(), &slots)
}

/// Slots of equal generations and of generations at their limits, with different states.
fn generations(random: &mut Random) -> Vec<Line> {
    let whole = rolled(random, V2_DATA_START + 230, 160, &[0, 12, 3]);
    let good = whole.slot_fields();
    let fewer = with(with(good, COUNT, 2), 2, whole.elements[1].phys());
    let mut slots = Vec::new();
    for generation in [0, 1, 2, LARGEST_I64 - 1, LARGEST_I64, LARGEST_I64 + 1] {
        slots.extend([good, fewer].map(|fields| slot(with(fields, GENERATION, generation))));
    }
    each_pair(&whole, &slots)
}

fn each_pair(whole: &Whole, slots: &[Vec<u8>]) -> Vec<Line> {
    let mut lines = vec![whole.laid()];
    for a in slots {
        for b in slots {
            let pair =
                Change::at(HeaderSlot::A.offset(), a).and(Change::at(HeaderSlot::B.offset(), b));
            lines.extend(pair.done());
            lines.extend(looked_at());
        }
    }
    lines
}
