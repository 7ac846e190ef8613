//! The part of the sample that shows a queue opened, recovered and read: the worked example as it is
//! and damaged, so that each answer occurs.

use super::layouts::{element_header, sealed, slot, with, HEADER_CRC};
use super::limits::LARGEST_I64;
use super::lines::{
    capacity, extend, image, iterate, overwrite, peek, peek_into, recover, reopen, state, step,
    used,
};
use super::trails::SETTINGS;
use super::whole::{Change, Placed, Whole};
use super::worked::{first_spoiled, footer_spoiled, of_another_run, worked_example};
use super::Line;
use crate::image::IMAGE_LEN;
use crate::language::OUTPUT_LIMIT;
use crate::state::{Settings, State};

const OUTPUT: u64 = OUTPUT_LIMIT as u64;

/// Images that are none: too short for a slot, and a slot that says more or less than there is.
pub fn refused_images() -> Vec<Line> {
    vec![
        image(&[], SETTINGS),
        image(&[0; 56], SETTINGS),
        image(&slot([8191, 0, 0, 0, 1, 1]), SETTINGS),
        image(&slot([8192, 0, 0, 0, 1, 1])[..55], SETTINGS),
        image(&slot([8192, 0, 0, 0, 1, 1]), SETTINGS),
        peek(),
    ]
}

/// The worked example, which the later parts change and put back.
pub fn opened() -> Vec<Line> {
    let whole = worked_example();
    let mut lines = vec![whole.laid(), iterate(), peek(), peek_into(0), peek_into(OUTPUT), used()];
    lines.extend([step(0, 44, 0), step(1, 88, OUTPUT), step(2, 132, 9), step(3, 176, 0)]);
    // Any index goes with any place, and the end is where the count is.
    lines.extend([step(2, 44, 0), step(0, 45, 0), step(3, u64::MAX, 0), step(u64::MAX, 0, 0)]);
    lines.extend([peek_into(OUTPUT + 1), step(0, 44, OUTPUT + 1)]);
    lines.extend([reopen(Settings { capacity: 20_000, overwrite: false }), reopen(SETTINGS)]);
    lines.extend([overwrite(false), capacity(LARGEST_I64), iterate(), reopen(SETTINGS)]);
    lines
}

/// Recovery by itself; the ring is of 8392 bytes, and a place is reduced for reading only.
pub fn recoveries() -> Vec<Line> {
    vec![
        recover(132, 4, 3),
        recover(132, 4, 1),
        recover(88, 3, 2),
        recover(8524, 4, 1),
        recover(132, 4, 0),
        recover(132, 4, 4),
        recover(132, 3, 1),
        recover(132, 0, 1),
        recover(131, 4, 1),
        recover(u64::MAX, 4, u32::MAX),
        b"recover 132 4 4294967296".to_vec(),
    ]
}

/// The elected slot changed under a CRC that is right, so that each check fails.
pub fn slots_changed() -> Vec<Line> {
    let whole = worked_example();
    let good = whole.slot_fields();
    let changed = |field, value| whole.slot_changed(&slot(with(good, field, value)));
    let no_slot = Change::at(0, &[0]).and(Change::at(4096, &[0]));
    let changes = [
        no_slot,
        changed(0, 8191),
        changed(0, 16585),
        changed(5, 0),
        changed(1, 0),
        changed(2, 0),
        changed(3, 8191),
        changed(2, 16584),
        changed(5, 6),
        // The other slot, which is older, and at equal generations slot A.
        changed(4, LARGEST_I64 + 1),
        changed(4, 5),
        // The first pointer at another element, whose sequence is not judged; a count too large.
        changed(2, 8324),
        changed(1, 4),
    ];
    let mut lines = Vec::new();
    for change in changes {
        lines.extend(change.done());
        lines.extend([reopen(SETTINGS), iterate(), peek(), used()]);
        lines.extend(change.undone(&whole));
        lines.push(reopen(SETTINGS));
    }
    lines
}

/// The last element's header changed under a CRC that is right, and once under one that is wrong.
pub fn headers_changed() -> Vec<Line> {
    let whole = worked_example();
    let last = whole.elements[2].clone();
    let good = element_header(last.seq, last.backlink, 0);
    let mut other_magic = good[..HEADER_CRC].to_vec();
    other_magic[3] ^= 1;
    let mut other_crc = good.clone();
    other_crc[27] ^= 1;
    let headers = [
        sealed(&other_magic),
        element_header(last.seq, last.backlink, 1 << 31),
        element_header(0, last.backlink, 0),
        other_crc,
        element_header(last.seq, last.backlink, 8349),
        element_header(last.seq, last.backlink, 8260),
        element_header(last.seq + 1, last.backlink, 0),
    ];
    let mut lines = Vec::new();
    for header in headers {
        lines.extend(damaged(&whole, whole.ring_changed(last.pos, &header)));
    }
    lines
}

/// Footers changed, the first element's and the second's.
pub fn footers_changed() -> Vec<Line> {
    let whole = worked_example();
    let mut lines = Vec::new();
    for element in &whole.elements[..2] {
        for byte in [0, 11, 15] {
            let place = element.footer_pos() + byte;
            let changed = whole.read(place, 1)[0] ^ 1;
            lines.extend(damaged(&whole, whole.ring_changed(place, &[changed])));
        }
    }
    lines.extend(damaged(&whole, footer_spoiled(&whole)));
    lines.extend(damaged(&whole, of_another_run(&whole)));
    lines
}

/// The first pointer spoiled, so that the head is found from the tail, or is not.
pub fn heads_recovered() -> Vec<Line> {
    let whole = worked_example();
    let middle = whole.elements[1].clone();
    let with_backlink = |backlink| Placed { backlink, ..middle.clone() }.encoded();
    let headers = [
        middle.encoded(),
        with_backlink(0),
        with_backlink(1),
        with_backlink(8191),
        with_backlink(8192),
        with_backlink(8280),
        with_backlink(u64::MAX),
        Placed { seq: middle.seq + 1, ..middle.clone() }.encoded(),
    ];
    let mut lines = Vec::new();
    for header in headers {
        let change = first_spoiled(&whole).and(whole.ring_changed(middle.pos, &header));
        lines.extend(damaged(&whole, change));
    }
    // The backlink of the nth element is not judged; a place beyond the ring is not reduced.
    let no_backlink = Placed { backlink: 0, ..whole.elements[0].clone() }.encoded();
    let change = first_spoiled(&whole).and(whole.ring_changed(44, &no_backlink));
    lines.extend(damaged(&whole, change));
    let beyond = with_backlink(8236 + whole.ring_len());
    let change = first_spoiled(&whole).and(whole.ring_changed(middle.pos, &beyond));
    lines.extend(change.done());
    lines.extend([reopen(SETTINGS), recover(132, 4, 3)]);
    lines.extend(change.undone(&whole));
    lines.push(reopen(SETTINGS));
    lines
}

/// Cut and lengthened, by the real length that the state has.
pub fn real_lengths() -> Vec<Line> {
    let whole = worked_example();
    let mut lines = Vec::new();
    for real_len in [0, 55, 56, 4151, 4152, 8192, 16583, 16584, IMAGE_LEN] {
        lines.extend([state(State { real_len, ..whole.state }), reopen(SETTINGS)]);
    }
    lines.extend([state(whole.state), extend(100), reopen(SETTINGS), iterate()]);
    lines
}

/// What the damaged image answers; then it is as before.
fn damaged(whole: &Whole, change: Change) -> Vec<Line> {
    let mut lines = change.done();
    lines.extend([reopen(SETTINGS), iterate(), peek(), peek_into(0), recover(132, 4, 3)]);
    lines.extend(whole.elements.iter().map(|element| step(0, element.pos, 8348)));
    lines.extend(change.undone(whole));
    lines.push(reopen(SETTINGS));
    lines
}
