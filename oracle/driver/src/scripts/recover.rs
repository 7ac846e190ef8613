//! The family `recover`: first pointers that lead to no element, so that the head is found from the
//! tail by backlinks, with headers on the way damaged; and recovery asked for by itself.

use std::collections::BTreeSet;

use queue_file::inside::header::V2_DATA_START;

use super::layouts::{element_header, sealed, slot, with, HEADER_CRC};
use super::limits::{LARGEST_I64, LARGEST_U32};
use super::lines::{image, iterate, recover, reopen, state, used};
use super::open::looked_at;
use super::trails::{rolled, Trail, SETTINGS};
use super::whole::{Change, Placed, Whole};
use super::{packed_groups, Line, Script};
use crate::image::IMAGE_LEN;
use crate::random::Random;
use crate::state::State;

const COUNT: usize = 1;
const FIRST: usize = 2;

pub fn scripts(random: &mut Random) -> Vec<Script> {
    let mut groups = Vec::new();
    for whole in images(random) {
        groups.push(first_everywhere(&whole));
        groups.extend(headers_damaged(&whole));
        groups.push(asked_for(random, &whole));
        groups.push(spliced(random, &whole));
    }
    groups.extend(laid_as_images(random));
    groups.push(without_a_ring(random));
    packed_groups(&[], groups)
}

/// Queues of one to six elements that go straight, go across the ring's end, or have removed ones
/// before them.
fn images(random: &mut Random) -> Vec<Whole> {
    let at = |capacity: u64| V2_DATA_START + capacity;
    vec![
        rolled(random, at(120), 0, &[20]),
        rolled(random, at(120), 100, &[20]),
        rolled(random, at(150), 60, &[0, 7]),
        rolled(random, at(230), 0, &[9, 0, 30]),
        rolled(random, at(230), 160, &[0, 12, 3]),
        rolled(random, at(230), 190, &[0, 12, 3]),
        rolled(random, at(230), 215, &[5, 1, 0]),
        rolled(random, at(311), 200, &[0, 1, 2, 3, 4]),
        rolled(random, at(311), 290, &[4, 3, 0, 1]),
        rolled(random, at(270), 0, &[0; 6]),
        of_last_sequences(at(300)),
    ]
}

/// Six elements whose sequences are the last ones but a few that a slot can count.
fn of_last_sequences(file_len: u64) -> Whole {
    let mut trail = Trail::beginning_at(file_len, LARGEST_I64 - 8);
    for _ in 0..6 {
        trail.add(&[]);
    }
    trail.whole()
}

/// The elected slot with its first pointer and its count replaced.
fn slot_with(whole: &Whole, first: u64, count: u64) -> Change {
    let fields = with(with(whole.slot_fields(), FIRST, first), COUNT, count);
    whole.slot_changed(&slot(fields))
}

/// A pointer to a place between the elements' first bytes, where no header is.
fn spoiled_first(whole: &Whole) -> u64 {
    whole.elements[0].phys() + 1
}

/// The first pointer at every place of the ring: at no element, at the right one, at another.
fn first_everywhere(whole: &Whole) -> Vec<Line> {
    let mut lines = vec![whole.laid()];
    let count = whole.elements.len() as u64;
    for first in V2_DATA_START - 1..=whole.state.file_len {
        lines.extend(slot_with(whole, first, count).done());
        lines.extend(looked_at());
    }
    for count in 0..count + 3 {
        lines.extend(slot_with(whole, spoiled_first(whole), count).done());
        lines.extend(looked_at());
        lines.push(used());
    }
    lines
}

/// Each element's header damaged in each way, with the first pointer spoiled and counts that end the
/// walk before the damage, at it and behind it.
fn headers_damaged(whole: &Whole) -> Vec<Vec<Line>> {
    let n = whole.elements.len() as u64;
    let mut groups = Vec::new();
    for (nth, element) in whole.elements.iter().enumerate() {
        // The count with which the walk ends at this element.
        let up_to = n - nth as u64;
        let mut lines = vec![whole.laid()];
        for count in BTreeSet::from([up_to, n.min(up_to + 1), n]) {
            lines.extend(slot_with(whole, spoiled_first(whole), count).done());
            for header in damaged_headers(whole, element) {
                let change = whole.ring_changed(element.pos, &header);
                lines.extend(change.done());
                let last = whole.state.last;
                lines.extend([reopen(SETTINGS), iterate(), used()]);
                lines.push(recover(last.pos, last.seq, count as u32));
                lines.extend(change.undone(whole));
            }
        }
        groups.push(lines);
    }
    groups
}

/// The same as whole lines, behind which there is no state where the opening is refused.
fn laid_as_images(random: &mut Random) -> Vec<Vec<Line>> {
    let whole = rolled(random, V2_DATA_START + 150, 60, &[0, 7]);
    let spoiled = slot_with(&whole, spoiled_first(&whole), 2);
    let mut groups = Vec::new();
    for element in &whole.elements {
        for header in damaged_headers(&whole, element) {
            let change = spoiled.clone().and(whole.ring_changed(element.pos, &header));
            groups.push(vec![image(&change.applied(&whole), SETTINGS), iterate()]);
        }
    }
    groups
}

/// One field of the header changed under a CRC that is right; then a byte changed under the old one.
fn damaged_headers(whole: &Whole, element: &Placed) -> Vec<Vec<u8>> {
    let (seq, backlink, len) = (element.seq, element.backlink, element.payload.len() as u32);
    let mut headers = Vec::new();
    for seq in [0, 1, seq - 1, seq + 1, seq + 5, u64::MAX] {
        headers.push(element_header(seq, backlink, len));
    }
    for backlink in backlinks(whole, element) {
        headers.push(element_header(seq, backlink, len));
    }
    let longest = (whole.ring_len() - 44) as u32;
    for len in [0, len + 1, longest, longest + 1, i32::MAX as u32, 1 << 31, u32::MAX] {
        headers.push(element_header(seq, backlink, len));
    }
    let good = element_header(seq, backlink, len);
    for byte in [0, 3] {
        let mut front = good[..HEADER_CRC].to_vec();
        front[byte] ^= 1;
        headers.push(sealed(&front));
    }
    for byte in [0, 4, 11, 12, 19, 20, 23, 24, 27] {
        let mut header = good.clone();
        header[byte] ^= 1;
        headers.push(header);
    }
    headers
}

/// None, those below the ring, its ends, every element, and places beyond the ring that are reduced
/// to the right one: those next to the ring and the last ones that 64 bits hold.
fn backlinks(whole: &Whole, element: &Placed) -> Vec<u64> {
    let (start, end) = (V2_DATA_START, whole.state.file_len);
    let mut backlinks =
        vec![0, 1, start - 1, start, start + 1, end - 1, end, LARGEST_I64, u64::MAX];
    backlinks.extend(whole.elements.iter().map(Placed::phys));
    let right = element.backlink.max(start) - start;
    let ring_len = whole.ring_len();
    let furthest = (u64::MAX - start - right) / ring_len;
    for round in [1, 2, furthest - 1, furthest] {
        backlinks.push(start + right + round * ring_len);
    }
    backlinks
}

/// From every element, and from places beside, with right and wrong sequences and numbers.
fn asked_for(random: &mut Random, whole: &Whole) -> Vec<Line> {
    let n = whole.elements.len() as u32;
    let mut lines = vec![whole.laid()];
    for (nth, element) in (1..).zip(&whole.elements) {
        let ring_len = whole.ring_len();
        let furthest = (u64::MAX - element.pos) / ring_len;
        let places = [0, 1, 3, furthest].map(|round| element.pos + round * ring_len);
        for place in places {
            for seq in [element.seq, element.seq + 1, element.seq - 1, 0, u64::MAX] {
                for count in [0, 1, 2, nth, nth + 1, n + 2, LARGEST_U32 as u32] {
                    lines.push(recover(place, seq, count));
                }
            }
        }
    }
    for _ in 0..20 {
        lines.push(recover(random.sized(64), random.sized(64), random.sized(32) as u32));
    }
    lines
}

/// Elements of another run, with valid CRCs, in the place of one element and of all from one on.
fn spliced(random: &mut Random, whole: &Whole) -> Vec<Line> {
    let n = whole.elements.len() as u64;
    let mut lines = vec![whole.laid()];
    let other = |random: &mut Random, element: &Placed, seq: u64| Placed {
        seq,
        payload: random.bytes(element.payload.len()),
        ..element.clone()
    };
    for first in [whole.elements[0].phys(), spoiled_first(whole)] {
        lines.extend(slot_with(whole, first, n).done());
        for from in 0..whole.elements.len() {
            for to in [from + 1, whole.elements.len()] {
                for run in [1u64, 100, LARGEST_I64] {
                    let mut change = Change::default();
                    for element in &whole.elements[from..to] {
                        let seq = element.seq.wrapping_add(run);
                        let encoded = other(random, element, seq).encoded();
                        change = change.and(whole.ring_changed(element.pos, &encoded));
                    }
                    lines.extend(change.done());
                    lines.extend(looked_at());
                    lines.extend(change.undone(whole));
                }
            }
        }
    }
    lines
}

/// Any file length in the state: none or too long for a ring, and rings shorter than a header.
fn without_a_ring(random: &mut Random) -> Vec<Line> {
    let whole = rolled(random, V2_DATA_START + 120, 0, &[20]);
    let mut lines = vec![whole.laid()];
    let file_lens = [0, V2_DATA_START - 1, V2_DATA_START, IMAGE_LEN, IMAGE_LEN + 1, u64::MAX];
    let short = (1..=50).map(|capacity| V2_DATA_START + capacity);
    for file_len in file_lens.into_iter().chain(short) {
        lines.push(state(State { file_len, ..whole.state }));
        for n in [0, 1, 2] {
            lines.push(recover(0, 1, n));
        }
    }
    lines
}
