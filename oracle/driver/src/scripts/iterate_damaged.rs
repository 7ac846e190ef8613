//! The part of the family `iterate` with damaged elements: every bit of them, every field under a
//! CRC that is right, lengths that run over the next element, and payloads of many lengths.

use queue_file::inside::header::V2_DATA_START;

use super::layouts::{
    element_header, flipped, footer, sealed, sealed_footer, slot, with, FOOTER_CRC, HEADER_CRC,
};
use super::lines::{iterate, peek, peek_into, reopen, step, used};
use super::open::looked_at;
use super::trails::{rolled, Trail, LEAST_SPAN, SETTINGS};
use super::whole::{Change, Placed, Whole};
use super::Line;
use crate::language::OUTPUT_LIMIT;
use crate::random::Random;

pub fn groups(random: &mut Random) -> Vec<Vec<Line>> {
    let mut groups = Vec::new();
    for whole in [
        rolled(random, V2_DATA_START + 230, 0, &[9, 0, 30]),
        rolled(random, V2_DATA_START + 230, 160, &[0, 12, 3]),
        rolled(random, V2_DATA_START + 200, 185, &[2, 1, 6]),
        rolled(random, V2_DATA_START + 140, 100, &[17, 4]),
        rolled(random, V2_DATA_START + 250, 140, &[0, 5, 2, 1]),
    ] {
        groups.push(bits_flipped(&whole));
        groups.push(fields_changed(random, &whole));
        groups.push(lengths_changed(random, &whole));
    }
    groups.push(a_full_ring(random));
    groups.extend(payload_lengths(random));
    groups
}

/// A change to bytes of the element at this place.
type Damage = (u64, Change);

/// Each made by itself and undone: the image opened again, its elements, its first payload, and a
/// step at the element.
fn each_damaged(whole: &Whole, damages: impl IntoIterator<Item = Damage>) -> Vec<Line> {
    let mut lines = vec![whole.laid()];
    for (pos, change) in damages {
        lines.extend(change.done());
        lines.extend(looked_at());
        lines.push(step(0, pos, OUTPUT_LIMIT as u64));
        lines.extend(change.undone(whole));
    }
    lines
}

fn bits_flipped(whole: &Whole) -> Vec<Line> {
    let damages = whole.elements.iter().flat_map(|element| {
        let good = element.encoded();
        (0..8 * good.len()).map(move |bit| {
            let byte = flipped(&good, bit)[bit / 8];
            (element.pos, whole.ring_changed(element.pos + bit as u64 / 8, &[byte]))
        })
    });
    each_damaged(whole, damages)
}

/// Header and footer with each bit of their fields changed, the CRC mended; the footer of another
/// sequence, of another payload, and of a header with another sequence; no header, and no footer.
fn fields_changed(random: &mut Random, whole: &Whole) -> Vec<Line> {
    let mut damages = Vec::new();
    for element in &whole.elements {
        let Placed { pos, seq, backlink, ref payload } = *element;
        let footer_pos = element.footer_pos();
        let mut at = |place, bytes: &[u8]| damages.push((pos, whole.ring_changed(place, bytes)));
        let header = element_header(seq, backlink, payload.len() as u32);
        for bit in 0..8 * HEADER_CRC {
            at(pos, &sealed(&flipped(&header, bit)[..HEADER_CRC]));
        }
        let good = footer(seq, payload);
        for bit in 0..8 * FOOTER_CRC {
            at(footer_pos, &sealed_footer(&flipped(&good, bit)[..FOOTER_CRC], payload));
        }
        for seq in [0, seq - 1, seq + 1, u64::MAX] {
            at(footer_pos, &footer(seq, payload));
            at(pos, &Placed { seq, ..element.clone() }.encoded());
        }
        at(footer_pos, &footer(seq, &random.bytes(payload.len() + 1)));
        at(pos, &[0; 28]);
        at(footer_pos, &[0; 16]);
    }
    each_damaged(whole, damages)
}

/// Elements that are whole with another length, however much of the ring they take, and headers of
/// such lengths alone.
fn lengths_changed(random: &mut Random, whole: &Whole) -> Vec<Line> {
    let longest = (whole.ring_len() - LEAST_SPAN) as usize;
    let mut damages = Vec::new();
    for element in &whole.elements {
        let Placed { pos, seq, backlink, ref payload } = *element;
        let len = payload.len();
        let mut at = |bytes: &[u8]| damages.push((pos, whole.ring_changed(pos, bytes)));
        for len in [0, len.saturating_sub(1), len + 1, len + 44, longest - 1, longest, longest + 1]
        {
            let encoded = Placed { payload: random.bytes(len), ..element.clone() }.encoded();
            at(&encoded[..encoded.len().min(whole.ring_len() as usize)]);
            at(&element_header(seq, backlink, len as u32));
        }
    }
    each_damaged(whole, damages)
}

/// Rings without a byte to spare, at counts that go round them more than once.
fn a_full_ring(random: &mut Random) -> Vec<Line> {
    let mut lines = Vec::new();
    for (capacity, to, lens) in [(44, 0, vec![0]), (100, 0, vec![56]), (150, 50, vec![6, 12])] {
        let whole = rolled(random, V2_DATA_START + capacity, to, &lens);
        lines.push(whole.laid());
        lines.extend([iterate(), peek(), used()]);
        for count in [1, 2, 5, 20] {
            let fields = with(whole.slot_fields(), 1, count);
            lines.extend(whole.slot_changed(&slot(fields)).done());
            lines.extend([reopen(SETTINGS), iterate(), peek(), used()]);
        }
    }
    lines
}

/// Whole images with one payload of each length, and a second element behind it.
fn payload_lengths(random: &mut Random) -> Vec<Vec<Line>> {
    let mut lines = Vec::new();
    for len in (0..=200).step_by(3).chain([255, 256, 1000]) {
        let mut trail = Trail::fresh(V2_DATA_START + 1200);
        trail.add(&random.bytes(len));
        trail.add(b"behind it");
        lines.push(read(&trail.whole()));
    }
    for len in [4096, 65_535, 65_536, 65_537, 100_000] {
        let trail = Trail::of(random, V2_DATA_START + 100_500, &[len, 9]);
        lines.push(read(&trail.whole()));
        let across = rolled(random, V2_DATA_START + 100_600, 100_000 - len as u64 / 2, &[len, 9]);
        lines.push(read(&across));
    }
    lines
}

fn read(whole: &Whole) -> Vec<Line> {
    let len = whole.state.first.len;
    let mut lines = vec![whole.laid(), iterate(), peek(), used()];
    let lens = [len.saturating_sub(1), len, len + 1].into_iter().filter(|len| *len <= 65_536);
    lines.extend(lens.map(peek_into));
    lines
}
