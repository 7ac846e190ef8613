//! The part of the family `open` with files that are cut or lengthened: a real length below, at and
//! above what the slots need and what they say.

use queue_file::inside::header::{HeaderSlot, V2_DATA_START, V2_SLOT_LEN};

use super::lines::{extend, image, iterate, peek, recover, reopen, state, used};
use super::open::looked_at;
use super::trails::{rolled, Trail, SETTINGS};
use super::whole::{Change, Whole};
use super::Line;
use crate::image::IMAGE_LEN;
use crate::random::Random;
use crate::state::{Settings, State};

pub fn groups(random: &mut Random) -> Vec<Vec<Line>> {
    let images = [
        rolled(random, V2_DATA_START + 230, 160, &[0, 12, 3]),
        rolled(random, V2_DATA_START + 44, 0, &[0]),
        Trail::fresh(V2_DATA_START).whole(),
    ];
    let mut groups: Vec<Vec<Line>> = images.iter().map(cut_and_lengthened).collect();
    groups.extend(images.iter().map(images_cut));
    groups.extend(images.iter().map(extended));
    groups.push(settings(&images[0]));
    groups
}

/// Lengths around the end of each slot, the start of the ring, and the file length.
fn lengths(file_len: u64) -> Vec<u64> {
    let ends = [HeaderSlot::A, HeaderSlot::B].map(|slot| slot.offset() + V2_SLOT_LEN as u64);
    let borders = [ends[0], HeaderSlot::B.offset(), ends[1], V2_DATA_START, file_len];
    let around = |border: &u64| [border - 1, *border, border + 1];
    let mut lengths: Vec<u64> = borders.iter().flat_map(around).collect();
    lengths.extend([0, 1, file_len + 1000, IMAGE_LEN - 1, IMAGE_LEN]);
    lengths.sort_unstable();
    lengths.dedup();
    lengths
}

/// The slots as they are, exchanged, and each with none in the other's place.
fn slot_pairs(whole: &Whole) -> Vec<Change> {
    let slots = [HeaderSlot::A, HeaderSlot::B].map(|slot| slot.offset());
    let [a, b] = slots.map(|offset| {
        let begin = offset as usize;
        whole.bytes[begin..begin + V2_SLOT_LEN].to_vec()
    });
    let none = vec![0; V2_SLOT_LEN];
    let pairs =
        [(&a, &b), (&b, &a), (&a, &none), (&none, &a), (&none, &b), (&b, &none), (&none, &none)];
    let laid = |(a, b): (&Vec<u8>, &Vec<u8>)| Change::at(slots[0], a).and(Change::at(slots[1], b));
    pairs.map(laid).to_vec()
}

/// The real length is a number of the state, so that the bytes beyond it are still there.
fn cut_and_lengthened(whole: &Whole) -> Vec<Line> {
    let mut lines = vec![whole.laid()];
    let beyond = [IMAGE_LEN + 1, i64::MAX as u64, i64::MAX as u64 + 1, u64::MAX];
    for pair in slot_pairs(whole) {
        lines.extend(pair.done());
        for real_len in lengths(whole.state.file_len).into_iter().chain(beyond) {
            lines.push(state(State { real_len, ..whole.state }));
            lines.extend([reopen(SETTINGS), used(), peek()]);
        }
    }
    lines
}

/// As whole lines, behind which there is no state where the opening is refused.
fn images_cut(whole: &Whole) -> Vec<Line> {
    let mut lines = Vec::new();
    for len in lengths(whole.state.file_len) {
        let mut bytes = whole.bytes.clone();
        bytes.resize(len.min(whole.state.file_len + 1000) as usize, 0xa5);
        lines.push(image(&bytes, SETTINGS));
        lines.extend([iterate(), used()]);
    }
    lines
}

/// Lengthened step by step; the ring stays as long as the slot says.
fn extended(whole: &Whole) -> Vec<Line> {
    let mut lines = vec![whole.laid()];
    for len in [0, 1, 44, 4000] {
        lines.push(extend(len));
        lines.extend(looked_at());
        lines.push(used());
        let State { last, count, .. } = whole.state;
        lines.push(recover(last.pos, last.seq, count));
    }
    lines
}

/// Opening keeps what is set, and nothing else depends on it.
fn settings(whole: &Whole) -> Vec<Line> {
    let mut lines = vec![whole.laid()];
    for capacity in [V2_DATA_START, V2_DATA_START + 1, 20_000, i64::MAX as u64, u64::MAX] {
        for overwrite in [false, true] {
            lines.push(image(&whole.bytes, Settings { capacity, overwrite }));
            lines.push(reopen(Settings { capacity, overwrite: !overwrite }));
            lines.push(iterate());
        }
    }
    lines
}
