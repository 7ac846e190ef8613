//! The family `open`: whole trails at each of their steps, slots damaged and exchanged, and files cut
//! and lengthened.

use super::lines::{iterate, peek, reopen};
use super::trails::SETTINGS;
use super::whole::{Change, Whole};
use super::{open_lengths, open_slots, open_trails, packed_groups, Line, Script};
use crate::random::Random;

/// An iteration over a ring that is full of elements goes on for as long as the count says, so no
/// larger count is iterated.
pub const LARGEST_ITERATED: u64 = 64;

pub fn scripts(random: &mut Random) -> Vec<Script> {
    let mut groups = open_trails::groups(random);
    groups.extend(open_slots::groups(random));
    groups.extend(open_lengths::groups(random));
    packed_groups(&[], groups)
}

/// The image opened again, its elements, and its first payload.
pub fn looked_at() -> [Line; 3] {
    [reopen(SETTINGS), iterate(), peek()]
}

/// The changes made to the image one by one, each undone before the next; a state that a change led
/// to stays until another opens, as it would in a queue that is in use.
pub fn each_changed(whole: &Whole, changes: impl IntoIterator<Item = Change>) -> Vec<Line> {
    let mut lines = Vec::new();
    for change in changes {
        lines.extend(change.done());
        lines.extend(looked_at());
        lines.extend(change.undone(whole));
    }
    lines
}
