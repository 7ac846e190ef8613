//! Whole images: trails of adds and removes that the upstream code itself makes over a scratch file.

use std::fs::File;
use std::os::unix::fs::FileExt;

use queue_file::inside::header::V2_DATA_START;
use queue_file::inside::queue::{self, Cursor};
use queue_file::inside::{format, Element};
use queue_file::QueueFile;

use super::layouts::slot;
use super::whole::{Placed, Whole};
use crate::random::Random;
use crate::scratch;
use crate::state::{Settings, State};

/// What every opening in the scripts sets, unless a line is about it.
pub const SETTINGS: Settings = Settings { capacity: V2_DATA_START, overwrite: true };

/// The least span of an element.
pub const LEAST_SPAN: u64 = format::V2_ELEM_OVERHEAD;

pub struct Trail {
    file: File,
    queue: QueueFile,
}

impl Trail {
    /// A fresh image of this length: slot A with generation 1, no element, next sequence 1.
    pub fn fresh(file_len: u64) -> Self {
        Self::beginning_at(file_len, 1)
    }

    /// The same, but for its next sequence.
    pub fn beginning_at(file_len: u64, next_seq: u64) -> Self {
        let file = scratch::nameless_file();
        let laid = file.set_len(file_len);
        let slot = slot([file_len, 0, 0, 0, 1, next_seq]);
        laid.and_then(|()| file.write_all_at(&slot, 0)).expect("the scratch file serves");
        let held = file.try_clone().expect("the scratch file serves");
        let inner = scratch::held(held, file_len);
        // Set to be as long as it is, the file is not cut where the queue becomes empty.
        let opened = queue::open(inner, file_len, file_len, SETTINGS.overwrite);
        Self { file, queue: opened.expect("a fresh image opens") }
    }

    /// A trail with these payloads, each of so many bytes.
    pub fn of(random: &mut Random, file_len: u64, lens: &[usize]) -> Self {
        let mut trail = Self::fresh(file_len);
        for len in lens {
            trail.add(&random.bytes(*len));
        }
        trail
    }

    pub fn overwriting(mut self, overwrite: bool) -> Self {
        self.queue.set_overwrite_on_remove(overwrite);
        self
    }

    pub fn add(&mut self, payload: &[u8]) {
        self.queue.add(payload).expect("an element is added");
    }

    pub fn remove(&mut self, n: usize) {
        self.queue.remove_n(n).expect("elements are removed");
    }

    pub fn count(&self) -> usize {
        self.queue.size()
    }

    /// Whether a payload of this length goes in without growth.
    pub fn has_room(&self, len: usize) -> bool {
        let room = self.queue.file_len() - self.queue.used_bytes();
        LEAST_SPAN + len as u64 <= room
    }

    /// Adds a payload of up to so many bytes, or removes some elements, and never makes the file
    /// longer. An element stays where there is room for two, so that the queue goes round the ring.
    pub fn wander(&mut self, random: &mut Random, longest: usize) {
        let len = random.below(longest + 1);
        if self.has_room(len) && (self.count() < 2 || random.below(3) > 0) {
            self.add(&random.bytes(len));
        } else if self.count() > 1 {
            let n = 1 + random.below(self.count() - 1);
            self.remove(n);
        } else {
            self.remove(1);
        }
    }

    /// The image as it is now, which is whole: it opens, and hands out all its elements.
    pub fn whole(&self) -> Whole {
        let real_len = self.queue.file_len();
        let mut bytes = vec![0; real_len as usize];
        self.file.read_exact_at(&mut bytes, 0).expect("the scratch file serves");
        Whole {
            bytes,
            state: State::of(&self.queue, real_len, SETTINGS),
            elements: self.elements(),
        }
    }

    fn elements(&self) -> Vec<Placed> {
        let [first, _] = queue::endpoints(&self.queue);
        let mut cursor = Cursor { index: 0, pos: first.pos };
        let mut elements = Vec::new();
        let valid = |cursor| queue::current_element(&self.queue, cursor).expect("a whole image");
        while let Some(header) = valid(cursor) {
            let element = Element { pos: cursor.pos, len: header.payload_len, seq: header.seq };
            let mut payload = vec![0; element.len];
            queue::read_payload(&self.queue, &element, &mut payload).expect("a whole image");
            elements.push(Placed {
                pos: element.pos,
                seq: element.seq,
                backlink: header.prev_pos,
                payload,
            });
            cursor = queue::advance(&self.queue, cursor, element.len);
        }
        elements
    }
}

/// A queue of these payload lengths whose first element stands at this place, which is 0 or no less
/// than a span. Others went before it one by one and were removed, and what they left is erased.
pub fn rolled(random: &mut Random, file_len: u64, to: u64, lens: &[usize]) -> Whole {
    let mut trail = Trail::fresh(file_len);
    let mut at = 0;
    while at < to {
        let left = to - at;
        let len = if left < 2 * LEAST_SPAN { left - LEAST_SPAN } else { 0 };
        trail.add(&random.bytes(len as usize));
        trail.remove(trail.count() - 1);
        at += LEAST_SPAN + len;
    }
    let before = trail.count();
    trail.add(&random.bytes(lens[0]));
    trail.remove(before);
    for len in &lens[1..] {
        trail.add(&random.bytes(*len));
    }
    trail.whole()
}

#[cfg(test)]
mod tests {
    use super::*;

    #[test]
    fn a_trail_is_whole_at_each_step() {
        let random = &mut Random::new(1);
        let mut trail = Trail::fresh(8392);
        for _ in 0..200 {
            trail.wander(random, 30);
            let whole = trail.whole();
            assert_eq!(whole.elements.len(), trail.count());
            assert_eq!(whole.bytes.len(), 8392);
            assert!(whole.state.is_sound());
        }
    }

    #[test]
    fn a_queue_is_rolled_to_its_place() {
        let whole = rolled(&mut Random::new(1), 8492, 250, &[5, 0, 9]);
        let lens: Vec<usize> = whole.elements.iter().map(|element| element.payload.len()).collect();
        assert_eq!(lens, [5, 0, 9]);
        assert_eq!((whole.state.first.pos, whole.state.last.pos), (250, 43));
        assert_eq!(rolled(&mut Random::new(1), 8492, 0, &[1]).state.first.pos, 0);
    }
}
