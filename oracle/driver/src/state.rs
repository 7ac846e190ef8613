//! The state of a queue as the language writes it.

use std::fmt;

use queue_file::inside::format::V2_ELEM_OVERHEAD;
use queue_file::inside::header::{HeaderSlot, SlotData, V2_DATA_START};
use queue_file::inside::qio::QueueFileInner;
use queue_file::inside::{self, queue};
use queue_file::QueueFile;

use crate::image::IMAGE_LEN;
use crate::language::{number, numbers, spell_numbers};
use crate::operations::slots::spell_name;

/// The state, whatever its numbers are.
#[derive(Clone, Copy, Debug, PartialEq)]
pub struct State {
    pub slot: HeaderSlot,
    pub generation: u64,
    pub file_len: u64,
    pub real_len: u64,
    pub count: u32,
    pub next_seq: u64,
    pub first: Element,
    pub last: Element,
    pub capacity: u64,
    pub overwrite: bool,
}

#[derive(Clone, Copy, Debug, PartialEq)]
pub struct Element {
    pub pos: u64,
    pub len: u64,
    pub seq: u64,
}

/// What a state has that no image tells. The set capacity stays as it is given: the upstream code
/// keeps the larger of it and 8192, and reads it nowhere but where it clears.
#[derive(Clone, Copy)]
pub struct Settings {
    pub capacity: u64,
    pub overwrite: bool,
}

impl Settings {
    pub fn read(capacity: &[u8], overwrite: &[u8]) -> Option<Self> {
        Some(Self { capacity: number(capacity)?, overwrite: read_flag(number(overwrite)?)? })
    }
}

impl State {
    /// The state that these words give, as many as there are and each good.
    #[rustfmt::skip]
    pub fn read(words: &[&[u8]]) -> Option<Self> {
        let (slot, fields) = words.split_first()?;
        let [
            generation, file_len, real_len, count, next_seq, first_pos, first_len, first_seq,
            last_pos, last_len, last_seq, capacity, overwrite,
        ] = numbers(fields)?;
        Some(Self {
            slot: read_name(slot)?,
            generation,
            file_len,
            real_len,
            count: u32::try_from(count).ok()?,
            next_seq,
            first: Element { pos: first_pos, len: first_len, seq: first_seq },
            last: Element { pos: last_pos, len: last_len, seq: last_seq },
            capacity,
            overwrite: read_flag(overwrite)?,
        })
    }

    /// The state of an upstream queue over a file of this length.
    pub fn of(queue: &QueueFile, real_len: u64, settings: Settings) -> Self {
        let format = queue::v2_format(queue);
        let [first, last] = queue::endpoints(queue).map(Element::of);
        Self {
            slot: format.active_slot,
            generation: format.generation,
            file_len: queue.file_len(),
            real_len,
            count: u32::try_from(queue.size()).expect("a count comes from a slot"),
            next_seq: format.next_seq,
            first,
            last,
            capacity: settings.capacity,
            overwrite: settings.overwrite,
        }
    }

    pub fn settings(&self) -> Settings {
        Settings { capacity: self.capacity, overwrite: self.overwrite }
    }

    /// The upstream queue that is in this state, over this file.
    pub fn upstream(&self, inner: QueueFileInner) -> QueueFile {
        let endpoints = [self.first, self.last];
        let [first_position, last_position] =
            endpoints.map(|element| element.pos.wrapping_add(V2_DATA_START));
        let slot = SlotData {
            file_length: self.file_len,
            element_count: self.count,
            first_position,
            last_position,
            generation: self.generation,
            next_sequence_number: self.next_seq,
        };
        let settings = (self.capacity, self.overwrite);
        queue::with_endpoints(inner, self.slot, slot, endpoints.map(Element::upstream), settings)
    }

    /// Whether the numbers fit each other and the image. Where they do not, the port refuses; the
    /// upstream code asks nothing of the kind.
    pub fn is_sound(&self) -> bool {
        let signed = i64::MAX as u64;
        let lengths = [V2_DATA_START, self.file_len, self.real_len, IMAGE_LEN];
        lengths.windows(2).all(|pair| pair[0] <= pair[1])
            && (1..=signed).contains(&self.next_seq)
            && self.generation <= signed
            && self.count <= i32::MAX as u32
            && self.endpoints_are_sound()
    }

    /// Of a state whose lengths are sound.
    fn endpoints_are_sound(&self) -> bool {
        if self.count == 0 {
            return [self.first, self.last] == [Element::EMPTY; 2];
        }
        let capacity = self.ring_len();
        let fits = |element: Element| {
            let span = element.len.checked_add(V2_ELEM_OVERHEAD);
            element.pos < capacity && span.map_or(false, |span| span <= capacity)
        };
        let used = || self.distance() + self.last.len + V2_ELEM_OVERHEAD;
        fits(self.first) && fits(self.last) && used() <= capacity
    }

    /// The ring's capacity, in a state whose lengths are sound.
    pub fn ring_len(&self) -> u64 {
        self.file_len - V2_DATA_START
    }

    /// The bytes that are left, in a sound state.
    pub fn remaining(&self) -> u64 {
        match self.count {
            0 => self.ring_len(),
            _ => self.ring_len() - self.distance() - self.last.span(),
        }
    }

    /// From first on to last, both in the ring.
    fn distance(&self) -> u64 {
        let (from, to) = (self.first.pos, self.last.pos);
        let round = if to < from { self.ring_len() } else { 0 };
        to + round - from
    }
}

impl Element {
    const EMPTY: Self = Self { pos: 0, len: 0, seq: 0 };

    pub fn of(element: inside::Element) -> Self {
        Self { pos: element.pos, len: element.len as u64, seq: element.seq }
    }

    /// Of an element whose length is sound.
    pub fn span(self) -> u64 {
        self.len + V2_ELEM_OVERHEAD
    }

    fn upstream(self) -> inside::Element {
        inside::Element { pos: self.pos, len: self.len as usize, seq: self.seq }
    }
}

fn read_name(word: &[u8]) -> Option<HeaderSlot> {
    match word {
        b"A" => Some(HeaderSlot::A),
        b"B" => Some(HeaderSlot::B),
        _ => None,
    }
}

pub fn read_flag(number: u64) -> Option<bool> {
    match number {
        0 => Some(false),
        1 => Some(true),
        _ => None,
    }
}

/// The words that `read` reads back.
impl fmt::Display for State {
    #[rustfmt::skip]
    fn fmt(&self, f: &mut fmt::Formatter<'_>) -> fmt::Result {
        let fields = [
            self.generation, self.file_len, self.real_len, u64::from(self.count), self.next_seq,
            self.first.pos, self.first.len, self.first.seq,
            self.last.pos, self.last.len, self.last.seq,
            self.capacity, u64::from(self.overwrite),
        ];
        write!(f, "{} {}", spell_name(self.slot), spell_numbers(&fields))
    }
}

#[cfg(test)]
mod tests {
    use super::*;
    use crate::language::words;

    fn read_back(state: &str) -> Option<String> {
        State::read(&words(state.as_bytes())).map(|state| state.to_string())
    }

    #[test]
    fn a_state_reads_back() {
        for state in [
            "A 1 2 3 4 5 6 7 8 9 10 11 12 0",
            "B 18446744073709551615 0 1 4294967295 0 0 0 0 0 0 0 18446744073709551615 1",
        ] {
            assert_eq!(read_back(state).as_deref(), Some(state));
        }
        let with_zeros = "A 01 002 3 4 5 6 7 8 9 10 11 12 0001";
        assert_eq!(read_back(with_zeros).unwrap(), "A 1 2 3 4 5 6 7 8 9 10 11 12 1");
    }

    fn is_sound(state: &str) -> bool {
        State::read(&words(state.as_bytes())).unwrap().is_sound()
    }

    #[test]
    fn a_sound_state_may_be_as_full_as_can_be() {
        for state in [
            "A 1 8192 8192 0 1 0 0 0 0 0 0 0 0",
            "A 0 8192 262144 0 9223372036854775807 0 0 0 0 0 0 0 0",
            "B 9223372036854775807 8236 8236 2147483647 1 43 0 0 43 0 0 0 0",
            "B 6 8324 8324 3 5 44 0 2 0 0 4 0 0",
            "B 6 8324 8324 3 5 44 88 2 44 88 4 0 0",
        ] {
            assert!(is_sound(state), "{state}");
        }
    }

    #[test]
    fn each_clause_makes_a_state_unsound() {
        for state in [
            "A 1 8191 8192 0 1 0 0 0 0 0 0 0 0",
            "A 1 8193 8192 0 1 0 0 0 0 0 0 0 0",
            "A 1 8192 262145 0 1 0 0 0 0 0 0 0 0",
            "A 1 8192 8192 0 0 0 0 0 0 0 0 0 0",
            "A 1 8192 8192 0 9223372036854775808 0 0 0 0 0 0 0 0",
            "A 9223372036854775808 8192 8192 0 1 0 0 0 0 0 0 0 0",
            "A 1 8236 8236 2147483648 1 0 0 0 0 0 0 0 0",
            "A 1 8292 8292 0 1 1 0 0 0 0 0 0 0",
            "A 1 8292 8292 0 1 0 0 0 0 0 1 0 0",
            "A 1 8192 8192 1 2 0 0 1 0 0 1 0 0",
            "A 1 8292 8292 1 2 100 0 1 0 0 1 0 0",
            "A 1 8292 8292 1 2 0 0 1 100 0 1 0 0",
            "A 1 8292 8292 1 2 0 57 1 0 0 1 0 0",
            "A 1 8292 8292 1 2 0 18446744073709551615 1 0 0 1 0 0",
            "A 1 8292 8292 1 2 0 0 1 0 57 1 0 0",
            "A 1 8292 8292 2 3 0 0 1 57 0 2 0 0",
            "A 1 8292 8292 2 3 44 0 1 0 1 2 0 0",
        ] {
            assert!(!is_sound(state), "{state}");
        }
    }

    #[test]
    fn an_upstream_queue_has_the_state_it_was_made_of() {
        let given = "B 6 8324 9000 3 5 44 1 2 0 44 4 8192 1";
        let state = State::read(&words(given.as_bytes())).unwrap();
        let queue = state.upstream(crate::scratch::queue());
        assert_eq!(State::of(&queue, state.real_len, state.settings()).to_string(), given);
    }

    #[test]
    fn a_word_out_of_its_limits_is_no_state() {
        for state in [
            "",
            "A",
            "A 1 2 3 4 5 6 7 8 9 10 11 12",
            "A 1 2 3 4 5 6 7 8 9 10 11 12 0 0",
            "a 1 2 3 4 5 6 7 8 9 10 11 12 0",
            "AB 1 2 3 4 5 6 7 8 9 10 11 12 0",
            "A 1 2 3 4294967296 5 6 7 8 9 10 11 12 0",
            "A 1 2 3 4 5 6 7 8 9 10 11 12 2",
            "A 1 2 3 4 5 6 7 8 9 10 11 x 0",
        ] {
            assert_eq!(read_back(state), None, "{state}");
        }
    }
}
