//! The ring: places, bytes read, written and erased at the state's file length, and bytes moved
//! behind the old end. The upstream code leaves it to its callers that these make sense; what the
//! port refuses there is passed over.

use std::fmt::Display;

use queue_file::inside::header::V2_DATA_START;
use queue_file::inside::qio::DataRingMut;

use super::output_len;
use crate::image::IMAGE_LEN;
use crate::language::{bytes, number, spell_bytes, SKIP};
use crate::run::Queue;

/// The longest erasure that is run. The upstream code goes over the ring again and again, so that a
/// longer one would not end in any useful time. The port erases it, so a script has such a line
/// last, or lays the ring anew behind it.
pub const LONGEST_ERASED: u64 = 16 << 20;

/// A sum that does not fit would wrap in the upstream code.
pub fn ring_add(queue: Queue<'_>, place: &[u8], distance: &[u8]) -> Option<String> {
    let (place, distance) = (number(place)?, number(distance)?);
    let fits = queue.may(place.checked_add(distance).is_some());
    Some(on_ring(queue, |ring| fits.then(|| ring.add(place, distance))))
}

/// The upstream code subtracts one place from the other, which is to be below the capacity.
pub fn ring_distance(queue: Queue<'_>, from: &[u8], to: &[u8]) -> Option<String> {
    let (from, to) = (number(from)?, number(to)?);
    let raw = queue.raw;
    Some(on_ring(queue, |ring| {
        let both_in_ring = raw || from.max(to) < ring.capacity();
        both_in_ring.then(|| ring.as_read_only().distance(from, to))
    }))
}

pub fn ring_read(queue: Queue<'_>, place: &[u8], len: &[u8]) -> Option<String> {
    let (place, mut output) = (number(place)?, vec![0; output_len(len)?]);
    Some(on_ring(queue, |ring| {
        ring.as_read_only().read_at(place, &mut output).expect("the ring is read");
        Some(spell_bytes(&output))
    }))
}

pub fn ring_write(queue: Queue<'_>, place: &[u8], hex: &[u8]) -> Option<String> {
    let (place, bytes) = (number(place)?, bytes(hex)?);
    Some(on_ring(queue, |mut ring| {
        ring.write_at(place, &bytes).expect("the ring is written");
        Some("")
    }))
}

pub fn ring_erase(queue: Queue<'_>, place: &[u8], len: &[u8]) -> Option<String> {
    let (place, len) = (number(place)?, number(len)?);
    Some(on_ring(queue, |mut ring| {
        if len > LONGEST_ERASED {
            return None;
        }
        ring.erase_at(place, len as usize).expect("the ring is erased");
        Some("")
    }))
}

/// The state's file length plays no part.
pub fn relocate(queue: Queue<'_>, old_len: &[u8], count: &[u8]) -> Option<String> {
    let (old_len, count) = (number(old_len)?, number(count)?);
    if !queue.may(can_relocate(old_len, count)) {
        return Some(SKIP.to_string());
    }
    let mut ring = queue.image.ring(queue.state.file_len);
    let moved = ring.relocate(old_len, count);
    Some(match moved {
        Ok(()) => queue.accepted(""),
        Err(error) => queue.refused_or_error(&error),
    })
}

/// The line for what is answered on the ring; `skip` where there is no ring or no answer.
fn on_ring<T: Display>(queue: Queue<'_>, act: impl FnOnce(DataRingMut<'_>) -> Option<T>) -> String {
    let file_len = queue.state.file_len;
    let has_bytes = queue.may(V2_DATA_START < file_len && file_len <= IMAGE_LEN);
    match has_bytes.then(|| act(queue.image.ring(file_len))).flatten() {
        Some(answer) => queue.accepted(answer),
        None => SKIP.to_string(),
    }
}

/// The bytes that are moved end before the old end, and have room behind it.
fn can_relocate(old_len: u64, count: u64) -> bool {
    (V2_DATA_START..=IMAGE_LEN).contains(&old_len)
        && count <= old_len - V2_DATA_START
        && count <= IMAGE_LEN - old_len
}

#[cfg(test)]
mod tests {
    use crate::answer::answers;

    /// What stands behind the colon of the last line, or the whole line where there is no colon.
    /// The ring has this capacity and, from place 90 on, the bytes 00, 01, 02 and so on.
    fn answered(capacity: u64, lines: &str) -> String {
        let file_len = 8192 + capacity;
        let state = format!("state A 0 {file_len} 8400 0 1 0 0 0 0 0 0 8192 0");
        let laid = "poke 8282 00010203040506070809\npoke 8192 0a0b0c0d0e0f";
        let answered = answers(format!("{state}\n{laid}\n{lines}"));
        let last = answered.lines().last().unwrap();
        last.split(" : ").last().unwrap().to_string()
    }

    /// The last answer in a ring of 100 bytes.
    fn in_hundred(lines: &str) -> String {
        answered(100, lines)
    }

    #[test]
    fn a_line_shows_the_state_and_the_crc_after_it() {
        let state = "B 6 8292 8292 3 5 44 0 2 32 0 4 8192 1";
        let answered = answers(format!("state {state}\nring_write 99 3132\nring_read 98 4"));
        let (before, after) = ("1c5da36f", "faf4bf13");
        let expected = format!(
            "0 0 0 {state} {before} : \n0 0 0 {state} {after} : \n0 0 0 {state} {after} : 00313200\n"
        );
        assert_eq!(answered, expected);
    }

    #[test]
    fn places_are_added_and_reduced() {
        assert_eq!(in_hundred("ring_add 88 44"), "32");
        assert_eq!(in_hundred("ring_add 250 1"), "51");
        assert_eq!(in_hundred("ring_add 18446744073709551615 0"), "15");
    }

    #[test]
    fn a_distance_goes_forward() {
        assert_eq!(in_hundred("ring_distance 90 10"), "20");
        assert_eq!(in_hundred("ring_distance 10 90"), "80");
        assert_eq!(in_hundred("ring_distance 7 7"), "0");
    }

    #[test]
    fn a_read_wraps_as_often_as_it_must() {
        assert_eq!(in_hundred("ring_read 90 16"), "000102030405060708090a0b0c0d0e0f");
        assert_eq!(in_hundred("ring_read 390 3"), "000102");
        assert_eq!(in_hundred("ring_read 90 0"), "-");
        assert_eq!(answered(3, "ring_read 2 8"), "0c0a0b0c0a0b0c0a");
    }

    #[test]
    fn the_later_byte_of_a_long_write_stays() {
        assert_eq!(answered(3, "ring_write 1 0102030405\nring_read 0 3"), "030405");
        assert_eq!(in_hundred("ring_write 99 aabb\nring_read 98 4"), "08aabb0b");
        assert_eq!(in_hundred("ring_write 90 -\nring_read 90 2"), "0001");
    }

    #[test]
    fn an_erasure_ends_where_it_is_told_to() {
        assert_eq!(in_hundred("ring_erase 98 3\nring_read 96 6"), "06070000000b");
        assert_eq!(in_hundred("ring_erase 91 0\nring_read 91 1"), "01");
        assert_eq!(answered(3, "ring_erase 1 100\nring_read 0 3"), "000000");
        assert_eq!(answered(253_952, "ring_erase 1 16777216\nring_read 0 3"), "000000");
    }

    #[test]
    fn bytes_are_moved_behind_the_old_end() {
        let moved = "relocate 8292 4\nstate A 0 8392 0 0 1 0 0 0 0 0 0 8192 0\nring_read 98 7";
        assert_eq!(in_hundred(moved), "08090a0b0c0d00");
        assert_eq!(answered(u64::MAX - 8192, "relocate 8192 0"), "");
    }

    #[test]
    fn where_there_is_no_ring_a_line_is_passed_over() {
        let lines = [
            "ring_add 0 0",
            "ring_distance 0 0",
            "ring_read 0 0",
            "ring_write 0 -",
            "ring_erase 0 0",
        ];
        for line in lines {
            assert_eq!(answered(0, line), "skip", "{line}");
            assert_ne!(answered(1, line), "skip", "{line}");
            assert_ne!(answered(253_952, line), "skip", "{line}");
            assert_eq!(answered(253_953, line), "skip", "{line}");
        }
    }

    #[test]
    fn a_sum_that_does_not_fit_is_passed_over() {
        assert_eq!(in_hundred("ring_add 18446744073709551615 1"), "skip");
        assert_eq!(in_hundred("ring_add 1 18446744073709551615"), "skip");
    }

    #[test]
    fn a_distance_to_no_place_of_the_ring_is_passed_over() {
        assert_eq!(in_hundred("ring_distance 99 99"), "0");
        assert_eq!(in_hundred("ring_distance 100 0"), "skip");
        assert_eq!(in_hundred("ring_distance 0 100"), "skip");
    }

    #[test]
    fn a_move_without_room_is_passed_over() {
        for line in ["relocate 8192 0", "relocate 8193 1", "relocate 262144 0", "relocate 262143 1"]
        {
            assert_eq!(in_hundred(line), "", "{line}");
        }
        for line in [
            "relocate 8191 0",
            "relocate 8192 1",
            "relocate 262143 2",
            "relocate 262145 0",
            "relocate 8292 18446744073709551615",
            "relocate 18446744073709551615 1",
        ] {
            assert_eq!(in_hundred(line), "skip", "{line}");
        }
    }

    #[test]
    fn a_very_long_erasure_is_passed_over_and_changes_nothing() {
        assert_eq!(in_hundred("ring_erase 0 16777217"), "skip");
        assert_eq!(in_hundred("ring_erase 0 16777217\nring_read 90 2"), "0001");
    }

    #[test]
    fn an_output_has_a_limit_also_where_there_is_no_ring() {
        assert_eq!(in_hundred("ring_read 0 65536").len(), 2 * 65_536);
        assert_eq!(in_hundred("ring_read 0 65537"), "bad");
        assert_eq!(answered(0, "ring_read 0 65537"), "bad");
    }
}
