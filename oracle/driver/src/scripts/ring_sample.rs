//! The part of the sample that shows the state, the image and the ring, a rule a line.

use super::lines::{
    extend, poke, relocate, ring_add, ring_distance, ring_erase, ring_read, ring_write,
};
use super::Line;
use crate::image::IMAGE_LEN;

/// A state with these lengths; the rest is as a queue of three elements has it.
fn state(file_len: u64, real_len: u64) -> Line {
    format!("state B 6 {file_len} {real_len} 3 5 44 0 2 32 0 4 8192 1").into_bytes()
}

/// A ring of so many bytes that count up from 1, with eight more behind it.
fn ring(capacity: u8) -> Vec<Line> {
    let file_len = 8192 + u64::from(capacity);
    let bytes: Vec<u8> = (1..=capacity + 8).collect();
    vec![state(file_len, file_len + 8), poke(8192, &bytes)]
}

/// Each line on a ring that is laid anew.
fn each_on_ring<const N: usize>(capacity: u8, lines: [Line; N]) -> Vec<Line> {
    lines.into_iter().flat_map(|line| [ring(capacity), vec![line]].concat()).collect()
}

pub fn states() -> Vec<Line> {
    let given = [
        "A 1 8192 8192 0 1 0 0 0 0 0 0 8192 0",
        "B 6 16584 16584 3 5 44 0 2 132 0 4 8192 1",
        "A 0 0 0 0 0 0 0 0 0 0 0 0 0",
        "A 01 002 3 0000000000000000000000004 5 6 7 8 9 10 11 12 001",
        // The CRC goes no further than the image.
        "B 1 262144 262144 1 1 1 1 1 1 1 1 1 1",
        "B 1 262145 262145 1 1 1 1 1 1 1 1 1 1",
        "B 18446744073709551615 18446744073709551615 18446744073709551615 4294967295 \
         18446744073709551615 18446744073709551615 18446744073709551615 18446744073709551615 \
         18446744073709551615 18446744073709551615 18446744073709551615 18446744073709551615 1",
        "A 1 8192 8192 4294967296 1 0 0 0 0 0 0 8192 0",
        "A 1 8192 8192 0 1 0 0 0 0 0 0 8192 2",
        "AB 1 8192 8192 0 1 0 0 0 0 0 0 8192 0",
    ];
    given.iter().map(|words| format!("state {words}").into_bytes()).collect()
}

pub fn image_changed() -> Vec<Line> {
    vec![
        state(8292, 8300),
        poke(0, b"123456789"),
        // Across the real length, which then comes to cover the bytes.
        poke(8295, b"across the real length"),
        state(8292, 8317),
        state(8292, 8300),
        poke(8192, b""),
        extend(0),
        extend(10),
        extend(IMAGE_LEN - 8310),
        // At the image's end and past it.
        extend(0),
        extend(1),
        extend(u64::MAX),
        poke(IMAGE_LEN - 2, b"12"),
        poke(IMAGE_LEN - 2, b"123"),
        poke(IMAGE_LEN, b""),
        poke(IMAGE_LEN + 1, b""),
        poke(u64::MAX, b"1"),
        // A real length that is beyond the end already.
        state(8292, IMAGE_LEN + 1),
        extend(0),
        poke(0, b"987654321"),
    ]
}

pub fn places() -> Vec<Line> {
    let mut lines = ring(100);
    lines.extend([
        ring_add(88, 44),
        ring_add(0, 0),
        ring_add(99, 1),
        ring_add(250, 1),
        ring_add(u64::MAX, 0),
        ring_add(1, u64::MAX - 1),
        ring_distance(90, 10),
        ring_distance(7, 7),
        ring_distance(0, 99),
        ring_distance(99, 0),
    ]);
    lines.extend([state(8193, 8193), ring_add(u64::MAX, 0), ring_distance(0, 0)]);
    lines.extend([state(IMAGE_LEN, 8193), ring_add(253_951, 1), ring_distance(253_951, 0)]);
    lines
}

pub fn reads() -> Vec<Line> {
    let mut lines = ring(100);
    lines.extend([
        ring_read(0, 4),
        ring_read(96, 4),
        // Across the ring's end; from a place that is reduced first; from the last one there is.
        ring_read(96, 8),
        ring_read(396, 8),
        ring_read(u64::MAX, 2),
        ring_read(0, 100),
        ring_read(50, 100),
        ring_read(50, 0),
        ring_read(0, 65_537),
    ]);
    lines.extend(ring(3));
    // Longer than the capacity: the ring again and again.
    lines.extend([ring_read(1, 3), ring_read(1, 4), ring_read(2, 10), ring_read(u64::MAX, 10)]);
    // Bytes beyond the real length; too long an output where there is no ring.
    lines.extend([state(8200, 8194), ring_read(0, 8)]);
    lines.extend([state(8192, 8192), ring_read(0, 65_537)]);
    lines
}

pub fn writes() -> Vec<Line> {
    let mut lines = each_on_ring(
        100,
        [
            ring_write(0, b"abcd"),
            ring_write(96, b"abcd"),
            // Across the ring's end, and not behind it.
            ring_write(96, b"abcdefgh"),
            ring_write(396, b"abcdefgh"),
            ring_write(u64::MAX, b"ab"),
            ring_write(50, b""),
        ],
    );
    // Longer than the capacity: the later byte stays.
    lines.extend(each_on_ring(
        3,
        [ring_write(0, b"abc"), ring_write(0, b"abcd"), ring_write(2, b"abcdefgh")],
    ));
    lines.push(ring_read(0, 3));
    // Beyond the real length, which then comes to cover the bytes.
    lines.extend([state(8200, 8194), ring_write(4, b"abcdefgh"), state(8200, 8200)]);
    lines
}

pub fn erasures() -> Vec<Line> {
    let mut lines = each_on_ring(
        100,
        [
            ring_erase(0, 4),
            ring_erase(96, 4),
            // Past the ring's end, and not behind it.
            ring_erase(96, 8),
            ring_erase(396, 8),
            ring_erase(u64::MAX, 2),
            ring_erase(50, 0),
            ring_erase(50, 99),
            ring_erase(50, 100),
            ring_erase(50, 1000),
        ],
    );
    lines.extend(each_on_ring(1, [ring_erase(5, 0), ring_erase(5, 1), ring_erase(5, 2)]));
    lines
}

pub fn relocations() -> Vec<Line> {
    let mut lines = each_on_ring(
        100,
        [relocate(8292, 0), relocate(8292, 1), relocate(8292, 100), relocate(8200, 8)],
    );
    // The larger ring has the moved bytes behind the old ones.
    lines.extend(ring(100));
    lines.extend([relocate(8292, 32), state(8392, 8392), ring_read(96, 40)]);
    // Right up to the image's end; the file length plays no part.
    lines.extend([relocate(IMAGE_LEN, 0), relocate(IMAGE_LEN - 4, 4), relocate(8192, 0)]);
    lines.extend([state(0, IMAGE_LEN), relocate(8292, 4), state(u64::MAX, IMAGE_LEN)]);
    lines.extend([relocate(8192, 0), relocate(8193, 1)]);
    lines
}
