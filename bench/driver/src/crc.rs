//! CRC-32 against crc32fast and zlib.

use crate::timing::{race, speed};
use crate::{port, zlib};

/// An element header, a slot without its CRC, a set of 256 taps, a large payload, and 64 MiB.
const LENGTHS: [usize; 5] = [28, 52, 1_034, 16_384, 64 << 20];

pub fn table() {
    println!("| CRC-32 of | port | crc32fast | zlib | port to crc32fast | port to zlib |");
    println!("|---|---|---|---|---|---|");
    for len in LENGTHS {
        row(len);
    }
}

fn row(len: usize) {
    let mut part: Vec<u8> = (0..len).map(|place| (place * 7_919 >> 3) as u8).collect();
    assert_eq!(port::crc32(&part), crc32fast::hash(&part));
    assert_eq!(port::crc32(&part), zlib::crc32(&part));

    let [port, rust, zlib] = race(
        len,
        &mut part,
        [|part| port::crc32(part), |part| crc32fast::hash(part), |part| zlib::crc32(part)],
    );
    println!(
        "| {len} bytes | {} | {} | {} | {:.2} | {:.2} |",
        speed(len, port),
        speed(len, rust),
        speed(len, zlib),
        rust / port,
        zlib / port
    );
}
