//! The ring's operations against memcpy and memset on the same bytes of the same image.

use crate::port;
use crate::timing::{race, speed, Work};

/// Where the ring begins in an image.
const START: usize = 8_192;
/// An element header, a set of 256 taps, a large payload, and 64 MiB.
const LENGTHS: [usize; 4] = [28, 1_034, 16_384, 64 << 20];

/// What an operation works on: an image whose ring holds just twice the bytes, and the bytes.
#[derive(Clone, PartialEq)]
struct Bytes {
    image: Vec<u8>,
    bytes: Vec<u8>,
    /// The place in the ring of the first byte.
    place: usize,
    /// How many of the bytes lie before the ring's end.
    seam: usize,
}

struct Operation {
    name: &'static str,
    port: Work<Bytes>,
    plain: Work<Bytes>,
}

const IN_THE_RING: [Operation; 3] = [
    Operation {
        name: "read",
        port: |on| port::ring_read(&on.image, on.place, &mut on.bytes),
        plain: |on| {
            let (front, back) = on.bytes.split_at_mut(on.seam);
            front.copy_from_slice(&on.image[START + on.place..][..on.seam]);
            if !back.is_empty() {
                back.copy_from_slice(&on.image[START..][..back.len()]);
            }
            0
        },
    },
    Operation {
        name: "write",
        port: |on| port::ring_write(&mut on.image, on.place, &on.bytes),
        plain: |on| {
            let (front, back) = on.bytes.split_at(on.seam);
            on.image[START + on.place..][..on.seam].copy_from_slice(front);
            if !back.is_empty() {
                on.image[START..][..back.len()].copy_from_slice(back);
            }
            0
        },
    },
    Operation {
        name: "erase",
        port: |on| port::ring_erase(&mut on.image, on.place, on.bytes.len()),
        plain: |on| {
            let rest = on.bytes.len() - on.seam;
            on.image[START + on.place..][..on.seam].fill(0);
            if rest != 0 {
                on.image[START..][..rest].fill(0);
            }
            0
        },
    },
];

const RELOCATE: Operation = Operation {
    name: "relocate",
    port: |on| port::relocate(&mut on.image, START + on.bytes.len(), on.bytes.len()),
    plain: |on| {
        let (from, to) = on.image.split_at_mut(START + on.bytes.len());
        to.copy_from_slice(&from[START..]);
        0
    },
};

pub fn table() {
    println!("| ring | port | memcpy, memset | port to it |");
    println!("|---|---|---|---|");
    for operation in IN_THE_RING {
        for len in LENGTHS {
            row(&operation, len, len / 2, "");
            row(&operation, len, len + len / 2, " across the end");
        }
    }
    for len in LENGTHS {
        row(&RELOCATE, len, 0, "");
    }
}

fn row(operation: &Operation, len: usize, place: usize, how: &str) {
    let filled = |len: usize, by: usize| (0..len).map(|at| (at * by >> 3) as u8).collect();
    let mut on = Bytes {
        image: filled(START + 2 * len, 7_919),
        bytes: filled(len, 7_907),
        place,
        seam: len.min(2 * len - place),
    };
    let mut ported = on.clone();
    assert_eq!((operation.port)(&mut ported), (operation.plain)(&mut on));
    assert!(ported == on, "{} of {len} bytes{how}", operation.name);
    drop(ported);

    let [port, plain] = race(len, &mut on, [operation.port, operation.plain]);
    println!(
        "| {} of {len} bytes{how} | {} | {} | {:.2} |",
        operation.name,
        speed(len, port),
        speed(len, plain),
        plain / port
    );
}
