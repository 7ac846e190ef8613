//! The queue's operations on the port and on the Rust: the same ones in the same order, on a file in
//! memory with sync off for the Rust, and on an image of the same bytes for the port. The bytes of both
//! are compared as it goes.

use std::fs;
use std::hint::black_box;
use std::path::{Path, PathBuf};

use queue_file::QueueFile;

use crate::port;
use crate::timing::{once, time};

/// None, a set of 256 taps, and a large one.
const PAYLOADS: [usize; 3] = [0, 1_034, 16_384];
/// How many elements there are, and how many operations a round has.
const ELEMENTS: usize = 1_000;
/// Recovery and clearing work on many elements at once, so that a round needs few of them.
const FEW: usize = 5;
const ROUNDS: usize = 25;

/// Where the ring begins, and what an element has beside its payload.
const START: usize = 8_192;
const OVERHEAD: usize = 44;

/// The best time of an operation on each side, in seconds.
#[derive(Clone, Copy)]
struct Best {
    port: f64,
    rust: f64,
}

impl Best {
    const NONE: Self = Self { port: f64::MAX, rust: f64::MAX };

    fn of(&mut self, n: usize, rust: impl FnOnce(), port: impl FnOnce()) {
        self.rust = self.rust.min(once(n, rust));
        self.port = self.port.min(once(n, port));
    }

    fn row(self, operation: &str, payload: usize) {
        let Self { port, rust } = self;
        let (ratio, port, rust) = (rust / port, time(port), time(rust));
        println!("| {operation} | {payload} | {port} | {rust} | {ratio:.1} |");
    }
}

/// One queue on both sides.
struct Both {
    path: PathBuf,
    rust: QueueFile,
    image: Vec<u8>,
    payload: Vec<u8>,
}

impl Both {
    /// A queue of one element, in a ring that has room for so many.
    fn new(folder: &Path, payload: usize, room: usize) -> Self {
        let path = folder.join("queue");
        let _ = fs::remove_file(&path);
        let payload: Vec<u8> = (0..payload).map(|at| (at * 7_919 >> 3) as u8).collect();
        let mut rust = opened(&path, START + room * (OVERHEAD + payload.len()));
        rust.add(&payload).unwrap();
        let image = fs::read(&path).unwrap();
        Self { path, rust, image, payload }
    }

    fn add(&mut self, n: usize, best: &mut Best) {
        let Self { rust, image, payload, .. } = self;
        let real = image.len();
        best.of(
            n,
            || (0..n).for_each(|_| rust.add(payload).unwrap()),
            || port::add(image, real, payload, n),
        );
    }

    fn remove(&mut self, n: usize, best: &mut Best) {
        let Self { rust, image, .. } = self;
        let real = image.len();
        best.of(n, || (0..n).for_each(|_| rust.remove().unwrap()), || port::remove(image, real, n));
    }

    fn clear(&mut self, n: usize, best: &mut Best) {
        let Self { rust, image, .. } = self;
        let real = image.len();
        best.of(n, || (0..n).for_each(|_| rust.clear().unwrap()), || port::clear(image, real, n));
    }

    fn peek(&mut self, n: usize, best: &mut Best) {
        let Self { rust, image, payload, .. } = self;
        let (mut read, mut out) = (Vec::new(), vec![0; payload.len()]);
        best.of(
            n,
            || (0..n).for_each(|_| assert!(rust.peek_into(&mut read).unwrap())),
            || port::peek(image, image.len(), &mut out, n),
        );
        assert!(&read == payload && &out == payload);
    }

    /// By the Rust's reader that keeps its buffer.
    fn iterate(&mut self, n: usize, best: &mut Best) {
        let Self { rust, image, payload, .. } = self;
        let mut out = vec![0; payload.len()];
        let mut iter = rust.iter();
        best.of(
            n,
            || (0..n).for_each(|_| assert_eq!(iter.borrowed_next().unwrap().len(), payload.len())),
            || port::iterate(image, image.len(), &mut out, n),
        );
        assert!(iter.borrowed_next().is_none() && &out == payload);
    }

    /// Opens the file that holds these bytes.
    fn open(path: &Path, image: &[u8], n: usize, best: &mut Best) {
        best.of(
            n,
            || (0..n).for_each(|_| assert!(opened(path, image.len()).size() > 1)),
            || (0..n).for_each(|_| assert_eq!(port::open(image, image.len()), 0)),
        );
    }

    /// Both sides hold the same bytes.
    fn agree(&self) {
        assert!(fs::read(&self.path).unwrap() == self.image, "the two sides differ");
    }
}

fn opened(path: &Path, capacity: usize) -> QueueFile {
    let mut queue = QueueFile::with_capacity(path, capacity as u64).unwrap();
    queue.set_sync_writes(false);
    queue
}

/// The image with a pointer that misses its first element, so that opening has to recover it.
fn spoiled(image: &[u8]) -> Vec<u8> {
    let mut image = image.to_vec();
    let number = |at: usize| u64::from_be_bytes(image[at..at + 8].try_into().unwrap());
    let slot = if number(36) >= number(4_096 + 36) { 0 } else { 4_096 };
    let first = number(slot + 20) + 1;
    image[slot + 20..slot + 28].copy_from_slice(&first.to_be_bytes());
    let check = crc32fast::hash(&image[slot..slot + 52]);
    image[slot + 52..slot + 56].copy_from_slice(&check.to_be_bytes());
    image
}

/// What a queue costs that holds `ELEMENTS` and one more, in a ring with room for half as many again,
/// so that what is added goes round.
fn steady(folder: &Path, payload: usize) {
    let [mut add, mut open, mut recovery, mut peek] = [Best::NONE; 4];
    let [mut iterate, mut remove, mut clear] = [Best::NONE; 3];
    let mut both = Both::new(folder, payload, ELEMENTS + ELEMENTS / 2);
    let spoiled_path = folder.join("spoiled");
    for _ in 0..ROUNDS {
        both.add(ELEMENTS, &mut add);
        Both::open(&both.path, &both.image, ELEMENTS, &mut open);
        let spoiled = spoiled(&both.image);
        fs::write(&spoiled_path, &spoiled).unwrap();
        Both::open(&spoiled_path, &spoiled, FEW, &mut recovery);
        both.peek(ELEMENTS, &mut peek);
        both.iterate(ELEMENTS + 1, &mut iterate);
        both.remove(ELEMENTS, &mut remove);
        both.agree();
    }
    let mut set = f64::MAX;
    for _ in 0..ROUNDS {
        both.clear(FEW, &mut clear);
        both.agree();
        set = set.min(once(1, || black_box(&mut both.image)[START..].fill(0)));
    }

    open.row("open", payload);
    recovery.row("open, with recovery over 1,001 elements", payload);
    add.row("add", payload);
    peek.row("peek", payload);
    iterate.row("iterate, an element", payload);
    remove.row("remove", payload);
    clear.row("clear, room for 1,500 elements", payload);
    println!("| (the same bytes by memset) | {payload} | {} | | |", time(set));
}

/// What it costs to add to a queue that is full and lies across the ring's end: the file grows to twice
/// its length, half of the ring moves, and its backlinks are written anew.
fn growth(folder: &Path, payload: usize) {
    let mut full = Both::new(folder, payload, ELEMENTS);
    let mut growth = Best::NONE;
    let mut untimed = Best::NONE;
    full.add(ELEMENTS - 1, &mut untimed);
    full.remove(ELEMENTS / 2, &mut untimed);
    full.add(ELEMENTS / 2, &mut untimed);
    full.agree();

    let mut image = vec![0; 2 * full.image.len()];
    let real = full.image.len();
    for _ in 0..ROUNDS {
        fs::write(&full.path, &full.image).unwrap();
        let mut rust = opened(&full.path, real);
        image[..real].copy_from_slice(&full.image);
        growth.of(
            1,
            || rust.add(&full.payload).unwrap(),
            || port::add(&mut image, real, &full.payload, 1),
        );
        assert!(fs::read(&full.path).unwrap() == image, "the two sides differ");
    }
    growth.row("add that grows a full queue of 1,000 elements", payload);
}

pub fn table(folder: &Path) {
    println!("| queue | payload | port | Rust | port to Rust |");
    println!("|---|---|---|---|---|");
    for payload in PAYLOADS {
        steady(folder, payload);
        growth(folder, payload);
    }
}

/// How the port's cost grows with the queue's length.
pub fn by_length(folder: &Path) {
    println!("| elements | open | add | peek | remove | iterate, each | recover, each |");
    println!("|---|---|---|---|---|---|---|");
    for len in [100, 1_000, 10_000, 100_000] {
        lengthy(folder, len);
    }
}

/// With sets of 256 taps, and so few operations that the length stays about what it is.
fn lengthy(folder: &Path, len: usize) {
    const OPERATIONS: usize = 100;
    let Both { mut image, payload, .. } = Both::new(folder, 1_034, len + OPERATIONS);
    let (real, mut out) = (image.len(), vec![0; payload.len()]);
    port::add(&mut image, real, &payload, len - 1);
    let spoiled = spoiled(&image);

    let mut best = [f64::MAX; 6];
    for _ in 0..ROUNDS {
        let round = [
            once(OPERATIONS, || {
                (0..OPERATIONS).for_each(|_| assert_eq!(port::open(&image, real), 0))
            }),
            once(OPERATIONS, || port::add(&mut image, real, &payload, OPERATIONS)),
            once(OPERATIONS, || port::peek(&image, real, &mut out, OPERATIONS)),
            once(OPERATIONS, || port::remove(&mut image, real, OPERATIONS)),
            once(len, || port::iterate(&image, real, &mut out, len)),
            once(len, || assert_eq!(port::open(&spoiled, real), 0)),
        ];
        for (best, time) in best.iter_mut().zip(round) {
            *best = best.min(time);
        }
    }
    let [open, add, peek, remove, iterate, recover] = best.map(time);
    println!("| {len} | {open} | {add} | {peek} | {remove} | {iterate} | {recover} |");
}
