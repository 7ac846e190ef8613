//! The upstream code's hold on a file, over a nameless one, and a small ring on it for upstream
//! functions that read from nothing else.

use std::cell::RefCell;
use std::fs::{self, File};
use std::path::PathBuf;
use std::sync::atomic::{AtomicUsize, Ordering};
use std::{env, process};

use queue_file::inside::header::V2_DATA_START;
use queue_file::inside::qio::{DataRing, DataRingMut, QueueFileInner};

/// The small ring's capacity, in bytes.
const CAPACITY: u64 = 64;

thread_local! {
    /// Made at the first use and kept, since a file for each call would cost more than the call.
    static SMALL: RefCell<QueueFileInner> =
        RefCell::new(QueueFileInner { file_len: V2_DATA_START + CAPACITY, ..queue() });
}

/// What `read` returns on the small ring that begins with these bytes.
pub fn on_ring<T>(bytes: &[u8], read: impl FnOnce(&DataRing<'_>) -> T) -> T {
    SMALL.with(|queue| {
        let mut queue = queue.borrow_mut();
        let mut ring = DataRingMut::new(&mut queue, V2_DATA_START);
        ring.write_at(0, bytes).expect("the scratch file is written");
        read(&ring.as_read_only())
    })
}

/// A new, empty file in the upstream code's hands.
pub fn queue() -> QueueFileInner {
    held(nameless_file(), 0)
}

/// The file in the upstream code's hands, with no cursor noted. Nothing waits for the disk: the
/// bytes are read back by the same process and then no more.
pub fn held(file: File, file_len: u64) -> QueueFileInner {
    QueueFileInner {
        file: Some(file),
        file_len,
        expected_seek: 0,
        last_seek: None,
        transfer_buf: vec![0; QueueFileInner::TRANSFER_BUFFER_SIZE].into_boxed_slice(),
        sync_writes: false,
        deferred_sync_phase: None,
    }
}

/// A new file whose name is taken away at once, so that it goes when the process ends.
pub fn nameless_file() -> File {
    static MADE: AtomicUsize = AtomicUsize::new(0);
    let nth = MADE.fetch_add(1, Ordering::Relaxed);
    let path = folder().join(format!("oracle-{}-{nth}", process::id()));
    let file = File::options().read(true).write(true).create_new(true).open(&path);
    let file = file.unwrap_or_else(|error| panic!("{}: {error}", path.display()));
    fs::remove_file(&path).expect("the scratch file's name is taken away");
    file
}

/// In memory where the system has a place for it: the upstream code waits for the disk whenever a
/// file's length changes.
fn folder() -> PathBuf {
    let in_memory = PathBuf::from("/dev/shm");
    if in_memory.is_dir() {
        in_memory
    } else {
        env::temp_dir()
    }
}

#[cfg(test)]
mod tests {
    use super::*;

    fn read_back(len: usize) -> impl Fn(&DataRing<'_>) -> Vec<u8> {
        move |ring| {
            let mut bytes = vec![0; len];
            ring.read_at(0, &mut bytes).unwrap();
            bytes
        }
    }

    #[test]
    fn the_ring_begins_with_the_last_bytes_put_there() {
        assert_eq!(on_ring(b"first bytes", read_back(11)), b"first bytes");
        assert_eq!(on_ring(b"later bytes", read_back(11)), b"later bytes");
    }
}
