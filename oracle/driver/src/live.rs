//! The file that the writing lines work on, as a live queue object has it: it ends at the real
//! length, and its cursor and what the upstream code noted of it last from one line to the next.
//! Bytes go in and out by position, so that the cursor stays where the upstream code left it.

use std::fs::File;
use std::io::{self, Seek, SeekFrom};
use std::os::unix::fs::FileExt;

use queue_file::inside::qio::QueueFileInner;

use crate::scratch;

pub struct Live {
    /// `None` while it is lent, and for good where a panic has swallowed it.
    inner: Option<QueueFileInner>,
    /// Whether the file's bytes are those of the image, so that none has to be copied.
    in_step: bool,
}

/// Where the file's cursor is, and where the upstream code believes it to be.
#[derive(Clone, Copy, Debug, PartialEq)]
pub struct Cursor {
    pub at: u64,
    pub noted: Option<u64>,
    expected: u64,
}

impl Live {
    pub fn new() -> Self {
        Self { inner: None, in_step: false }
    }

    /// The image was changed by other means.
    pub fn falls_behind(&mut self) {
        self.in_step = false;
    }

    /// A new object has a file at its start and no cursor noted.
    pub fn begin_anew(&mut self) {
        self.in_step = false;
        if let Some(inner) = &mut self.inner {
            (inner.expected_seek, inner.last_seek) = (0, None);
            served(inner.file_mut().and_then(|file| file.seek(SeekFrom::Start(0))));
        }
    }

    /// The file, lent to the upstream code. `bytes` are the image's up to its real length, wanted
    /// where the file is not in step.
    pub fn lend(&mut self, bytes: impl FnOnce() -> Vec<u8>) -> QueueFileInner {
        let inner = self.inner.take().unwrap_or_else(scratch::queue);
        if !self.in_step {
            let bytes = bytes();
            let laid = file_of(&inner).set_len(bytes.len() as u64);
            served(laid.and_then(|()| file_of(&inner).write_all_at(&bytes, 0)));
        }
        self.in_step = false;
        inner
    }

    /// The file back, with bytes that are the image's now.
    pub fn keep(&mut self, inner: QueueFileInner) {
        self.inner = Some(inner);
        self.in_step = true;
    }

    /// The file back, with bytes that are not the image's, and its cursor where it was.
    pub fn put_back(&mut self, mut inner: QueueFileInner, cursor: Cursor) {
        (inner.expected_seek, inner.last_seek) = (cursor.expected, cursor.noted);
        served(inner.file_mut().and_then(|file| file.seek(SeekFrom::Start(cursor.at))));
        self.inner = Some(inner);
        self.in_step = false;
    }
}

pub fn cursor(inner: &mut QueueFileInner) -> Cursor {
    let at = served(inner.file_mut().and_then(Seek::stream_position));
    Cursor { at, noted: inner.last_seek, expected: inner.expected_seek }
}

/// The file's length and its bytes up to there or this limit.
pub fn contents(inner: &QueueFileInner, limit: u64) -> (u64, Vec<u8>) {
    let len = served(file_of(inner).metadata()).len();
    let mut bytes = vec![0; len.min(limit) as usize];
    served(file_of(inner).read_exact_at(&mut bytes, 0));
    (len, bytes)
}

fn file_of(inner: &QueueFileInner) -> &File {
    served(inner.file_ref())
}

fn served<T>(done: io::Result<T>) -> T {
    done.expect("the scratch file serves")
}

#[cfg(test)]
mod tests {
    use super::*;

    fn lent(live: &mut Live, bytes: &[u8]) -> QueueFileInner {
        live.lend(|| bytes.to_vec())
    }

    #[test]
    fn what_is_lent_has_the_bytes_and_ends_with_them() {
        let mut live = Live::new();
        for bytes in [b"12345" as &[u8], b"1", b"", b"678"] {
            let inner = lent(&mut live, bytes);
            assert_eq!(contents(&inner, 100), (bytes.len() as u64, bytes.to_vec()));
            live.falls_behind();
            live.inner = Some(inner);
        }
    }

    #[test]
    fn bytes_are_copied_only_where_the_file_is_behind() {
        let mut live = Live::new();
        let inner = lent(&mut live, b"12345");
        live.keep(inner);
        let inner = live.lend(|| unreachable!("the file is in step"));
        assert_eq!(contents(&inner, 3), (5, b"123".to_vec()));
        live.keep(inner);
        live.falls_behind();
        assert_eq!(contents(&lent(&mut live, b"678"), 100).1, b"678");
    }

    #[test]
    fn a_cursor_lasts_until_an_object_begins_anew() {
        let mut live = Live::new();
        let mut inner = lent(&mut live, b"12345");
        inner.seek(2);
        inner.write(b"x").unwrap();
        let left = cursor(&mut inner);
        assert_eq!((left.at, left.noted), (3, Some(3)));
        live.keep(inner);
        live.falls_behind();
        let mut inner = lent(&mut live, b"1234567");
        assert_eq!(cursor(&mut inner), left);
        inner.write(b"y").unwrap();
        live.put_back(inner, left);
        let mut inner = lent(&mut live, b"1234567");
        assert_eq!(cursor(&mut inner), left);
        live.keep(inner);
        live.begin_anew();
        let mut inner = lent(&mut live, b"1234567");
        assert_eq!(cursor(&mut inner), Cursor { at: 0, noted: None, expected: 0 });
    }
}
