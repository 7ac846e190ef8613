//! The image that the lines of a script share: a buffer that is kept in a nameless file, where the
//! upstream code finds it.

use std::fs::File;
use std::io;
use std::os::unix::fs::FileExt;

use queue_file::inside::header::{self, V2_DATA_START};
use queue_file::inside::qio::{DataRing, DataRingMut, QueueFileInner};

use crate::live::{self, Live};
use crate::scratch;

/// The buffer's length. The file has it from the start and keeps it, so that bytes beyond the real
/// length are there too; the real length is a number of the state.
pub const IMAGE_LEN: u64 = 262_144;

pub struct Image {
    queue: QueueFileInner,
    /// The file that is opened: as long as the real length, with the image's bytes.
    opened: File,
    /// The file that is written, while a queue object lives.
    live: Live,
}

impl Image {
    /// An image of zeros.
    pub fn new() -> Self {
        let (queue, opened) = (scratch::queue(), scratch::nameless_file());
        let image = Self { queue, opened, live: Live::new() };
        image.with_file(|file| file.set_len(IMAGE_LEN));
        image
    }

    /// The upstream ring at this file length. What an earlier call noted of the file's cursor is
    /// forgotten, so that each call stands alone.
    pub fn ring(&mut self, file_len: u64) -> DataRingMut<'_> {
        self.live.falls_behind();
        self.queue.file_len = file_len;
        self.queue.last_seek = None;
        DataRingMut::new(&mut self.queue, V2_DATA_START)
    }

    /// The same, to be read only.
    pub fn ring_to_read(&mut self, file_len: u64) -> DataRing<'_> {
        self.queue.file_len = file_len;
        DataRing::new(&self.queue, V2_DATA_START)
    }

    /// The whole buffer in the upstream code's hands.
    pub fn held(&self, file_len: u64) -> QueueFileInner {
        let file = self.queue.file_ref().and_then(File::try_clone);
        scratch::held(file.expect("the scratch file serves"), file_len)
    }

    /// The image up to its real length, which is within the buffer, in a file that ends there.
    pub fn held_to_be_opened(&self, real_len: u64) -> QueueFileInner {
        let bytes = self.bytes(real_len);
        let laid = self.opened.set_len(real_len);
        laid.and_then(|()| self.opened.write_all_at(&bytes, 0)).expect("the scratch file serves");
        scratch::held(self.opened.try_clone().expect("the scratch file serves"), real_len)
    }

    /// A new queue object: no cursor is noted.
    pub fn begin_anew(&mut self) {
        self.live.begin_anew();
    }

    /// The image up to its real length, or to the buffer's end, to be written: the live object's
    /// file, and where its cursor is.
    pub fn lend(&mut self, real_len: u64) -> (QueueFileInner, live::Cursor) {
        let queue = &self.queue;
        let mut inner = self.live.lend(|| bytes_of(queue, real_len.min(IMAGE_LEN)));
        let cursor = live::cursor(&mut inner);
        (inner, cursor)
    }

    /// Takes over what was written and returns the file's length. Bytes beyond it stay.
    pub fn keep(&mut self, inner: QueueFileInner) -> u64 {
        let (len, bytes) = live::contents(&inner, IMAGE_LEN);
        self.with_file(|file| file.write_all_at(&bytes, 0));
        self.live.keep(inner);
        len
    }

    /// Leaves the image as it is, whatever was written to the file that had its real length, and
    /// returns whether that was anything.
    pub fn put_back(&mut self, inner: QueueFileInner, cursor: live::Cursor, real_len: u64) -> bool {
        let (len, bytes) = live::contents(&inner, IMAGE_LEN);
        let changed = len != real_len || self.bytes(len) != bytes;
        self.live.put_back(inner, cursor);
        changed
    }

    /// Changes these bytes, which end within the image.
    pub fn store(&mut self, offset: u64, bytes: &[u8]) {
        self.live.falls_behind();
        self.with_file(|file| file.write_all_at(bytes, offset));
    }

    /// These bytes, which fit, and zeros behind them.
    pub fn replace(&mut self, bytes: &[u8]) {
        self.live.falls_behind();
        self.with_file(|file| {
            file.set_len(0)?;
            file.set_len(IMAGE_LEN)?;
            file.write_all_at(bytes, 0)
        });
    }

    /// The CRC-32 of the image up to the real length or its own end.
    pub fn crc(&self, real_len: u64) -> u32 {
        header::crc32(&self.bytes(real_len.min(IMAGE_LEN)))
    }

    fn bytes(&self, len: u64) -> Vec<u8> {
        bytes_of(&self.queue, len)
    }

    fn with_file(&self, act: impl FnOnce(&File) -> io::Result<()>) {
        self.queue.file_ref().and_then(act).expect("the scratch file serves");
    }
}

/// The buffer's first bytes.
fn bytes_of(queue: &QueueFileInner, len: u64) -> Vec<u8> {
    let mut bytes = vec![0; len as usize];
    let read = queue.file_ref().and_then(|file| file.read_exact_at(&mut bytes, 0));
    read.expect("the scratch file serves");
    bytes
}

#[cfg(test)]
mod tests {
    use super::*;

    #[test]
    fn an_image_is_zero_at_the_start() {
        assert_eq!(Image::new().crc(IMAGE_LEN), header::crc32(&vec![0; IMAGE_LEN as usize]));
    }

    #[test]
    fn the_crc_covers_the_real_length_and_no_more() {
        let mut image = Image::new();
        image.store(5, b"123456789");
        assert_eq!(image.crc(0), header::crc32(b""));
        assert_eq!(image.crc(8), header::crc32(b"\0\0\0\0\x00123"));
        assert_eq!(image.crc(14), header::crc32(b"\0\0\0\0\x00123456789"));
        assert_eq!(image.crc(u64::MAX), image.crc(IMAGE_LEN));
    }

    #[test]
    fn two_images_share_no_bytes() {
        let (mut one, other) = (Image::new(), Image::new());
        one.store(0, b"1");
        assert_ne!(one.crc(1), other.crc(1));
    }

    #[test]
    fn a_replaced_image_is_zero_behind_its_bytes() {
        let mut image = Image::new();
        image.store(IMAGE_LEN - 1, b"1");
        image.replace(b"123456789");
        assert_eq!(image.crc(9), header::crc32(b"123456789"));
        assert_eq!(image.bytes(IMAGE_LEN)[9..], vec![0; IMAGE_LEN as usize - 9]);
    }

    #[test]
    fn what_is_opened_ends_at_the_real_length() {
        let mut image = Image::new();
        image.store(0, b"123456789");
        for real_len in [9, 5, 7, 0] {
            let held = image.held_to_be_opened(real_len);
            let mut read = vec![0; real_len as usize];
            held.read_exact_at(0, &mut read).unwrap();
            assert_eq!(read, b"123456789"[..real_len as usize]);
            assert!(held.read_exact_at(real_len, &mut [0]).is_err());
        }
        assert_eq!(image.crc(9), header::crc32(b"123456789"));
    }

    #[test]
    fn a_ring_begins_behind_the_slots_and_ends_at_its_file_length() {
        let mut image = Image::new();
        image.ring(V2_DATA_START + 4).write_at(3, b"ab").unwrap();
        let mut read = [0; 4];
        image.ring(V2_DATA_START + 8).as_read_only().read_at(0, &mut read).unwrap();
        assert_eq!(&read, b"b\0\0a");
    }
}
