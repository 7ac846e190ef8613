//! The port's functions, as `crates/exports_c` exports them. A slice passes as its pointer and its length.

extern "C" {
    fn port_crc32(part: *const u8, len: usize) -> u32;
    fn port_ring_read(
        image: *const u8,
        image_len: usize,
        file_len: u64,
        place: u64,
        buf: *mut u8,
        buf_len: usize,
    ) -> u32;
    fn port_ring_write(
        image: *mut u8,
        image_len: usize,
        file_len: u64,
        place: u64,
        buf: *const u8,
        buf_len: usize,
    ) -> u32;
    fn port_ring_erase(
        image: *mut u8,
        image_len: usize,
        file_len: u64,
        place: u64,
        len: u64,
    ) -> u32;
    fn port_relocate(image: *mut u8, image_len: usize, old: u64, count: u64) -> u32;
    fn port_open(image: *const u8, image_len: usize, real_len: u64) -> u32;
    fn port_add(
        image: *mut u8,
        image_len: usize,
        real_len: u64,
        payload: *const u8,
        payload_len: usize,
        n: u64,
    ) -> u64;
    fn port_remove(image: *mut u8, image_len: usize, real_len: u64, n: u64) -> u64;
    fn port_clear(image: *mut u8, image_len: usize, real_len: u64, n: u64) -> u64;
    fn port_peek(
        image: *const u8,
        image_len: usize,
        real_len: u64,
        out: *mut u8,
        out_len: usize,
        n: u64,
    ) -> u64;
    fn port_iterate(
        image: *const u8,
        image_len: usize,
        real_len: u64,
        out: *mut u8,
        out_len: usize,
        n: u64,
    ) -> u64;
}

pub fn crc32(part: &[u8]) -> u32 {
    // SAFETY: a slice passes as its pointer and its length, and the function asks nothing more.
    unsafe { port_crc32(part.as_ptr(), part.len()) }
}

// The ring's functions give the number of the refusal, 0 for none. The file is the whole image.

pub fn ring_read(image: &[u8], place: usize, buf: &mut [u8]) -> u32 {
    let (len, place) = (image.len(), place as u64);
    // SAFETY: as above; the slices lie apart, since one is lent for writing.
    unsafe { port_ring_read(image.as_ptr(), len, len as u64, place, buf.as_mut_ptr(), buf.len()) }
}

pub fn ring_write(image: &mut [u8], place: usize, buf: &[u8]) -> u32 {
    let (len, place) = (image.len(), place as u64);
    // SAFETY: as above.
    unsafe { port_ring_write(image.as_mut_ptr(), len, len as u64, place, buf.as_ptr(), buf.len()) }
}

pub fn ring_erase(image: &mut [u8], place: usize, count: usize) -> u32 {
    let (len, place) = (image.len(), place as u64);
    // SAFETY: as above.
    unsafe { port_ring_erase(image.as_mut_ptr(), len, len as u64, place, count as u64) }
}

pub fn relocate(image: &mut [u8], old: usize, count: usize) -> u32 {
    // SAFETY: as above.
    unsafe { port_relocate(image.as_mut_ptr(), image.len(), old as u64, count as u64) }
}

// Of an image's bytes, the first `real` are the queue's file. Each call below but the first opens it
// and carries out n operations; it is an error here if one of them is refused.

/// The number of the refusal, 0 for none.
pub fn open(image: &[u8], real: usize) -> u32 {
    // SAFETY: as above.
    unsafe { port_open(image.as_ptr(), image.len(), real as u64) }
}

pub fn add(image: &mut [u8], real: usize, payload: &[u8], n: usize) {
    let (len, payload_len) = (image.len(), payload.len());
    // SAFETY: as above.
    let done = unsafe {
        port_add(image.as_mut_ptr(), len, real as u64, payload.as_ptr(), payload_len, n as u64)
    };
    assert_eq!(done, n as u64, "additions");
}

pub fn remove(image: &mut [u8], real: usize, n: usize) {
    // SAFETY: as above.
    let done = unsafe { port_remove(image.as_mut_ptr(), image.len(), real as u64, n as u64) };
    assert_eq!(done, n as u64, "removals");
}

pub fn clear(image: &mut [u8], real: usize, n: usize) {
    // SAFETY: as above.
    let done = unsafe { port_clear(image.as_mut_ptr(), image.len(), real as u64, n as u64) };
    assert_eq!(done, n as u64, "clearings");
}

pub fn peek(image: &[u8], real: usize, out: &mut [u8], n: usize) {
    let (len, out_len) = (image.len(), out.len());
    // SAFETY: as above.
    let done =
        unsafe { port_peek(image.as_ptr(), len, real as u64, out.as_mut_ptr(), out_len, n as u64) };
    assert_eq!(done, n as u64, "peeks");
}

pub fn iterate(image: &[u8], real: usize, out: &mut [u8], n: usize) {
    let (len, out_len) = (image.len(), out.len());
    // SAFETY: as above.
    let done = unsafe {
        port_iterate(image.as_ptr(), len, real as u64, out.as_mut_ptr(), out_len, n as u64)
    };
    assert_eq!(done, n as u64, "steps");
}
