//! zlib's CRC-32, a second yardstick.

extern "C" {
    #[link_name = "crc32_z"]
    fn zlib_crc32(start: std::ffi::c_ulong, part: *const u8, len: usize) -> std::ffi::c_ulong;
}

pub fn crc32(part: &[u8]) -> u32 {
    // SAFETY: the pointer and the length are a slice's.
    unsafe { zlib_crc32(0, part.as_ptr(), part.len()) as u32 }
}
