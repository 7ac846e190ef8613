//! CRC-32 of a part and of two parts joined.

use queue_file::inside::{format, header};

use crate::language::{accepted, bytes, spell_crc};

pub fn crc(part: &[u8]) -> Option<String> {
    let crc = header::crc32(&bytes(part)?);
    Some(accepted(spell_crc(crc)))
}

pub fn crc_joined(first: &[u8], second: &[u8]) -> Option<String> {
    let crc = format::compute_elem_footer_crc(&bytes(first)?, &bytes(second)?);
    Some(accepted(spell_crc(crc)))
}
