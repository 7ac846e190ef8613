//! The bytes of each layout, whatever its fields hold, and the ways to spoil them. Good bytes come
//! from the upstream code, whose encoders of slot and element header cut what does not fit.

use queue_file::inside::format;
use queue_file::inside::header::{self, SlotData};

use crate::random::Random;

/// Where the CRC stands in each layout that has one, and how many bytes it covers.
pub const SLOT_CRC: usize = 52;
pub const HEADER_CRC: usize = 24;
pub const FOOTER_CRC: usize = 12;

/// The fields with one of them replaced.
pub fn with<const N: usize>(mut fields: [u64; N], field: usize, value: u64) -> [u64; N] {
    fields[field] = value;
    fields
}

/// A slot with these fields, in the order of its operations.
pub fn slot([file_len, count, first, last, generation, next_seq]: [u64; 6]) -> Vec<u8> {
    let slot = SlotData {
        file_length: file_len,
        element_count: count as u32,
        first_position: first,
        last_position: last,
        generation,
        next_sequence_number: next_seq,
    };
    header::build_slot_bytes(&slot).to_vec()
}

pub fn element_header(seq: u64, backlink: u64, len: u32) -> Vec<u8> {
    format::encode_v2_element_header(seq, backlink, len as usize).to_vec()
}

pub fn footer(seq: u64, payload: &[u8]) -> Vec<u8> {
    format::encode_v2_footer(seq, payload).to_vec()
}

/// A Legacy header with these fields, or with what is left of them in 32 bits.
pub fn legacy(fields: [u64; 4]) -> Vec<u8> {
    fields.iter().flat_map(|field| (*field as u32).to_be_bytes()).collect()
}

/// A V1 header with this version word; only the count has but 32 bits.
pub fn v1(version: u32, [file_len, count, first, last]: [u64; 4]) -> Vec<u8> {
    let mut header = version.to_be_bytes().to_vec();
    header.extend(file_len.to_be_bytes());
    header.extend((count as u32).to_be_bytes());
    header.extend(first.to_be_bytes());
    header.extend(last.to_be_bytes());
    header
}

/// The bytes with their CRC behind them, as a slot and an element header have it.
pub fn sealed(front: &[u8]) -> Vec<u8> {
    [front, &header::crc32(front).to_be_bytes()].concat()
}

/// The bytes with the CRC of payload and bytes behind them, as a footer has it.
pub fn sealed_footer(front: &[u8], payload: &[u8]) -> Vec<u8> {
    [front, &format::compute_elem_footer_crc(payload, front).to_be_bytes()].concat()
}

pub fn flipped(good: &[u8], bit: usize) -> Vec<u8> {
    let mut bytes = good.to_vec();
    bytes[bit / 8] ^= 0x80 >> (bit % 8);
    bytes
}

pub fn each_bit_flipped(good: &[u8]) -> impl Iterator<Item = Vec<u8>> + '_ {
    (0..8 * good.len()).map(|bit| flipped(good, bit))
}

/// The bytes with one of them replaced: each, by every other value.
pub fn each_byte_replaced(good: &[u8]) -> impl Iterator<Item = Vec<u8>> + '_ {
    (0..good.len()).flat_map(move |place| {
        (1..=255).map(move |change: u8| {
            let mut bytes = good.to_vec();
            bytes[place] ^= change;
            bytes
        })
    })
}

/// What is left of the bytes at each smaller length, beginning with none.
pub fn each_shorter(good: &[u8]) -> impl Iterator<Item = Vec<u8>> + '_ {
    (0..good.len()).map(|len| good[..len].to_vec())
}

/// The bytes with as many more behind them.
pub fn longer(random: &mut Random, good: &[u8], surplus: usize) -> Vec<u8> {
    [good, &random.bytes(surplus)].concat()
}

#[cfg(test)]
mod tests {
    use super::*;

    #[test]
    fn a_sealed_layout_is_as_the_upstream_code_makes_it() {
        let slot = slot([8292, 1, 8192, 8192, 2, 2]);
        assert_eq!(sealed(&slot[..SLOT_CRC]), slot);
        let header = element_header(1, 0, 9);
        assert_eq!(sealed(&header[..HEADER_CRC]), header);
        let footer = footer(1, b"123456789");
        assert_eq!(sealed_footer(&footer[..FOOTER_CRC], b"123456789"), footer);
    }

    #[test]
    fn damage_is_in_one_place_and_in_every_one() {
        let good = [0x00, 0xa5];
        let bits: Vec<_> = each_bit_flipped(&good).collect();
        assert_eq!(bits.len(), 16);
        assert_eq!((&bits[0], &bits[15]), (&vec![0x80, 0xa5], &vec![0x00, 0xa4]));

        let bytes: Vec<_> = each_byte_replaced(&good).collect();
        assert_eq!(bytes.len(), 2 * 255);
        assert!(bytes.iter().all(|bytes| (bytes[0] == 0x00) != (bytes[1] == 0xa5)));
    }

    #[test]
    fn every_smaller_length_occurs() {
        let lengths: Vec<usize> = each_shorter(b"abc").map(|bytes| bytes.len()).collect();
        assert_eq!(lengths, [0, 1, 2]);
    }
}
