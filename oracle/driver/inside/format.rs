//! Public names for private functions of the upstream `format` module, and for what it shares only
//! within the crate.

use crate::error::Result;
use crate::header::V2_SLOT_LEN;
use crate::qio::DataRing;

pub use super::{
    elect_canonical_slot, parse_legacy_header, parse_versioned_header, validate_v2_slot_data,
    V2ElementHeader, V2_ELEM_FTR_LEN, V2_ELEM_HDR_LEN, V2_ELEM_OVERHEAD,
};

pub fn compute_elem_footer_crc(payload: &[u8], footer_start: &[u8]) -> u32 {
    super::compute_elem_footer_crc(payload, footer_start)
}

pub fn encode_v2_slot(
    file_len: u64,
    elem_cnt: usize,
    first_phys: u64,
    last_phys: u64,
    generation: u64,
    next_seq: u64,
) -> Result<[u8; V2_SLOT_LEN]> {
    super::encode_v2_slot(file_len, elem_cnt, first_phys, last_phys, generation, next_seq)
}

pub fn encode_v2_element_header(
    seq: u64,
    prev_phys: u64,
    payload_len: usize,
) -> [u8; V2_ELEM_HDR_LEN] {
    super::encode_v2_element_header(seq, prev_phys, payload_len)
}

pub fn parse_v2_element_header(
    hdr: &[u8; V2_ELEM_HDR_LEN],
    logical_pos: u64,
    capacity: u64,
) -> Result<V2ElementHeader> {
    super::parse_v2_element_header(hdr, logical_pos, capacity)
}

pub fn read_v2_element_header(ring: &DataRing<'_>, logical_pos: u64) -> Result<V2ElementHeader> {
    super::read_v2_element_header(ring, logical_pos)
}

pub fn encode_v2_footer(seq: u64, payload: &[u8]) -> [u8; V2_ELEM_FTR_LEN] {
    super::encode_v2_footer(seq, payload)
}

pub fn validate_v2_footer(
    ring: &DataRing<'_>,
    footer_pos: u64,
    seq: u64,
    payload: &[u8],
) -> Result<()> {
    super::validate_v2_footer(ring, footer_pos, seq, payload)
}

pub fn encode_legacy_header(
    file_len: u64,
    elem_cnt: usize,
    first_phys: u64,
    last_phys: u64,
) -> Result<[u8; 16]> {
    super::encode_legacy_header(file_len, elem_cnt, first_phys, last_phys)
}

pub fn encode_v1_header(
    file_len: u64,
    elem_cnt: usize,
    first_phys: u64,
    last_phys: u64,
) -> Result<[u8; 32]> {
    super::encode_v1_header(file_len, elem_cnt, first_phys, last_phys)
}
