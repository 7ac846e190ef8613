//! The line of each operation, spelled.

use super::Line;
use crate::language::{spell_bytes, spell_numbers};
use crate::state::{Settings, State};

pub fn crc(part: &[u8]) -> Line {
    format!("crc {}", spell_bytes(part)).into_bytes()
}

pub fn crc_joined(first: &[u8], second: &[u8]) -> Line {
    format!("crc_joined {} {}", spell_bytes(first), spell_bytes(second)).into_bytes()
}

pub fn slot_encode(fields: [u64; 6]) -> Line {
    format!("slot_encode {}", spell_numbers(&fields)).into_bytes()
}

pub fn slot_parse(slot: &[u8]) -> Line {
    format!("slot_parse {}", spell_bytes(slot)).into_bytes()
}

pub fn slot_check(fields: [u64; 6], real_len: u64) -> Line {
    format!("slot_check {} {real_len}", spell_numbers(&fields)).into_bytes()
}

pub fn elect(a: &[u8], b: &[u8]) -> Line {
    format!("elect {} {}", spell_bytes(a), spell_bytes(b)).into_bytes()
}

pub fn header_encode(seq: u64, backlink: u64, len: u64) -> Line {
    format!("header_encode {seq} {backlink} {len}").into_bytes()
}

pub fn header_parse(header: &[u8], capacity: u64) -> Line {
    format!("header_parse {} {capacity}", spell_bytes(header)).into_bytes()
}

pub fn footer_encode(seq: u64, payload: &[u8]) -> Line {
    format!("footer_encode {seq} {}", spell_bytes(payload)).into_bytes()
}

pub fn footer_check(footer: &[u8], seq: u64, payload: &[u8]) -> Line {
    format!("footer_check {} {seq} {}", spell_bytes(footer), spell_bytes(payload)).into_bytes()
}

pub fn legacy_encode(fields: [u64; 4]) -> Line {
    format!("legacy_encode {}", spell_numbers(&fields)).into_bytes()
}

pub fn legacy_parse(header: &[u8]) -> Line {
    format!("legacy_parse {}", spell_bytes(header)).into_bytes()
}

pub fn v1_encode(fields: [u64; 4]) -> Line {
    format!("v1_encode {}", spell_numbers(&fields)).into_bytes()
}

pub fn v1_parse(header: &[u8]) -> Line {
    format!("v1_parse {}", spell_bytes(header)).into_bytes()
}

pub fn state(state: State) -> Line {
    format!("state {state}").into_bytes()
}

pub fn poke(offset: u64, bytes: &[u8]) -> Line {
    format!("poke {offset} {}", spell_bytes(bytes)).into_bytes()
}

pub fn extend(len: u64) -> Line {
    format!("extend {len}").into_bytes()
}

pub fn ring_add(place: u64, distance: u64) -> Line {
    format!("ring_add {place} {distance}").into_bytes()
}

pub fn ring_distance(from: u64, to: u64) -> Line {
    format!("ring_distance {from} {to}").into_bytes()
}

pub fn ring_read(place: u64, len: u64) -> Line {
    format!("ring_read {place} {len}").into_bytes()
}

pub fn ring_write(place: u64, bytes: &[u8]) -> Line {
    format!("ring_write {place} {}", spell_bytes(bytes)).into_bytes()
}

pub fn ring_erase(place: u64, len: u64) -> Line {
    format!("ring_erase {place} {len}").into_bytes()
}

pub fn relocate(old_len: u64, count: u64) -> Line {
    format!("relocate {old_len} {count}").into_bytes()
}

pub fn image(bytes: &[u8], settings: Settings) -> Line {
    format!("image {} {}", spell_bytes(bytes), spell_settings(settings)).into_bytes()
}

pub fn reopen(settings: Settings) -> Line {
    format!("reopen {}", spell_settings(settings)).into_bytes()
}

pub fn recover(place: u64, seq: u64, n: u32) -> Line {
    format!("recover {place} {seq} {n}").into_bytes()
}

pub fn used() -> Line {
    b"used".to_vec()
}

pub fn peek() -> Line {
    b"peek".to_vec()
}

pub fn peek_into(len: u64) -> Line {
    format!("peek_into {len}").into_bytes()
}

pub fn iterate() -> Line {
    b"iterate".to_vec()
}

pub fn step(index: u64, place: u64, len: u64) -> Line {
    format!("step {index} {place} {len}").into_bytes()
}

pub fn overwrite(flag: bool) -> Line {
    format!("overwrite {}", u8::from(flag)).into_bytes()
}

pub fn capacity(capacity: u64) -> Line {
    format!("capacity {capacity}").into_bytes()
}

fn spell_settings(settings: Settings) -> String {
    format!("{} {}", settings.capacity, u8::from(settings.overwrite))
}

pub fn fresh(len: u64, settings: Settings) -> Line {
    format!("fresh {len} {}", spell_settings(settings)).into_bytes()
}

pub fn add(payload: &[u8]) -> Line {
    format!("add {}", spell_bytes(payload)).into_bytes()
}

pub fn remove(n: u64) -> Line {
    format!("remove {n}").into_bytes()
}

pub fn clear() -> Line {
    b"clear".to_vec()
}

pub fn commit() -> Line {
    b"commit".to_vec()
}

pub fn grow(span: u64) -> Line {
    format!("grow {span}").into_bytes()
}

pub fn grow_length(len: u64, remaining: u64, span: u64) -> Line {
    format!("grow_length {len} {remaining} {span}").into_bytes()
}
