//! The part of the sample that shows the codecs: each operation with each of its answers.

use super::layouts::{
    element_header, flipped, footer, legacy, sealed, sealed_footer, slot, v1, with, FOOTER_CRC,
    HEADER_CRC, SLOT_CRC,
};
use super::limits::{LARGEST_I32, LARGEST_I64, LARGEST_U32};
use super::lines::{
    elect, footer_check, footer_encode, header_encode, header_parse, legacy_encode, legacy_parse,
    slot_check, slot_encode, slot_parse, v1_encode, v1_parse,
};
use super::Line;

const NEGATIVE_I32: u64 = LARGEST_I32 + 1;
const NEGATIVE_I64: u64 = LARGEST_I64 + 1;

/// A slot of three elements, as an image has it after a growth.
const SLOT: [u64; 6] = [16584, 3, 8236, 8324, 6, 5];

/// Fields that are good, zero, and as large as can be; then each too large, alone and with all that
/// follow it.
fn field_limits<const N: usize>(good: [u64; N], largest: [u64; N]) -> Vec<[u64; N]> {
    let mut shown = vec![good, [0; N], largest];
    shown.extend((0..4).map(|field| with(good, field, largest[field] + 1)));
    for field in 0..3 {
        let mut followed = good;
        followed[field..].fill(u64::MAX);
        shown.push(followed);
    }
    shown
}

pub fn slots_encoded() -> Vec<Line> {
    let largest = [LARGEST_I64, LARGEST_U32, LARGEST_I64, LARGEST_I64, u64::MAX, u64::MAX];
    let mut shown = vec![[8192, 0, 0, 0, 1, 1]];
    shown.extend(field_limits(SLOT, largest));
    shown.into_iter().map(slot_encode).collect()
}

pub fn slots_parsed() -> Vec<Line> {
    let largest = [LARGEST_I64, LARGEST_I32, LARGEST_I64, LARGEST_I64, LARGEST_I64, LARGEST_I64];
    let good = slot(SLOT);
    let longer = [&good as &[u8], b"more"].concat();
    let mut shown = vec![good.clone(), slot([0; 6]), slot(largest), longer, vec![0; 56]];
    // Magic, version and each zero byte, then the sign of each field, under a CRC that is right.
    shown.extend([0, 4, 5, 6, 7].map(|byte| sealed(&flipped(&good, 8 * byte + 7)[..SLOT_CRC])));
    shown.extend((0..6).map(|field| slot(with(largest, field, largest[field] + 1))));
    // Under one that is wrong.
    shown.extend([0, 8, 51, 52, 55].map(|byte| flipped(&good, 8 * byte + 7)));
    shown.iter().map(|slot| slot_parse(slot)).collect()
}

pub fn slots_checked() -> Vec<Line> {
    let empty = [8192, 0, 0, 0, 1, 1];
    let full = [u64::MAX, LARGEST_U32, 8192, u64::MAX - 1, u64::MAX, u64::MAX];
    let mut lines = vec![
        slot_check(SLOT, 16584),
        slot_check(SLOT, 20000),
        slot_check(empty, 8192),
        slot_check(full, u64::MAX),
        slot_check([8193, 1, 8192, 8192, 0, 1], 8193),
        // Each refusal, and each with all that come later.
        slot_check(with(SLOT, 0, 8191), 16584),
        slot_check([8191, 0, 1, 0, 0, 0], 8190),
        slot_check(SLOT, 16583),
        slot_check([8192, 0, 1, 0, 0, 0], 8191),
        slot_check(with(SLOT, 5, 0), 16584),
        slot_check([8192, 0, 1, 0, 0, 0], 8192),
        slot_check([8192, 1, 0, 1, 0, 0], 8192),
    ];
    let pointers = [(8192, 0), (0, 8192), (1, 1)];
    lines.extend(pointers.map(|(first, last)| slot_check([16584, 0, first, last, 6, 5], 16584)));
    let pointers = [(0, 8192), (8192, 0), (0, 0), (100, 0), (0, 16584)];
    lines.extend(pointers.map(|(first, last)| slot_check([16584, 3, first, last, 6, 5], 16584)));
    let pointers = [(8191, 8192), (8192, 8191), (16584, 8192), (8192, 16584), (16583, 16583)];
    lines.extend(pointers.map(|(first, last)| slot_check([16584, 3, first, last, 6, 5], 16584)));
    lines
}

pub fn slots_elected() -> Vec<Line> {
    let of = |generation| slot(with(SLOT, 4, generation));
    let (five, six, none) = (of(5), of(6), Vec::new());
    let bad = flipped(&six, 8 * SLOT_CRC);
    let longer = [&six as &[u8], b"more"].concat();
    let other_five = slot([8192, 0, 0, 0, 5, 1]);
    let pairs = [
        (&five, &other_five),
        (&other_five, &five),
        (&five, &six),
        (&six, &five),
        (&of(0), &of(LARGEST_I64)),
        (&five, &bad),
        (&bad, &five),
        (&five, &longer),
        (&five, &six[..55].to_vec()),
        (&none, &five),
        (&five, &of(NEGATIVE_I64)),
        (&bad, &bad),
        (&none, &none),
        (&five[..55].to_vec(), &bad),
    ];
    pairs.iter().map(|(a, b)| elect(a, b)).collect()
}

pub fn headers_encoded() -> Vec<Line> {
    let fields = [
        (1, 0, 0),
        (2, 8192, 9),
        (0, 0, 0),
        (u64::MAX, u64::MAX, LARGEST_I32),
        (LARGEST_I64 + 1, 8191, 4096),
    ];
    fields.iter().map(|&(seq, backlink, len)| header_encode(seq, backlink, len)).collect()
}

pub fn headers_parsed() -> Vec<Line> {
    let good = element_header(2, 8192, 9);
    let front = |byte: usize| flipped(&good, 8 * byte + 7)[..HEADER_CRC].to_vec();
    let all_wrong = sealed(&flipped(&element_header(0, 0, u32::MAX), 0)[..HEADER_CRC]);
    vec![
        header_parse(&good, 100),
        header_parse(&good, 53),
        header_parse(&good, 52),
        header_parse(&good, 0),
        header_parse(&[&good as &[u8], b"123456789"].concat(), 53),
        header_parse(&element_header(u64::MAX, u64::MAX, i32::MAX as u32), LARGEST_I32 + 44),
        header_parse(&element_header(u64::MAX, u64::MAX, i32::MAX as u32), LARGEST_I32 + 43),
        header_parse(&element_header(1, 0, 0), 44),
        header_parse(&element_header(1, 0, 0), 43),
        // The magic, then the length, the sequence and the CRC, each with all that come later.
        header_parse(&sealed(&front(0)), 100),
        header_parse(&all_wrong, 0),
        header_parse(&[0; 28], 0),
        header_parse(&element_header(1, 0, NEGATIVE_I32 as u32), u64::MAX),
        header_parse(&flipped(&element_header(0, 0, u32::MAX), 200), 0),
        header_parse(&element_header(0, 0, 0), 44),
        header_parse(&flipped(&element_header(0, 0, 0), 200), 0),
        header_parse(&flipped(&good, 8 * HEADER_CRC), 100),
        header_parse(&flipped(&good, 8 * 12), 0),
        header_parse(&sealed(&front(12)), 100),
        header_parse(&sealed(&front(23)), 52),
    ]
}

pub fn footers_encoded() -> Vec<Line> {
    vec![
        footer_encode(1, b""),
        footer_encode(0, b""),
        footer_encode(2, b"123456789"),
        footer_encode(u64::MAX, &[0; 4]),
        footer_encode(LARGEST_I64 + 1, &[0xff; 40]),
    ]
}

pub fn footers_checked() -> Vec<Line> {
    let payload: &[u8] = b"123456789";
    let good = footer(2, payload);
    let other_magic = flipped(&good, 31);
    vec![
        footer_check(&good, 2, payload),
        footer_check(&[&good as &[u8], payload].concat(), 2, payload),
        footer_check(&footer(0, b""), 0, b""),
        footer_check(&footer(u64::MAX, &[0; 40]), u64::MAX, &[0; 40]),
        footer_check(&other_magic, 2, payload),
        footer_check(&sealed_footer(&other_magic[..FOOTER_CRC], payload), 2, payload),
        footer_check(&[0; 16], 2, payload),
        footer_check(&good, 3, payload),
        footer_check(&good, 0, b""),
        footer_check(&flipped(&good, 8 * 11), 2, payload),
        footer_check(&flipped(&good, 8 * FOOTER_CRC), 2, payload),
        footer_check(&flipped(&good, 8 * 16 - 1), 2, payload),
        footer_check(&good, 2, b"123456780"),
        footer_check(&good, 2, b"12345678"),
        footer_check(&good, 2, b"1234567890"),
        footer_check(&good, 2, b""),
    ]
}

pub fn legacy_headers() -> Vec<Line> {
    let (good, largest) = ([4096, 2, 16, 120], [LARGEST_I32; 4]);
    let mut lines: Vec<Line> = field_limits(good, largest).into_iter().map(legacy_encode).collect();
    let mut shown: Vec<Vec<u8>> = field_limits(good, largest).into_iter().map(legacy).collect();
    shown.push([&legacy(good) as &[u8], b"more"].concat());
    lines.extend(shown.iter().map(|header| legacy_parse(header)));
    lines
}

pub fn v1_headers() -> Vec<Line> {
    let good = [4096, 2, 32, 136];
    let largest = [LARGEST_I64, LARGEST_I32, LARGEST_I64, LARGEST_I64];
    let mut lines: Vec<Line> = field_limits(good, largest).into_iter().map(v1_encode).collect();
    let mut shown: Vec<Vec<u8>> =
        field_limits(good, largest).into_iter().map(|fields| v1(0x8000_0001, fields)).collect();
    shown.push([&v1(0x8000_0001, good) as &[u8], b"more"].concat());
    // The version is judged first, without its top bit.
    shown.push(v1(1, good));
    for version in [0, 2, 0x8000_0000, 0x8000_0002, u32::MAX] {
        shown.push(v1(version, good));
    }
    shown.push(v1(2, [u64::MAX; 4]));
    lines.extend(shown.iter().map(|header| v1_parse(header)));
    lines
}
