//! The family `elements`: element headers and footers at their limits, spoiled in each place, and
//! against payloads of every short length.

use queue_file::inside::format::V2_ELEM_OVERHEAD;

use super::layouts::{
    each_bit_flipped, each_byte_replaced, each_shorter, element_header, flipped, footer, longer,
    sealed, sealed_footer, FOOTER_CRC, HEADER_CRC,
};
use super::limits::{around_limits, combinations, LARGEST_I32};
use super::lines::{footer_check, footer_encode, header_encode, header_parse};
use super::{packed, Line, Script};
use crate::language::BYTES_LIMIT;
use crate::random::Random;

const RANDOM_ENCODED: usize = 8000;
const GOOD_HEADERS: usize = 2500;
const UNNUMBERED_HEADERS: usize = 500;
const FLIPPED_HEADERS: usize = 20;
const RANDOM_HEADERS: usize = 1500;
/// Payloads of every length up to here occur.
const LONGEST_SHORT: usize = 200;
const LONG_PAYLOADS: usize = 100;
const LONGEST_LONG: usize = 4096;
const FLIPPED_FOOTERS: usize = 24;
const RANDOM_FOOTERS: usize = 1000;

pub fn scripts(random: &mut Random) -> Vec<Script> {
    let mut lines = headers_encoded(random);
    lines.extend(headers_parsed(random));
    lines.extend(headers_judged_in_order(random));
    lines.extend(headers_damaged(random));
    lines.extend(headers_of_other_lengths(random));
    lines.extend(footers_encoded(random));
    lines.extend(footers_checked(random));
    lines.extend(footers_judged_in_order(random));
    lines.extend(footers_damaged(random));
    lines.extend(footers_of_other_lengths(random));
    lines.extend(long_payloads(random));
    packed(lines)
}

/// Every combination of limits, and random fields. The Rust has no answer to the longest lengths,
/// which are therefore few.
fn headers_encoded(random: &mut Random) -> Vec<Line> {
    let around = around_limits();
    let (fitting, too_long): (Vec<u64>, Vec<u64>) =
        around.iter().partition(|len| **len <= LARGEST_I32);
    let mut lines: Vec<Line> = Vec::new();
    lines.extend(
        combinations([&around, &around, &fitting])
            .map(|[seq, backlink, len]| header_encode(seq, backlink, len)),
    );
    lines.extend(
        combinations([&[0, 1, u64::MAX], &[0, 8192], &too_long])
            .map(|[seq, backlink, len]| header_encode(seq, backlink, len)),
    );
    lines.extend(
        (0..RANDOM_ENCODED)
            .map(|_| header_encode(random.sized(64), random.sized(64), random.sized(31))),
    );
    lines
}

/// A sequence that the parser accepts.
fn sequence(random: &mut Random) -> u64 {
    random.sized(64).max(1)
}

/// A header that the parser accepts where there is room for its span, and that span.
fn good_header(random: &mut Random) -> (Vec<u8>, u64) {
    let len = random.sized(31);
    (element_header(sequence(random), random.sized(64), len as u32), V2_ELEM_OVERHEAD + len)
}

/// Capacities around a span, the ends and any.
fn capacities(random: &mut Random, span: u64) -> [u64; 6] {
    [span - 1, span, span + 1, 0, u64::MAX, random.sized(64)]
}

/// Good headers in rings just large enough and just too small, headers with sequence 0, and each
/// field at its limits.
fn headers_parsed(random: &mut Random) -> Vec<Line> {
    let around = around_limits();
    let mut lines = Vec::new();
    for _ in 0..GOOD_HEADERS {
        let (header, span) = good_header(random);
        lines.extend(capacities(random, span).map(|capacity| header_parse(&header, capacity)));
    }
    for _ in 0..UNNUMBERED_HEADERS {
        let header = element_header(0, random.sized(64), random.sized(31) as u32);
        lines.push(header_parse(&header, random.sized(64)));
    }
    for [seq, backlink] in combinations([&around; 2]) {
        let (len, capacity) = (random.sized(31), random.pick(&around));
        lines.push(header_parse(&element_header(seq, backlink, len as u32), capacity));
    }
    for [len, capacity] in combinations([&around; 2]) {
        let header = element_header(sequence(random), random.sized(64), len as u32);
        lines.push(header_parse(&header, capacity));
    }
    lines
}

/// Every way to be wrong in several places at once, so that it shows which is judged first.
fn headers_judged_in_order(random: &mut Random) -> Vec<Line> {
    let lens = [0, 1, LARGEST_I32, LARGEST_I32 + 1, LARGEST_I32 + 2, 0xffff_fffe, 0xffff_ffff];
    let mut lines = Vec::new();
    for [len, seq, backlink] in combinations([&lens, &[0, 1, u64::MAX], &[0, 8192, u64::MAX]]) {
        let good = element_header(seq, backlink, len as u32);
        let other_magic = flipped(&good, random.below(32));
        let other_crc = flipped(&good, 8 * HEADER_CRC + random.below(32));
        let resealed = sealed(&other_magic[..HEADER_CRC]);
        for header in [good, other_magic, other_crc, resealed] {
            let capacities = capacities(random, V2_ELEM_OVERHEAD + len);
            lines.extend(capacities.map(|capacity| header_parse(&header, capacity)));
        }
    }
    lines
}

/// Headers spoiled by a byte or a bit, and random bytes, both with the CRC as it was and mended.
fn headers_damaged(random: &mut Random) -> Vec<Line> {
    let mut lines: Vec<Line> = Vec::new();
    let (good, span) = good_header(random);
    lines.extend(each_byte_replaced(&good).map(|header| header_parse(&header, span)));
    lines.extend(
        each_byte_replaced(&good[..HEADER_CRC]).map(|front| header_parse(&sealed(&front), span)),
    );
    for _ in 0..FLIPPED_HEADERS {
        let (good, span) = good_header(random);
        let capacity = |random: &mut Random| {
            let capacities = capacities(random, span);
            random.pick(&capacities)
        };
        lines.extend(each_bit_flipped(&good).map(|header| header_parse(&header, capacity(random))));
        lines.extend(
            each_bit_flipped(&good[..HEADER_CRC])
                .map(|front| header_parse(&sealed(&front), capacity(random))),
        );
    }
    for _ in 0..RANDOM_HEADERS {
        // Nothing is right, or the magic is.
        let right = random.pick(&[0, 4]);
        let front = longer(random, &good[..right], HEADER_CRC - right);
        lines.push(header_parse(&longer(random, &front, 4), random.sized(64)));
        lines.push(header_parse(&sealed(&front), random.sized(64)));
    }
    lines
}

/// Longer strings, of which the first bytes count, and shorter ones.
fn headers_of_other_lengths(random: &mut Random) -> Vec<Line> {
    let mut lines: Vec<Line> = Vec::new();
    for surplus in (1..=64).chain([200, 4096]) {
        let (good, span) = good_header(random);
        let bad = flipped(&good, random.below(8 * good.len()));
        lines.push(header_parse(&longer(random, &good, surplus), span));
        lines.push(header_parse(&longer(random, &good, surplus), span - 1));
        lines.push(header_parse(&longer(random, &bad, surplus), span));
    }
    let (good, _) = good_header(random);
    for whole in [good, vec![0; 28]] {
        lines.extend(each_shorter(&whole).map(|header| header_parse(&header, u64::MAX)));
    }
    lines
}

/// Every short length with every limit, and random sequences.
fn footers_encoded(random: &mut Random) -> Vec<Line> {
    let mut lines = Vec::new();
    for len in 0..=LONGEST_SHORT {
        for seq in around_limits() {
            lines.push(footer_encode(seq, &random.bytes(len)));
        }
        lines.push(footer_encode(random.sized(64), &random.bytes(len)));
    }
    lines
}

/// Every short length: good footers, and what a footer refuses: another sequence, and a payload
/// that differs in a bit, in a byte or in its length.
fn footers_checked(random: &mut Random) -> Vec<Line> {
    let around = around_limits();
    let mut lines = Vec::new();
    for len in 0..=LONGEST_SHORT {
        let payload = random.bytes(len);
        for seq in [random.pick(&around), random.pick(&around), random.sized(64)] {
            let footer = footer(seq, &payload);
            let (before, behind) = (seq.wrapping_sub(1), seq.wrapping_add(1));
            for asked in [seq, before, behind, seq ^ (1 << 63), random.next()] {
                lines.push(footer_check(&footer, asked, &payload));
            }
            for other in other_payloads(random, &payload) {
                lines.push(footer_check(&footer, seq, &other));
            }
        }
    }
    for [seq, asked] in combinations([&around; 2]) {
        let payload = random.bytes(9);
        lines.push(footer_check(&footer(seq, &payload), asked, &payload));
    }
    let payload = random.bytes(24);
    let good = footer(5, &payload);
    lines.extend(each_bit_flipped(&payload).map(|payload| footer_check(&good, 5, &payload)));
    lines
}

/// Payloads that are not this one: longer and, where that can be, shorter or changed.
fn other_payloads(random: &mut Random, payload: &[u8]) -> Vec<Vec<u8>> {
    let mut others = vec![longer(random, payload, 1), [payload, b"\0"].concat()];
    if let Some((_, shorter)) = payload.split_last() {
        let bit = random.below(8 * payload.len());
        let mut replaced = payload.to_vec();
        replaced[random.below(payload.len())] ^= 1 + random.below(255) as u8;
        others.extend([shorter.to_vec(), flipped(payload, bit), replaced]);
    }
    others
}

/// Every way to be wrong in several places at once, so that it shows which is judged first.
fn footers_judged_in_order(random: &mut Random) -> Vec<Line> {
    let mut lines = Vec::new();
    for _ in 0..FLIPPED_FOOTERS {
        let len = random.below(40);
        let (seq, payload) = (random.sized(64), random.bytes(len));
        let good = footer(seq, &payload);
        let magic = flipped(&good, random.below(32));
        let crc = flipped(&good, 8 * FOOTER_CRC + random.below(32));
        let both = flipped(&magic, 8 * FOOTER_CRC + random.below(32));
        let resealed = sealed_footer(&magic[..FOOTER_CRC], &payload);
        for footer in [good, magic, crc, both, resealed] {
            lines.push(footer_check(&footer, seq, &payload));
            lines.push(footer_check(&footer, seq.wrapping_add(1), &payload));
        }
    }
    lines
}

/// Footers spoiled by a byte or a bit, and random bytes, both with the CRC as it was and mended.
fn footers_damaged(random: &mut Random) -> Vec<Line> {
    let mut lines: Vec<Line> = Vec::new();
    let payload = random.bytes(5);
    let good = footer(77, &payload);
    lines.extend(each_byte_replaced(&good).map(|footer| footer_check(&footer, 77, &payload)));
    lines.extend(
        each_byte_replaced(&good[..FOOTER_CRC])
            .map(|front| footer_check(&sealed_footer(&front, &payload), 77, &payload)),
    );
    for nth in 0..FLIPPED_FOOTERS {
        let (seq, payload) = (random.sized(64), random.bytes(2 * nth));
        let good = footer(seq, &payload);
        lines.extend(each_bit_flipped(&good).map(|footer| footer_check(&footer, seq, &payload)));
        lines.extend(
            each_bit_flipped(&good[..FOOTER_CRC])
                .map(|front| footer_check(&sealed_footer(&front, &payload), seq, &payload)),
        );
    }
    for _ in 0..RANDOM_FOOTERS {
        // Nothing is right, or the magic is, or the sequence too.
        let right = random.pick(&[0, 4, FOOTER_CRC]);
        let front = longer(random, &good[..right], FOOTER_CRC - right);
        lines.push(footer_check(&longer(random, &front, 4), 77, &payload));
        lines.push(footer_check(&sealed_footer(&front, &payload), 77, &payload));
    }
    lines
}

/// Longer strings, of which the first bytes count, and shorter ones.
fn footers_of_other_lengths(random: &mut Random) -> Vec<Line> {
    let mut lines: Vec<Line> = Vec::new();
    for surplus in (1..=64).chain([200, 4096]) {
        let (seq, payload) = (random.sized(64), random.bytes(surplus % 16));
        let good = footer(seq, &payload);
        let bad = flipped(&good, random.below(8 * good.len()));
        lines.push(footer_check(&longer(random, &good, surplus), seq, &payload));
        lines.push(footer_check(&longer(random, &bad, surplus), seq, &payload));
    }
    for whole in [footer(1, &[]), vec![0; 16]] {
        lines.extend(each_shorter(&whole).map(|footer| footer_check(&footer, 1, &[])));
    }
    lines
}

/// Payloads of up to a page and one as long as a string can be, both ways, right and with a byte
/// that differs.
fn long_payloads(random: &mut Random) -> Vec<Line> {
    let mut lines = Vec::new();
    for nth in 0..=LONG_PAYLOADS {
        let len = if nth == 0 { BYTES_LIMIT } else { 1 + random.below(LONGEST_LONG) };
        let (seq, payload) = (random.sized(64), random.bytes(len));
        let good = footer(seq, &payload);
        let other = flipped(&payload, random.below(8 * len));
        lines.push(footer_encode(seq, &payload));
        lines.push(footer_check(&good, seq, &payload));
        lines.push(footer_check(&good, seq, &other));
    }
    lines
}
