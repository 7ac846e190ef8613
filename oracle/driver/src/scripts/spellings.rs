//! The family `bad`: lines that break a rule of the language, beside lines that only look as if
//! they did, and scripts that end or are cut in odd places.

use super::codec_spellings::{mutated_codec, too_long_for_a_codec, wrong_codecs};
use super::lines::{crc, crc_joined};
use super::queue_spellings::{longest_images, mutated_queue_lines, wrong_queue_lines};
use super::ring_spellings::{mutated_ring_lines, wrong_ring_lines};
use super::writing_spellings::{mutated_writing_lines, wrong_writing_lines};
use super::{joined, packed, queue_spellings, ring_spellings, writing_spellings, Line, Script};
use crate::language::{BYTES_LIMIT, SCRIPT_LIMIT};
use crate::random::Random;

#[rustfmt::skip]
pub const ODD_LINES: &[&str] = &[
    // Words that are none.
    "c", "cr", "crcs 00", "crc32 00", "CRC 00", "Crc 00", "crC 00", "_crc 00", "crc_ 00",
    "crc_joine 00 00", "crc_joinedd 00 00", "crc-joined 00 00", "crcjoined 00 00",
    "CRC_JOINED 00 00", "crc_Joined 00 00", "joined 00 00", "00", "-", "bad", "skip",
    "0 0 0 : 00000000", "crc00", "crc-", "crc_joined00 00",
    // Words too few or too many.
    "crc", "crc 00 00", "crc - -", "crc 00 -", "crc 00 00 00", "crc crc 00", "crc crc",
    "crc_joined", "crc_joined 00", "crc_joined -", "crc_joined 00 00 00", "crc_joined - - -",
    "crc_joined 00 00 crc_joined 00 00",
    // Spaces too many, and what is no space.
    " ", "  ", "   ", " crc 00", "  crc 00", "crc 00 ", "crc 00  ", "crc  00", "crc ", "crc  ",
    " crc", " crc 00 ", "crc 0 0", "crc_joined  00 00", "crc_joined 00  00", "crc_joined 00 00 ",
    " crc_joined 00 00", "crc_joined 00 ", "crc_joined  00", "crc_joined  ", "crc_joined ",
    "crc\t00", "\tcrc 00", "crc 00\t", "crc \t00", "\t", "crc\u{b}00", "crc\u{c}00",
    // Digits that are none.
    "crc AB", "crc aB", "crc Ab", "crc FF", "crc 0A", "crc A0", "crc 00FF", "crc ffFF",
    "crc 0x00", "crc 0X00", "crc x0", "crc 00h", "crc +0", "crc +00", "crc 0.", "crc 0,0",
    "crc \"00\"", "crc \\x00", "crc 00_00", "crc 00:00", "crc gg", "crc 0g", "crc g0", "crc 00zz",
    "crc zz00", "crc_joined AA 00", "crc_joined 00 AA", "crc_joined gg 00", "crc_joined 00 gg",
    // Half a byte.
    "crc 0", "crc 000", "crc f", "crc abc", "crc 0123456789abcde", "crc_joined 0 00",
    "crc_joined 00 0", "crc_joined 0 0", "crc_joined - 0", "crc_joined 0 -",
    // No bytes, well and badly spelled.
    "crc -", "crc --", "crc ---", "crc -0", "crc 0-", "crc -00", "crc 00-", "crc 00-00", "crc _",
    "crc_joined - -", "crc_joined - 00", "crc_joined 00 -", "crc_joined -- -", "crc_joined - --",
    "crc_joined -00 -", "crc_joined - -00",
    // Comments, and what is none.
    "#", "##", "# crc 00", "#crc 00", "#\t", "# ", " #", " # crc 00", "crc 00 #", "crc 00#",
    "crc 00 # a comment", "crc # 00", "crc #", "\t# crc 00",
    // Nothing at all.
    "", "",
    // Returns and zeros, which are bytes like any other.
    "\r", "crc 00\r", "crc\r00", "\rcrc 00", "crc 00 \r", "#\r", "crc -\r", "\0", "crc 00\0",
    "crc \0", "\0crc 00", "#\0",
    // Numbers at the limits of their words, with zeros before them, and what is none.
    "slot_check 16584 4294967295 8236 8324 6 5 16584",
    "slot_check 16584 4294967296 8236 8324 6 5 16584",
    "slot_encode 16584 4294967296 8236 8324 6 5", "legacy_encode 4096 4294967296 16 120",
    "header_encode 18446744073709551615 0 0", "header_encode 18446744073709551616 0 0",
    "header_encode 0002 0000000000000000000000000008192 00", "header_encode 2 8192 ff",
    "header_encode +2 8192 0", "header_encode 2 -1 0", "header_encode 0x2 8192 0",
    // Well spelled, with every digit.
    "crc 0123456789abcdef", "crc 00", "crc ff", "crc_joined 0123 456789abcdef", "crc_joined 00 ff",
];

const MUTATIONS: usize = 300;
/// What a mutation puts in: characters with a meaning, and neighbours of those.
const PALETTE: &[u8] = b" -#\n0af9gAF_/:`@\r\t\0\x7f\x80\xff";

pub fn scripts(random: &mut Random) -> Vec<Script> {
    let mut lines: Vec<Line> = Vec::new();
    lines.extend(ODD_LINES.iter().map(|line| line.as_bytes().to_vec()));
    lines.extend((0..=255).flat_map(with_byte));
    lines.extend((0..MUTATIONS).map(|_| mutated(random)));

    let mut scripts = packed(lines);
    scripts.extend(odd_ends());
    scripts.extend(around_the_bytes_limit(random));
    scripts.extend(around_the_script_limit(random));
    scripts.extend(packed(wrong_codecs()));
    scripts.extend(packed((0..MUTATIONS).map(|_| mutated_codec(random))));
    scripts.extend(packed(too_long_for_a_codec(random)));
    scripts.push(joined(&ring_spellings::without_a_state()));
    scripts.extend(wrong_ring_lines());
    scripts.push(mutated_ring_lines(random, MUTATIONS));
    scripts.push(joined(&queue_spellings::without_a_state()));
    scripts.push(joined(&wrong_queue_lines()));
    scripts.push(mutated_queue_lines(random, MUTATIONS));
    scripts.extend(longest_images(random));
    scripts.push(joined(&writing_spellings::without_a_state()));
    scripts.push(joined(&wrong_writing_lines()));
    scripts.push(mutated_writing_lines(random, MUTATIONS));
    scripts
}

/// One byte alone, in place of a space, and in place of either digit.
fn with_byte(byte: u8) -> [Line; 4] {
    [
        vec![byte],
        [b"crc", &[byte] as &[u8], b"00"].concat(),
        [b"crc 0" as &[u8], &[byte]].concat(),
        [b"crc ", &[byte] as &[u8], b"0"].concat(),
    ]
}

/// A good line of one of the checksums, spoiled.
fn mutated(random: &mut Random) -> Line {
    let len = random.below(6);
    let part = random.bytes(len);
    let line = match random.below(2) {
        0 => crc(&part),
        _ => crc_joined(&part[..len / 2], &part[len / 2..]),
    };
    with_a_byte_changed(random, line)
}

/// The line with one byte changed, put in or taken out.
pub fn with_a_byte_changed(random: &mut Random, mut line: Line) -> Line {
    let place = random.below(line.len());
    let byte = PALETTE[random.below(PALETTE.len())];
    match random.below(3) {
        0 => line[place] = byte,
        1 => line.insert(place, byte),
        _ => drop(line.remove(place)),
    }
    line
}

/// Scripts with an odd end, the last line without a newline among them.
fn odd_ends() -> Vec<Script> {
    let scripts: [&[u8]; 12] = [
        b"",
        b"\n",
        b"\n\n\n",
        b"#",
        b"# only a comment",
        b"crc 00",
        b"crc 00\ncrc 01",
        b"crc 00\ncrc 0",
        b"crc 00\ncrc",
        b"crc 00\ncrc ",
        b"crc 00\n\n",
        b"crc 00\n\r",
    ];
    scripts.map(<[u8]>::to_vec).to_vec()
}

/// Byte strings as long as the limit, and longer by a digit and by a byte.
fn around_the_bytes_limit(random: &mut Random) -> Vec<Script> {
    let longest = random.bytes(BYTES_LIMIT);
    let longer = random.bytes(BYTES_LIMIT + 1);
    let longer_by_a_digit = [&crc(&longest) as &[u8], b"0"].concat();
    let first_too_long = crc_joined(&longer, &[]);
    let second_too_long = crc_joined(&[], &longer);
    packed([
        crc(&longest),
        crc(&longer),
        longer_by_a_digit,
        crc_joined(&longest, &[]),
        crc_joined(&[], &longest),
        first_too_long,
        second_too_long,
    ])
}

/// Scripts that reach the limit or pass it: what lies beyond is not read, so the last line is what
/// the limit leaves of it.
fn around_the_script_limit(random: &mut Random) -> Vec<Script> {
    let beyond = b"crc 00\nnot read\n";
    let surplus = |last_read: &[u8], rest: &[u8]| {
        [&filled_before(last_read) as &[u8], last_read, rest, beyond].concat()
    };
    vec![
        two_longest_parts(random),
        filled_before(b""),
        surplus(b"crc 01\n", b""),
        surplus(b"crc 01", b"\n"),
        surplus(b"crc 01", b"02\n"),
        surplus(b"crc 01", b"0\n"),
        surplus(b"crc 0", b"1\n"),
        surplus(b"crc ", b"01\n"),
        surplus(b"crc", b" 01\n"),
        surplus(b"c", b"rc 01\n"),
        surplus(b"#", b" a comment\n"),
        surplus(b"\n", b"crc 01\n"),
        packed_beyond_the_limit(random),
    ]
}

/// One line of two parts that fills a script to its last byte: the second is as long as there is
/// room.
fn two_longest_parts(random: &mut Random) -> Script {
    let first = random.bytes(BYTES_LIMIT);
    let room = SCRIPT_LIMIT - "crc_joined  ".len() - 2 * BYTES_LIMIT;
    crc_joined(&first, &random.bytes(room / 2))
}

/// A good line and a comment that ends where only `last` fits before the limit.
fn filled_before(last: &[u8]) -> Script {
    let mut script = b"crc 00\n#".to_vec();
    script.resize(SCRIPT_LIMIT - last.len() - 1, b'x');
    script.push(b'\n');
    script
}

/// Good lines of equal length well beyond the limit, which cuts one of them.
fn packed_beyond_the_limit(random: &mut Random) -> Script {
    let mut script = Script::new();
    while script.len() < SCRIPT_LIMIT + SCRIPT_LIMIT / 2 {
        script.extend(crc(&random.bytes(5000)));
        script.push(b'\n');
    }
    script
}

#[cfg(test)]
mod tests {
    use super::*;

    #[test]
    fn the_longest_line_fills_a_script() {
        assert_eq!(two_longest_parts(&mut Random::new(1)).len(), SCRIPT_LIMIT);
    }

    #[test]
    fn filling_leaves_room_for_the_last_line() {
        assert_eq!(filled_before(b"crc 01\n").len(), SCRIPT_LIMIT - 7);
    }
}
