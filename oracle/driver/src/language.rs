//! The replay language: how a script falls into lines and words, how a word is read, and how an
//! answer is spelled. A word that breaks the rules reads as `None`, and its line answers `bad`.

use std::fmt::Display;

use crate::refusals::Refusal;

/// How much of a script is read, in bytes.
pub const SCRIPT_LIMIT: usize = 1 << 20;
/// The longest byte string.
pub const BYTES_LIMIT: usize = 262_144;
/// The longest output of an operation, in bytes.
pub const OUTPUT_LIMIT: usize = 65_536;
/// The byte string of no bytes.
pub const NO_BYTES: &str = "-";
/// What the driver answers where the Rust has nothing to compare with.
pub const SKIP: &str = "skip";
/// What both sides answer to a line that is no operation.
pub const BAD: &str = "bad";

/// The lines that are answered: all but empty ones and comments.
pub fn lines(script: &[u8]) -> impl Iterator<Item = &[u8]> {
    script.split(|byte| *byte == b'\n').filter(|line| !line.is_empty() && !line.starts_with(b"#"))
}

/// The words of a line. A space too many leaves an empty word, which no operation accepts.
pub fn words(line: &[u8]) -> Vec<&[u8]> {
    line.split(|byte| *byte == b' ').collect()
}

/// A decimal number that fits 64 bits, leading zeros allowed.
pub fn number(word: &[u8]) -> Option<u64> {
    if word.is_empty() {
        return None;
    }
    word.iter().try_fold(0u64, |value, byte| {
        let digit = byte.is_ascii_digit().then(|| byte - b'0')?;
        value.checked_mul(10)?.checked_add(u64::from(digit))
    })
}

/// As many numbers as are wanted, a word each.
pub fn numbers<const N: usize>(words: &[&[u8]]) -> Option<[u64; N]> {
    let numbers: Vec<u64> = words.iter().map(|word| number(word)).collect::<Option<_>>()?;
    numbers.try_into().ok()
}

/// A byte string in lower-case hex.
pub fn bytes(word: &[u8]) -> Option<Vec<u8>> {
    if word == NO_BYTES.as_bytes() {
        return Some(Vec::new());
    }
    if word.is_empty() || word.len() % 2 == 1 || word.len() > 2 * BYTES_LIMIT {
        return None;
    }
    word.chunks_exact(2).map(|pair| Some(hex_digit(pair[0])? << 4 | hex_digit(pair[1])?)).collect()
}

fn hex_digit(byte: u8) -> Option<u8> {
    match byte {
        b'0'..=b'9' => Some(byte - b'0'),
        b'a'..=b'f' => Some(byte - b'a' + 10),
        _ => None,
    }
}

/// The word that `bytes` reads back.
pub fn spell_bytes(bytes: &[u8]) -> String {
    const DIGITS: &[u8; 16] = b"0123456789abcdef";
    if bytes.is_empty() {
        return NO_BYTES.to_string();
    }
    bytes
        .iter()
        .flat_map(|byte| [byte >> 4, byte & 15])
        .map(|digit| char::from(DIGITS[usize::from(digit)]))
        .collect()
}

pub fn spell_crc(crc: u32) -> String {
    format!("{crc:08x}")
}

pub fn spell_numbers(numbers: &[u64]) -> String {
    numbers.iter().map(u64::to_string).collect::<Vec<_>>().join(" ")
}

/// The line of an operation that refuses nothing and has no state to show.
pub fn accepted(answer: impl Display) -> String {
    format!("0 0 0 : {answer}")
}

/// The line of an operation with the state after it.
pub fn line_with_state(refusal: Refusal, state: impl Display, answer: impl Display) -> String {
    format!("{refusal} {state} : {answer}")
}

/// The line of an operation that refuses and has no state to show: no answer stands behind it.
pub fn refused(refusal: Refusal) -> String {
    format!("{refusal} : ")
}

#[cfg(test)]
mod tests {
    use super::*;

    fn answered(script: &str) -> Vec<&[u8]> {
        lines(script.as_bytes()).collect()
    }

    #[test]
    fn empty_lines_and_comments_are_no_lines() {
        assert_eq!(answered("a\n\n# b\nc\n"), [b"a", b"c"]);
        assert_eq!(answered("\n#\n"), [] as [&[u8]; 0]);
        assert_eq!(answered(""), [] as [&[u8]; 0]);
    }

    #[test]
    fn a_last_line_needs_no_newline() {
        assert_eq!(answered("a\nb"), answered("a\nb\n"));
    }

    #[test]
    fn a_comment_begins_the_line_and_a_return_is_a_byte_like_any_other() {
        assert_eq!(answered(" #\n\r\n"), [b" #" as &[u8], b"\r"]);
    }

    #[test]
    fn each_space_ends_a_word() {
        assert_eq!(words(b"a bc"), [b"a" as &[u8], b"bc"]);
        assert_eq!(words(b" a  b "), [b"" as &[u8], b"a", b"", b"b", b""]);
    }

    #[test]
    fn numbers_are_decimal_and_fit_64_bits() {
        assert_eq!(number(b"0"), Some(0));
        assert_eq!(number(b"0000000000000000000000000000042"), Some(42));
        assert_eq!(number(b"18446744073709551615"), Some(u64::MAX));
        assert_eq!(number(b"18446744073709551616"), None);
        assert_eq!(number(b"99999999999999999999"), None);
    }

    #[test]
    fn nothing_but_digits_is_a_number() {
        for word in ["", "-", "+1", "-1", "1 ", " 1", "1a", "0x1", "1_0", "1.0", "\u{661}"] {
            assert_eq!(number(word.as_bytes()), None, "{word:?}");
        }
    }

    #[test]
    fn numbers_are_as_many_as_wanted() {
        assert_eq!(numbers(&[b"1", b"02"]), Some([1, 2]));
        assert_eq!(numbers(&[]), Some([]));
        assert_eq!(numbers::<2>(&[b"1"]), None);
        assert_eq!(numbers::<2>(&[b"1", b"2", b"3"]), None);
        assert_eq!(numbers::<2>(&[b"1", b""]), None);
    }

    #[test]
    fn byte_strings_are_lower_case_hex() {
        assert_eq!(bytes(b"-"), Some(vec![]));
        assert_eq!(bytes(b"00ff1a"), Some(vec![0, 255, 26]));
        for word in ["", "0", "000", "FF", "fF", "0g", "--", "-00", "00-", "0x00", "00\r", "é"] {
            assert_eq!(bytes(word.as_bytes()), None, "{word:?}");
        }
    }

    #[test]
    fn a_byte_string_has_a_limit() {
        let longest = "5a".repeat(BYTES_LIMIT);
        assert_eq!(bytes(longest.as_bytes()), Some(vec![0x5a; BYTES_LIMIT]));
        assert_eq!(bytes(format!("{longest}5a").as_bytes()), None);
    }

    #[test]
    fn what_is_spelled_reads_back() {
        let every: Vec<u8> = (0..=255).collect();
        assert_eq!(bytes(spell_bytes(&every).as_bytes()), Some(every));
        assert_eq!(bytes(spell_bytes(&[]).as_bytes()), Some(vec![]));
        assert_eq!(spell_crc(0xbeef), "0000beef");
        assert_eq!(spell_numbers(&[0, 7, u64::MAX]), "0 7 18446744073709551615");
    }

    #[test]
    fn a_line_without_an_answer_ends_behind_the_colon() {
        let refusal = Refusal { number: 22, first: 3, second: 0 };
        assert_eq!(refused(refusal), "22 3 0 : ");
        assert_eq!(accepted(""), "0 0 0 : ");
        assert_eq!(line_with_state(refusal, "A 1", ""), "22 3 0 A 1 : ");
    }
}
