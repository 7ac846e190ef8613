//! Refusals by number, and the number of each error that the upstream code gives.

use std::fmt;

use queue_file::Error;

/// A refusal's number and its two values, as a line begins with them.
#[derive(Clone, Copy, Debug, PartialEq)]
pub struct Refusal {
    pub number: u64,
    pub first: u64,
    pub second: u64,
}

/// Nothing refused.
pub const NONE: Refusal = Refusal { number: 0, first: 0, second: 0 };

/// The upstream slot parser says only that there is no slot, and has no error for it.
pub const NOT_A_SLOT: Refusal = Refusal { number: 31, first: 0, second: 0 };

/// How the text of an error begins, up to the first number in it, with the refusal's number and its
/// first value. A text is known by its beginning, so none begins another.
const TEXTS: &[(&str, u64, u64)] = &[
    ("v2 element header magic mismatch at logical pos ", 2, 0),
    ("v2 element payload_len ", 3, 0),
    ("v2 element seq ", 4, 0),
    ("v2 element header CRC mismatch at logical pos ", 5, 0),
    ("v2 element span ", 6, 0),
    ("v2 element footer magic mismatch at logical pos ", 7, 0),
    ("v2 footer seq ", 8, 0),
    ("v2 element footer CRC mismatch", 9, 0),
    ("both v2 header slots are invalid", 10, 0),
    ("v2 file_length ", 11, 0),
    ("v2 file is truncated: header claims ", 12, 0),
    ("v2 next_sequence_number must be >= 1", 13, 0),
    ("v2 empty queue has non-zero pointers", 14, 0),
    ("v2 non-empty queue has zero pointer", 15, 0),
    ("v2 first_position ", 16, 0),
    ("v2 last_position ", 16, 0),
    ("v2 recovery: walked ", 18, 0),
    ("v2 recovery: prev_pos ", 19, 0),
    ("v2 recovery: could not walk expected live element count", 20, 0),
    ("v2 recovery: tail seq ", 21, 0),
    // The same field has one beginning in every file header and in the slot.
    ("file length in ", 22, 1),
    ("element count in ", 22, 2),
    ("first element position in ", 22, 3),
    ("last element position in ", 22, 4),
];

/// The refusal that an upstream error stands for. An error that is not known here ends the run: a
/// guessed number would be compared as if the Rust had said it.
pub fn refusal(error: &Error) -> Refusal {
    numbered(error).unwrap_or_else(|| panic!("no number is known for the error: {error}"))
}

/// The same, or `None` for an error that has no number.
pub fn numbered(error: &Error) -> Option<Refusal> {
    match error {
        Error::CorruptedFile { msg } | Error::InvalidValue { msg } | Error::OutOfBounds { msg } => {
            by_text(msg)
        }
        Error::SequenceMismatch { expected, found } => {
            Some(Refusal { number: 17, first: *expected, second: *found })
        }
        Error::UnsupportedVersion { detected, .. } => {
            Some(Refusal { number: 23, first: u64::from(*detected), second: 0 })
        }
        Error::ElementTooBig => Some(Refusal { number: 24, first: 0, second: 0 }),
        Error::TooManyElements => Some(Refusal { number: 25, first: 0, second: 0 }),
        _ => None,
    }
}

fn by_text(text: &str) -> Option<Refusal> {
    let known = TEXTS.iter().find(|(beginning, ..)| text.starts_with(beginning));
    known.map(|&(_, number, first)| Refusal { number, first, second: 0 })
}

impl fmt::Display for Refusal {
    fn fmt(&self, f: &mut fmt::Formatter<'_>) -> fmt::Result {
        write!(f, "{} {} {}", self.number, self.first, self.second)
    }
}

#[cfg(test)]
mod tests {
    use super::*;

    fn corrupted(text: &str) -> Error {
        Error::CorruptedFile { msg: text.to_string() }
    }

    #[test]
    fn no_beginning_begins_another() {
        for (nth, (text, ..)) in TEXTS.iter().enumerate() {
            let known = TEXTS.iter().position(|(beginning, ..)| text.starts_with(beginning));
            assert_eq!(known, Some(nth), "{text}");
        }
    }

    #[test]
    fn a_field_and_a_version_are_told() {
        let field = corrupted("last element position in V2 header will exceed i64::MAX");
        assert_eq!(refusal(&field).to_string(), "22 4 0");
        let version = Error::UnsupportedVersion { detected: 7, supported: 1 };
        assert_eq!(refusal(&version).to_string(), "23 7 0");
    }

    #[test]
    fn a_sequence_and_what_recovery_met_are_told() {
        let sequence = Error::SequenceMismatch { expected: 5, found: u64::MAX };
        assert_eq!(refusal(&sequence).to_string(), "17 5 18446744073709551615");
        let backlink = "v2 recovery: prev_pos 8191 < data_start 8192".to_string();
        assert_eq!(refusal(&Error::OutOfBounds { msg: backlink }).to_string(), "19 0 0");
        let walked = "v2 recovery: walked 1 elements but expected 2".to_string();
        assert_eq!(refusal(&Error::InvalidValue { msg: walked }).to_string(), "18 0 0");
    }

    #[test]
    #[should_panic(expected = "the error: corrupted file: v2 element")]
    fn a_text_that_is_not_known_ends_the_run() {
        refusal(&corrupted("v2 element"));
    }

    #[test]
    #[should_panic(expected = "the error: magic mismatch")]
    fn an_error_that_is_not_known_ends_the_run() {
        refusal(&Error::MagicMismatch { expected: 1, found: 2 });
    }

    #[test]
    fn what_an_add_refuses_is_told() {
        assert_eq!(refusal(&Error::ElementTooBig).to_string(), "24 0 0");
        assert_eq!(refusal(&Error::TooManyElements).to_string(), "25 0 0");
    }
}
