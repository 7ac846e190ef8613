//! The operations of the replay language, a module for each group. An operation takes its words
//! as they stand, and the queue where it works on one, and answers its line, or `None` where a word
//! is bad.

pub mod checksum;
pub mod elements;
pub mod fault;
pub mod file_headers;
pub mod judging;
pub mod opening;
pub mod reading;
pub mod ring;
pub mod setup;
pub mod slots;
pub mod writing;

use std::fmt::Display;

use queue_file::inside::Result;

use crate::language::{accepted, number, refused, OUTPUT_LIMIT};
use crate::refusals::refusal;

/// The upstream code takes counts and lengths as `usize`; a script's have 64 bits.
const _: () = assert!(usize::BITS == 64);

/// The line for what an upstream function returned.
fn answered(returned: Result<impl Display>) -> String {
    match returned {
        Ok(answer) => accepted(answer),
        Err(error) => refused(refusal(&error)),
    }
}

/// The bytes of a layout, which are the first ones; `None` where there are too few. The upstream
/// functions take no fewer.
fn layout<const LEN: usize>(bytes: &[u8]) -> Option<&[u8; LEN]> {
    bytes.get(..LEN)?.try_into().ok()
}

/// The length of an output, which has a limit.
fn output_len(word: &[u8]) -> Option<usize> {
    usize::try_from(number(word)?).ok().filter(|len| *len <= OUTPUT_LIMIT)
}

#[cfg(test)]
mod tests {
    use super::*;

    #[test]
    fn a_layout_takes_the_first_bytes() {
        assert_eq!(layout(b"abcd"), Some(b"abc"));
        assert_eq!(layout(b"abc"), Some(b"abc"));
        assert_eq!(layout::<3>(b"ab"), None);
    }
}
