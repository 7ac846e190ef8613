//! The part of the family `bad` that misspells the codecs.

use super::layouts::footer;
use super::lines::{footer_check, footer_encode, slot_parse};
use super::misspellings::{good_word, spelled, Example};
use super::spellings::with_a_byte_changed;
use super::Line;
use crate::language::{spell_bytes, BYTES_LIMIT};
use crate::random::Random;

/// Each codec with the kinds of its words: `n` a number, `b` bytes.
const CODECS: [(&str, &str); 12] = [
    ("slot_encode", "nnnnnn"),
    ("slot_parse", "b"),
    ("slot_check", "nnnnnnn"),
    ("elect", "bb"),
    ("header_encode", "nnn"),
    ("header_parse", "bn"),
    ("footer_encode", "nb"),
    ("footer_check", "bnb"),
    ("legacy_encode", "nnnn"),
    ("legacy_parse", "b"),
    ("v1_encode", "nnnn"),
    ("v1_parse", "b"),
];

fn examples() -> impl Iterator<Item = Example> {
    CODECS.iter().map(|&(name, kinds)| Example {
        name,
        words: kinds.chars().map(good_word).collect(),
        kinds,
    })
}

/// Each codec misspelled in each way.
pub fn wrong_codecs() -> Vec<Line> {
    examples().flat_map(|codec| codec.misspelled()).collect()
}

/// Each codec misspelled in a few ways.
pub fn few_wrong_codecs() -> Vec<Line> {
    examples().flat_map(|codec| codec.few_misspelled()).collect()
}

/// A good line of some codec, spoiled.
pub fn mutated_codec(random: &mut Random) -> Line {
    let (name, kinds) = random.pick(&CODECS);
    let words: Vec<String> = kinds.chars().map(|kind| random_word(random, kind)).collect();
    with_a_byte_changed(random, spelled(name, &words))
}

fn random_word(random: &mut Random, kind: char) -> String {
    match kind {
        'n' => random.sized(64).to_string(),
        _ => {
            let len = random.pick(&[0, 1, 16, 28, 32, 56]);
            spell_bytes(&random.bytes(len))
        }
    }
}

/// Byte strings longer than the limit by a byte.
pub fn too_long_for_a_codec(random: &mut Random) -> [Line; 3] {
    let longer = random.bytes(BYTES_LIMIT + 1);
    [slot_parse(&longer), footer_encode(1, &longer), footer_check(&footer(1, &longer), 1, &longer)]
}

#[cfg(test)]
mod tests {
    use super::*;
    use crate::answer::answers;

    #[test]
    fn the_good_words_are_good() {
        for codec in examples() {
            let answer = answers(codec.line());
            assert!(answer.contains(" : "), "{}: {answer}", codec.name);
        }
    }

    #[test]
    fn the_few_are_all_bad() {
        let lines = few_wrong_codecs();
        assert_eq!(lines.len(), 3 * CODECS.len());
        for line in lines {
            assert_eq!(answers(&line), "bad\n", "{}", line.escape_ascii());
        }
    }

    #[test]
    fn a_string_longer_than_the_limit_is_bad() {
        for line in too_long_for_a_codec(&mut Random::new(1)) {
            assert_eq!(answers(line), "bad\n");
        }
    }
}
