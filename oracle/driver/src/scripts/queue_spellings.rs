//! The part of the family `bad` that misspells the lines that open, recover and read a queue.

use super::lines::image;
use super::misspellings::Example;
use super::spellings::with_a_byte_changed;
use super::trails::{rolled, SETTINGS};
use super::{joined, Line, Script};
use crate::language::BYTES_LIMIT;
use crate::random::Random;

/// A line of each operation, with the kinds of its words. Over an image of zeros each is answered
/// and none changes the state but by its settings, not even those that only the port runs.
const LINES: [(&str, &str); 13] = [
    ("image 51464d48 8192 1", "bnf"),
    ("reopen 8192 1", "nf"),
    ("strict 8192 1", "nf"),
    ("recover 18 4 1", "nnn"),
    ("used", ""),
    ("peek", ""),
    ("peek_into 7", "n"),
    ("peek_place", ""),
    ("peek_part", ""),
    ("iterate", ""),
    ("step 0 18 4", "nnn"),
    ("overwrite 0", "f"),
    ("capacity 8193", "n"),
];
const STATE: &str = "state A 6 8292 8300 1 5 18 0 4 18 0 4 8192 1";

fn examples() -> impl Iterator<Item = Example> {
    LINES.iter().map(|&(line, kinds)| Example::of(line, kinds))
}

/// Each operation misspelled in each way, the state given anew before each line: behind an image
/// that does not open there is none.
pub fn wrong_queue_lines() -> Vec<Line> {
    let lines = examples().flat_map(|operation| operation.misspelled());
    lines.flat_map(|line| [STATE.into(), line]).collect()
}

/// Each operation misspelled in a few ways.
pub fn few_wrong_queue_lines() -> Vec<Line> {
    examples().flat_map(|operation| operation.few_misspelled()).collect()
}

/// Every operation while there is no state, at the start and behind an image that does not open;
/// then with one.
pub fn without_a_state() -> Vec<Line> {
    let but_image = || examples().skip(1).map(|operation| operation.line());
    let (unopened, given): (Line, Line) = (LINES[0].0.into(), STATE.into());
    but_image()
        .chain([given.clone(), unopened])
        .chain(but_image())
        .chain([given])
        .chain(but_image())
        .collect()
}

/// Good lines spoiled in a byte, so many, each behind a state.
pub fn mutated_queue_lines(random: &mut Random, times: usize) -> Script {
    let examples: Vec<Example> = examples().collect();
    let mut lines: Vec<Line> = Vec::new();
    for _ in 0..times {
        let line = examples[random.below(examples.len())].line();
        lines.extend([STATE.into(), with_a_byte_changed(random, line)]);
    }
    joined(&lines)
}

/// Images as long as a byte string can be, and longer by a byte.
pub fn longest_images(random: &mut Random) -> [Line; 2] {
    let mut bytes = rolled(random, 8292, 0, &[20]).bytes;
    bytes.resize(BYTES_LIMIT, 0x5a);
    let longest = image(&bytes, SETTINGS);
    bytes.push(0x5a);
    [longest, image(&bytes, SETTINGS)]
}

#[cfg(test)]
mod tests {
    use super::*;
    use crate::answer::answers;

    /// The answer to a line behind the state.
    fn answer(line: &Line) -> String {
        let answered = answers(joined(&[STATE.into(), line.clone()]));
        answered.lines().last().unwrap().to_string()
    }

    #[test]
    fn the_good_lines_are_good() {
        let in_port_only = ["strict", "peek_place", "peek_part"];
        for operation in examples() {
            let answered = answer(&operation.line());
            let passed_over = in_port_only.contains(&operation.name);
            assert_eq!(answered == "skip", passed_over, "{}", operation.name);
            assert_eq!(answered.contains(" : "), !passed_over, "{}", operation.name);
            assert_eq!(operation.words.len(), operation.kinds.len(), "{}", operation.name);
        }
    }

    #[test]
    fn the_few_are_all_bad() {
        let without_words = LINES.iter().filter(|(_, kinds)| kinds.is_empty()).count();
        let lines = few_wrong_queue_lines();
        assert_eq!(lines.len(), 3 * LINES.len() - 2 * without_words);
        for line in lines {
            assert_eq!(answer(&line), "bad", "{}", line.escape_ascii());
        }
    }

    #[test]
    fn only_a_state_makes_lines_good() {
        let answered = answers(joined(&without_a_state()));
        let bad: Vec<bool> = answered.lines().map(|line| line == "bad").collect();
        let (no, yes) = (vec![true; 12], vec![false; 12]);
        assert_eq!(bad, [no.clone(), vec![false; 2], no, vec![false], yes].concat());
    }

    #[test]
    fn the_longest_image_opens_and_a_longer_one_is_bad() {
        let [longest, longer] = longest_images(&mut Random::new(1));
        assert!(answers(longest).starts_with("0 0 0 "));
        assert_eq!(answers(longer), "bad\n");
    }
}
