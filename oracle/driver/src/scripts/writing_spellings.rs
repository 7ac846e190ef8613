//! The part of the family `bad` that misspells the lines that write a queue.

use super::misspellings::Example;
use super::spellings::with_a_byte_changed;
use super::{joined, Line, Script};
use crate::random::Random;

/// A line of each operation, with the kinds of its words.
const LINES: [(&str, &str); 7] = [
    ("fresh 8292 8192 1", "nnf"),
    ("grow_length 8192 0 44", "nnn"),
    ("add 0012", "b"),
    ("remove 1", "n"),
    ("clear", ""),
    ("commit", ""),
    ("grow 44", "n"),
];
/// How many of these need no state.
const NEED_NONE: usize = 2;
const FRESH: &str = "fresh 8292 8192 1";

fn examples() -> impl Iterator<Item = Example> {
    LINES.iter().map(|&(line, kinds)| Example::of(line, kinds))
}

/// Each operation misspelled in each way, on a fresh image with one element each time.
pub fn wrong_writing_lines() -> Vec<Line> {
    let lines = examples().flat_map(|operation| operation.misspelled());
    lines.flat_map(|line| [FRESH.into(), b"add 07".to_vec(), line]).collect()
}

/// Each operation misspelled in a few ways.
pub fn few_wrong_writing_lines() -> Vec<Line> {
    examples().flat_map(|operation| operation.few_misspelled()).collect()
}

/// Every operation that needs a state while there is none, and then with one.
pub fn without_a_state() -> Vec<Line> {
    let needing = || examples().skip(NEED_NONE).map(|operation| operation.line());
    let given: Line = FRESH.into();
    needing().chain([LINES[1].0.into(), given]).chain(needing()).collect()
}

/// Good lines spoiled in a byte, so many, each on a fresh image with one element.
pub fn mutated_writing_lines(random: &mut Random, times: usize) -> Script {
    let examples: Vec<Example> = examples().collect();
    let mut lines: Vec<Line> = Vec::new();
    for _ in 0..times {
        let line = examples[random.below(examples.len())].line();
        lines.extend([FRESH.into(), b"add 07".to_vec(), with_a_byte_changed(random, line)]);
    }
    joined(&lines)
}

#[cfg(test)]
mod tests {
    use super::*;
    use crate::answer::answers;

    fn answer(line: &Line) -> String {
        let answered = answers(joined(&[FRESH.into(), line.clone()]));
        answered.lines().last().unwrap().to_string()
    }

    #[test]
    fn the_good_lines_are_good() {
        for operation in examples() {
            assert!(answer(&operation.line()).starts_with("0 0 0 "), "{}", operation.name);
            assert_eq!(operation.words.len(), operation.kinds.len(), "{}", operation.name);
        }
    }

    #[test]
    fn the_few_are_all_bad() {
        let lines = few_wrong_writing_lines();
        assert_eq!(lines.len(), 3 * LINES.len() - 2 * 2);
        for line in lines {
            assert_eq!(answer(&line), "bad", "{}", line.escape_ascii());
        }
    }

    #[test]
    fn only_a_state_makes_lines_good() {
        let answered = answers(joined(&without_a_state()));
        let bad: Vec<bool> = answered.lines().map(|line| line == "bad").collect();
        assert_eq!(bad, [vec![true; 5], vec![false; 7]].concat());
    }
}
