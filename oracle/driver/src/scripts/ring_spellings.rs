//! The part of the family `bad` that misspells the lines of the ring and of the state.

use super::misspellings::Example;
use super::spellings::with_a_byte_changed;
use super::{joined, Line, Script};
use crate::random::Random;

/// A line of each operation, with the kinds of its words.
const LINES: [(&str, &str); 9] = [
    (STATE, "snnnnnnnnnnnnf"),
    (RING, "nb"),
    ("extend 7", "n"),
    ("ring_add 18 4", "nn"),
    ("ring_distance 18 4", "nn"),
    ("ring_read 18 4", "nn"),
    ("ring_write 18 0102030405", "nb"),
    ("ring_erase 18 4", "nn"),
    ("relocate 8212 4", "nn"),
];
const STATE: &str = "state A 6 8212 8300 3 5 4 0 2 12 0 4 8192 1";
/// Every byte of the state's ring.
const RING: &str = "poke 8192 8182838485868788898a8b8c8d8e8f9091929394";

fn examples() -> impl Iterator<Item = Example> {
    LINES.iter().map(|&(line, kinds)| Example::of(line, kinds))
}

/// A script for each operation, misspelled in each way. The ring is laid anew before each line, also
/// because some lines are well spelled and erase so much that the driver passes over them.
pub fn wrong_ring_lines() -> Vec<Script> {
    let script = |operation: Example| {
        let lines = operation.misspelled().into_iter();
        let lines = lines.flat_map(|line| [RING.into(), line]);
        joined(&[vec![STATE.into()], lines.collect()].concat())
    };
    examples().map(script).collect()
}

/// Each operation misspelled in a few ways.
pub fn few_wrong_ring_lines() -> Vec<Line> {
    examples().flat_map(|operation| operation.few_misspelled()).collect()
}

/// Every operation while there is no state, and again behind a state that is none; then with one.
pub fn without_a_state() -> Vec<Line> {
    let but_state = || examples().skip(1).map(|operation| operation.line());
    let misspelled = STATE.replace(" A ", " a ").into_bytes();
    but_state()
        .chain([misspelled])
        .chain(but_state())
        .chain([STATE.into()])
        .chain(but_state())
        .collect()
}

/// Good lines spoiled in a byte, so many behind a state.
pub fn mutated_ring_lines(random: &mut Random, times: usize) -> Script {
    let examples: Vec<Example> = examples().collect();
    let mut lines: Vec<Line> = vec![STATE.into()];
    for _ in 0..times {
        let line = examples[random.below(examples.len())].line();
        lines.push(with_a_byte_changed(random, line));
    }
    joined(&lines)
}

#[cfg(test)]
mod tests {
    use super::*;
    use crate::answer::answers;

    #[test]
    fn the_good_lines_are_good() {
        for operation in examples() {
            let script = joined(&[STATE.into(), operation.line()]);
            let answered = answers(script);
            assert!(answered.lines().all(|line| line.contains(" : ")), "{}", operation.name);
            assert_eq!(operation.words.len(), operation.kinds.len(), "{}", operation.name);
        }
    }

    #[test]
    fn the_few_are_all_bad() {
        let lines = few_wrong_ring_lines();
        assert_eq!(lines.len(), 3 * LINES.len());
        for line in lines {
            let answered = answers(joined(&[STATE.into(), line.clone()]));
            assert_eq!(answered.lines().last(), Some("bad"), "{}", line.escape_ascii());
        }
    }

    #[test]
    fn only_a_state_makes_lines_good() {
        let answered = answers(joined(&without_a_state()));
        let bad: Vec<bool> = answered.lines().map(|line| line == "bad").collect();
        assert_eq!(bad, [vec![true; 17], vec![false; 9]].concat());
    }
}
