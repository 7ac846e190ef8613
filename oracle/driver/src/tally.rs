//! Counts how often each refusal stands in answers, so that it shows which ones a family reached,
//! and lists the images that were opened.

use std::collections::BTreeMap;
use std::fmt;

use queue_file::inside::header;

use crate::language;

/// How often each number stands first in a line, where 0 is the lines that refuse nothing, and how
/// often each ended an iteration.
#[derive(Debug, Default, PartialEq)]
pub struct Tally {
    first: Times,
    ends: Times,
}

#[derive(Debug, Default, PartialEq)]
struct Times(BTreeMap<u64, usize>);

/// Lines that begin with no number, `bad` and `skip`, are not counted.
pub fn tally(answers: &[u8]) -> Tally {
    let mut tally = Tally::default();
    for line in language::lines(answers) {
        let words = language::words(line);
        tally.first.count(words[0]);
        if let [.., b"end", number, _, _] = words[..] {
            tally.ends.count(number);
        }
    }
    tally
}

/// The length and the CRC-32 of each image that a script had opened, whole or not, in the order of
/// its lines. What was opened again is told by its answer, which shows both also where the opening
/// was refused.
pub fn opened_images(script: &[u8], answers: &[u8]) -> Vec<String> {
    let answered = language::lines(script).zip(language::lines(answers));
    answered.filter_map(|(line, answer)| opened_image(line, answer)).collect()
}

fn opened_image(line: &[u8], answer: &[u8]) -> Option<String> {
    let answered = language::words(answer);
    language::number(answered[0])?;
    match language::words(line)[..] {
        [b"image", hex, ..] => {
            let bytes = language::bytes(hex)?;
            Some(format!("{} {}", bytes.len(), language::spell_crc(header::crc32(&bytes))))
        }
        [b"reopen", ..] => {
            let (real_len, crc) = (answered.get(6)?, answered.get(17)?);
            Some(format!("{} {}", real_len.escape_ascii(), crc.escape_ascii()))
        }
        _ => None,
    }
}

impl Times {
    fn count(&mut self, word: &[u8]) {
        if let Some(number) = language::number(word) {
            *self.0.entry(number).or_default() += 1;
        }
    }
}

/// As `0:123 2:45`, by number.
impl fmt::Display for Times {
    fn fmt(&self, f: &mut fmt::Formatter<'_>) -> fmt::Result {
        let counted: Vec<String> =
            self.0.iter().map(|(number, times)| format!("{number}:{times}")).collect();
        write!(f, "{}", counted.join(" "))
    }
}

/// As `0:123 2:45, iterations ended 0:12 9:3`; the second only where there were any.
impl fmt::Display for Tally {
    fn fmt(&self, f: &mut fmt::Formatter<'_>) -> fmt::Result {
        write!(f, "{}", self.first)?;
        if !self.ends.0.is_empty() {
            write!(f, ", iterations ended {}", self.ends)?;
        }
        Ok(())
    }
}

#[cfg(test)]
mod tests {
    use super::*;

    fn told(answers: &str) -> String {
        tally(answers.as_bytes()).to_string()
    }

    #[test]
    fn each_number_is_counted_in_its_order() {
        let answers = "22 3 0 : \n0 0 0 : 12\n2 0 0 : \n0 0 0 : \n22 4 0 : \n";
        assert_eq!(told(answers), "0:2 2:1 22:2");
    }

    #[test]
    fn what_ended_an_iteration_is_counted_by_itself() {
        let answers = "0 0 0 A : 0,0,1,0,00000000 end 9 0 0\n0 0 0 A : end 0 0 0\n0 0 0 A : end\n";
        assert_eq!(told(answers), "0:3, iterations ended 0:1 9:1");
    }

    #[test]
    fn an_opened_image_is_told_by_its_length_and_crc() {
        let script = "# one\nimage 313233343536373839 8192 1\nimage 31 8192\npeek\nreopen 8192 1\n";
        let answers = "10 0 0 : \nbad\nbad\nskip\n";
        let image = "9 cbf43926".to_string();
        assert_eq!(opened_images(script.as_bytes(), answers.as_bytes()), [image]);
        let again = "2 0 0 B 6 8292 8300 3 5 44 0 2 32 0 4 8192 1 faf4bf13 : \n";
        let image = "8300 faf4bf13".to_string();
        assert_eq!(opened_images(b"reopen 8192 1", again.as_bytes()), [image]);
    }

    #[test]
    fn what_is_no_answer_of_the_rust_is_not_counted() {
        assert_eq!(told("bad\nskip\n0 0 0 : 31\nbad\n"), "0:1");
        assert_eq!(told("bad\n"), "");
        assert_eq!(told(""), "");
    }
}
