//! What the lines of a script came upon, counted by name, so that it shows which cases a family
//! reached; and the lines at which the known fault of the plain build struck.

use std::collections::BTreeMap;
use std::fmt;

use crate::language;

/// Before the number of an answered line at which the fault struck.
const STRIKE: &str = "strike";
/// Before a set capacity, which is counted so that the different ones can be.
const CAPACITY: &str = "capacity ";

/// The operations that write.
const WRITING: [&str; 5] = ["add", "remove", "clear", "commit", "grow"];

#[derive(Debug, Default, PartialEq)]
pub struct Notes {
    counts: BTreeMap<String, u64>,
    /// Answered lines, counted from 1.
    strikes: Vec<u64>,
    line: u64,
}

impl Notes {
    pub fn next_line(&mut self) {
        self.line += 1;
    }

    pub fn count(&mut self, what: &str) {
        match self.counts.get_mut(what) {
            Some(times) => *times += 1,
            None => drop(self.counts.insert(what.to_string(), 1)),
        }
    }

    /// An answered line: its operation, and the number where one is refused that writes.
    pub fn count_line(&mut self, operation: &[u8], answer: Option<&str>) {
        let Ok(operation) = std::str::from_utf8(operation) else { return };
        self.count(operation);
        let refused = answer.and_then(|answer| answer.split(' ').next()).unwrap_or_default();
        if WRITING.contains(&operation) && refused != "0" && refused != language::SKIP {
            self.count(&format!("{operation} refused {refused}"));
        }
    }

    pub fn count_if(&mut self, holds: bool, what: &str) {
        if holds {
            self.count(what);
        }
    }

    pub fn count_capacity(&mut self, capacity: u64) {
        self.count(&format!("{CAPACITY}{capacity}"));
    }

    pub fn strike(&mut self) {
        self.strikes.push(self.line);
    }

    pub fn strikes(&self) -> &[u64] {
        &self.strikes
    }

    #[cfg(test)]
    pub fn times(&self, what: &str) -> u64 {
        self.counts.get(what).copied().unwrap_or_default()
    }

    /// What `Display` has written, with the counts of these notes added.
    pub fn read(&mut self, text: &[u8]) -> Option<()> {
        for line in language::lines(text) {
            let words = language::words(line);
            let (number, name) = words.split_last()?;
            let number = language::number(number)?;
            let name = String::from_utf8(name.join(&b' ')).ok()?;
            if name == STRIKE {
                self.strikes.push(number);
            } else {
                *self.counts.entry(name).or_default() += number;
            }
        }
        Some(())
    }

    /// All counts in a line of text.
    pub fn told(&self) -> String {
        let (capacities, others): (Vec<_>, Vec<_>) =
            self.counts.iter().partition(|(name, _)| name.starts_with(CAPACITY));
        let mut told: Vec<String> =
            others.iter().map(|(name, times)| format!("{name} {times}")).collect();
        told.push(format!("different set capacities {}", capacities.len()));
        told.join(", ")
    }

    /// The counts as notes again; the lines of different scripts cannot be.
    pub fn summed(&self) -> String {
        let counts = Self { counts: self.counts.clone(), ..Self::default() };
        counts.to_string().trim_end().to_string()
    }
}

/// A line for each count and each strike.
impl fmt::Display for Notes {
    fn fmt(&self, f: &mut fmt::Formatter<'_>) -> fmt::Result {
        for (name, times) in &self.counts {
            writeln!(f, "{name} {times}")?;
        }
        for line in &self.strikes {
            writeln!(f, "{STRIKE} {line}")?;
        }
        Ok(())
    }
}

#[cfg(test)]
mod tests {
    use super::*;

    fn noted() -> Notes {
        let mut notes = Notes::default();
        notes.next_line();
        notes.count("line add");
        notes.count_capacity(8192);
        notes.next_line();
        notes.count("line add");
        notes.count_if(false, "growth");
        notes.count_capacity(9000);
        notes.strike();
        notes
    }

    #[test]
    fn notes_read_back_and_add_up() {
        let text = noted().to_string();
        assert_eq!(text, "capacity 8192 1\ncapacity 9000 1\nline add 2\nstrike 2\n");
        let mut sum = Notes::default();
        sum.read(text.as_bytes()).unwrap();
        assert_eq!(sum.to_string(), text);
        sum.read(text.as_bytes()).unwrap();
        assert_eq!((sum.times("line add"), sum.strikes()), (4, &[2u64, 2][..]));
        assert_eq!(sum.summed(), "capacity 8192 2\ncapacity 9000 2\nline add 4");
        assert_eq!(sum.read(b"no number"), None);
    }

    #[test]
    fn different_capacities_are_told_by_their_number() {
        assert_eq!(noted().told(), "line add 2, different set capacities 2");
    }
}
