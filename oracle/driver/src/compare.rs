//! Compares the port's answers with the Rust's, line by line.

use std::fmt;

use crate::language::SKIP;

/// How much of a differing line is shown, in characters.
const SHOWN: usize = 200;

/// Answers that are equal, with the number of lines passed over among them.
#[derive(Debug, PartialEq)]
pub struct Equal {
    pub lines: usize,
    pub skipped: usize,
}

/// The first line that differs; `None` on the side where the answers had ended.
#[derive(Debug, PartialEq)]
pub struct Difference<'a> {
    line: usize,
    port: Option<&'a [u8]>,
    rust: Option<&'a [u8]>,
}

pub fn compare<'a>(port: &'a [u8], rust: &'a [u8]) -> Result<Equal, Difference<'a>> {
    let mut port_lines = lines(port);
    let mut rust_lines = lines(rust);
    let mut equal = Equal { lines: 0, skipped: 0 };

    loop {
        match (port_lines.next(), rust_lines.next()) {
            (None, None) => return Ok(equal),
            (Some(_), Some(rust)) if is_skip(rust) => equal.skipped += 1,
            (port, rust) if port == rust => {}
            (port, rust) => return Err(Difference { line: equal.lines + 1, port, rust }),
        }
        equal.lines += 1;
    }
}

fn is_skip(line: &[u8]) -> bool {
    line.strip_suffix(b"\n") == Some(SKIP.as_bytes())
}

/// Lines with their newline, so that a missing last one shows.
fn lines(answers: &[u8]) -> impl Iterator<Item = &[u8]> {
    answers.split_inclusive(|byte| *byte == b'\n')
}

impl fmt::Display for Difference<'_> {
    fn fmt(&self, f: &mut fmt::Formatter<'_>) -> fmt::Result {
        writeln!(f, "line {} differs", self.line)?;
        writeln!(f, "port: {}", shown(self.port))?;
        write!(f, "rust: {}", shown(self.rust))
    }
}

/// The line as printable text.
fn shown(line: Option<&[u8]>) -> String {
    match line {
        Some(line) => line.escape_ascii().map(char::from).take(SHOWN).collect(),
        None => "(no line)".to_string(),
    }
}

#[cfg(test)]
mod tests {
    use super::*;

    fn difference(port: &str, rust: &str) -> String {
        compare(port.as_bytes(), rust.as_bytes()).unwrap_err().to_string()
    }

    #[test]
    fn equal_answers_are_counted() {
        assert_eq!(compare(b"", b""), Ok(Equal { lines: 0, skipped: 0 }));
        assert_eq!(compare(b"a\nb\n", b"a\nb\n"), Ok(Equal { lines: 2, skipped: 0 }));
    }

    #[test]
    fn a_skip_of_the_rust_is_passed_over() {
        assert_eq!(compare(b"a\nb\n", b"skip\nb\n"), Ok(Equal { lines: 2, skipped: 1 }));
        assert!(compare(b"skip\n", b"a\n").is_err());
        assert!(compare(b"a\n", b"skip \n").is_err());
        assert!(compare(b"", b"skip\n").is_err());
    }

    #[test]
    fn the_first_difference_is_shown() {
        assert_eq!(difference("a\nb\nc\n", "a\nx\ny\n"), "line 2 differs\nport: b\\n\nrust: x\\n");
    }

    #[test]
    fn a_line_or_newline_too_few_is_a_difference() {
        assert_eq!(difference("a\n", "a\nb\n"), "line 2 differs\nport: (no line)\nrust: b\\n");
        assert_eq!(difference("a\nb\n", "a\n"), "line 2 differs\nport: b\\n\nrust: (no line)");
        assert_eq!(difference("a", "a\n"), "line 1 differs\nport: a\nrust: a\\n");
    }

    #[test]
    fn long_lines_are_cut() {
        let long = "a".repeat(1000);
        assert_eq!(
            difference(&long, "b\n"),
            format!("line 1 differs\nport: {}\nrust: b\\n", &long[..SHOWN])
        );
    }
}
