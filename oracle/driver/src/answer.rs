//! Answers a script, and holds the one table of operations.

use std::io::{self, BufWriter, Read, Write};
use std::panic::{self, AssertUnwindSafe};

use crate::language::{self, BAD, SCRIPT_LIMIT};
use crate::notes::Notes;
use crate::operations::{
    checksum, elements, file_headers, opening, reading, ring, setup, slots, writing,
};
use crate::run::{Run, PANICS};

/// Reads a script up to the limit and prints one line for each operation. Returns what the lines
/// came upon.
pub fn answer(script: impl Read, answers: impl Write) -> io::Result<Notes> {
    answer_by(Run::new(false), script, answers, |run, line| answered(run, line))
}

/// The same, but what the upstream code does is told as it is, also where the port refuses.
pub fn answer_raw(script: impl Read, answers: impl Write) -> io::Result<()> {
    panic::set_hook(Box::new(|_| ()));
    let caught = |run: &mut Run, line: &[u8]| {
        let answer = panic::catch_unwind(AssertUnwindSafe(|| answered(run, line)));
        answer.unwrap_or_else(|_| PANICS.to_string())
    };
    answer_by(Run::new(true), script, answers, caught).map(drop)
}

fn answer_by(
    mut run: Run,
    script: impl Read,
    answers: impl Write,
    answered: impl Fn(&mut Run, &[u8]) -> String,
) -> io::Result<Notes> {
    let mut text = Vec::new();
    script.take(SCRIPT_LIMIT as u64).read_to_end(&mut text)?;

    let mut answers = BufWriter::new(answers);
    for line in language::lines(&text) {
        writeln!(answers, "{}", answered(&mut run, line))?;
    }
    answers.flush()?;
    Ok(run.notes)
}

/// The answer to a line that is neither empty nor a comment.
pub fn answered(run: &mut Run, line: &[u8]) -> String {
    run.notes.next_line();
    let words = language::words(line);
    let answer = operation(run, &words);
    if answer.is_some() {
        run.notes.count_line(words[0], answer.as_deref());
    }
    answer.unwrap_or_else(|| BAD.to_string())
}

/// Runs the operation that the first word names, if the number of words is right and each is good.
fn operation(run: &mut Run, words: &[&[u8]]) -> Option<String> {
    match words {
        [b"crc", part] => checksum::crc(part),
        [b"crc_joined", first, second] => checksum::crc_joined(first, second),
        [b"slot_encode", fields @ ..] => slots::slot_encode(fields),
        [b"slot_parse", slot] => slots::slot_parse(slot),
        [b"slot_check", fields @ ..] => slots::slot_check(fields),
        [b"elect", a, b] => slots::elect(a, b),
        [b"header_encode", fields @ ..] => elements::header_encode(fields),
        [b"header_parse", header, capacity] => elements::header_parse(header, capacity),
        [b"footer_encode", seq, payload] => elements::footer_encode(seq, payload),
        [b"footer_check", footer, seq, payload] => elements::footer_check(footer, seq, payload),
        [b"legacy_encode", fields @ ..] => file_headers::legacy_encode(fields),
        [b"legacy_parse", header] => file_headers::legacy_parse(header),
        [b"v1_encode", fields @ ..] => file_headers::v1_encode(fields),
        [b"v1_parse", header] => file_headers::v1_parse(header),
        [b"state", fields @ ..] => setup::state(run, fields),
        [b"poke", offset, bytes] => setup::poke(run.queue()?, offset, bytes),
        [b"extend", len] => setup::extend(run.queue()?, len),
        [b"overwrite", flag] => setup::overwrite(run.queue()?, flag),
        [b"capacity", capacity] => setup::capacity(run.queue()?, capacity),
        [b"image", bytes, capacity, overwrite] => opening::image(run, bytes, capacity, overwrite),
        [b"reopen", capacity, overwrite] => opening::reopen(run.queue()?, capacity, overwrite),
        [b"strict", capacity, overwrite] => opening::strict(run.queue()?, capacity, overwrite),
        [b"fresh", len, capacity, overwrite] => writing::fresh(run, len, capacity, overwrite),
        [b"add", payload] => writing::add(run.queue()?, payload),
        [b"remove", n] => writing::remove(run.queue()?, n),
        [b"clear"] => writing::clear(run.queue()?),
        [b"commit"] => writing::commit(run.queue()?),
        [b"grow", span] => writing::grow(run.queue()?, span),
        [b"grow_length", len, remaining, span] => writing::grow_length(run, len, remaining, span),
        [b"recover", place, seq, n] => opening::recover(run.queue()?, place, seq, n),
        [b"used"] => reading::used(run.queue()?),
        [b"peek"] => reading::peek(run.queue()?),
        [b"peek_into", len] => reading::peek_into(run.queue()?, len),
        [b"peek_place"] | [b"peek_part"] => reading::peek_in_place(run.queue()?),
        [b"iterate"] => reading::iterate(run.queue()?),
        [b"step", index, place, len] => reading::step(run.queue()?, index, place, len),
        [b"ring_add", place, distance] => ring::ring_add(run.queue()?, place, distance),
        [b"ring_distance", from, to] => ring::ring_distance(run.queue()?, from, to),
        [b"ring_read", place, len] => ring::ring_read(run.queue()?, place, len),
        [b"ring_write", place, bytes] => ring::ring_write(run.queue()?, place, bytes),
        [b"ring_erase", place, len] => ring::ring_erase(run.queue()?, place, len),
        [b"relocate", old_len, count] => ring::relocate(run.queue()?, old_len, count),
        _ => None,
    }
}

/// The answers to a script, for the tests.
#[cfg(test)]
pub fn answers(script: impl AsRef<[u8]>) -> String {
    let mut printed = Vec::new();
    answer(script.as_ref(), &mut printed).unwrap();
    String::from_utf8(printed).unwrap()
}

#[cfg(test)]
mod tests {
    use super::*;

    #[test]
    fn the_published_check_value() {
        let whole = answers("crc 313233343536373839\n");
        assert_eq!(whole, "0 0 0 : cbf43926\n");
        assert_eq!(answers("crc_joined 3132333435 36373839"), whole);
        assert_eq!(answers("crc_joined - 313233343536373839"), whole);
    }

    #[test]
    fn every_line_but_comments_and_empty_ones_is_answered() {
        let script = "# c\n\ncrc -\ncrc\nCRC -\ncrc - -\n crc -\ncrc - ";
        assert_eq!(answers(script), "0 0 0 : 00000000\nbad\nbad\nbad\nbad\nbad\n");
    }

    #[test]
    fn a_script_begins_without_a_state_and_with_an_image_of_zeros() {
        let state = "state A 0 8292 8292 0 1 0 0 0 0 0 0 8192 0\n";
        let changed = answers(format!("{state}ring_write 0 31\n{state}"));
        assert_ne!(changed.lines().last(), changed.lines().next());
        assert_eq!(answers(format!("ring_read 0 1\n{state}")), format!("bad\n{}", answers(state)));
        assert_eq!(answers(state).lines().next(), changed.lines().next());
    }

    #[test]
    fn what_lies_beyond_the_limit_is_not_read() {
        let filler = "\n".repeat(SCRIPT_LIMIT - "crc 00".len());
        assert_eq!(answers(format!("{filler}crc 00ff\n")), answers("crc 00"));
        assert_eq!(answers(format!("{filler}crc -\n\ncrc -")), answers("crc -"));
    }
}
