//! The operations that lay out what the others work on: the state, its settings, and bytes of the
//! image.

use crate::image::IMAGE_LEN;
use crate::language::{bytes, number};
use crate::run::{Queue, Run};
use crate::state::{read_flag, State};

/// What `extend` puts behind the real length.
const EXTENSION: u8 = 0xa5;

/// The image keeps its bytes.
pub fn state(run: &mut Run, words: &[&[u8]]) -> Option<String> {
    run.begin_anew(State::read(words)?);
    Some(run.queue()?.accepted(""))
}

/// No bytes, too, have their place within the image or at its end.
pub fn poke(queue: Queue<'_>, offset: &[u8], hex: &[u8]) -> Option<String> {
    let (offset, bytes) = (number(offset)?, bytes(hex)?);
    end_within_image(offset, bytes.len() as u64)?;
    queue.image.store(offset, &bytes);
    Some(queue.accepted(""))
}

pub fn extend(queue: Queue<'_>, len: &[u8]) -> Option<String> {
    let (real_len, len) = (queue.state.real_len, number(len)?);
    queue.state.real_len = end_within_image(real_len, len)?;
    queue.image.store(real_len, &vec![EXTENSION; len as usize]);
    Some(queue.accepted(""))
}

pub fn overwrite(queue: Queue<'_>, flag: &[u8]) -> Option<String> {
    queue.state.overwrite = read_flag(number(flag)?)?;
    Some(queue.accepted(""))
}

pub fn capacity(queue: Queue<'_>, capacity: &[u8]) -> Option<String> {
    queue.state.capacity = number(capacity)?;
    Some(queue.accepted(""))
}

/// Where so many bytes end, unless they pass the image's end.
fn end_within_image(offset: u64, len: u64) -> Option<u64> {
    offset.checked_add(len).filter(|end| *end <= IMAGE_LEN)
}

#[cfg(test)]
mod tests {
    use crate::answer::answers;

    const STATE: &str = "state A 0 8192 4 0 1 0 0 0 0 0 0 8192 0";

    /// The answer to the last line, behind a state with the real length 4.
    fn last_answer(lines: &str) -> String {
        let answered = answers(format!("{STATE}\n{lines}"));
        answered.lines().last().unwrap().to_string()
    }

    #[test]
    fn a_state_is_told_as_given_with_the_crc_of_its_bytes() {
        let given = "B 9 8 4 7 6 5 4 3 2 1 0 11 1";
        assert_eq!(answers(format!("state {given}")), format!("0 0 0 {given} 2144df1c : \n"));
        let beyond = "A 0 0 18446744073709551615 0 0 0 0 0 0 0 0 0 0";
        assert_eq!(answers(format!("state {beyond}")), format!("0 0 0 {beyond} e20eea22 : \n"));
    }

    #[test]
    fn a_poke_changes_the_image_for_every_later_state() {
        let poked = last_answer("poke 0 31323334\nstate A 0 0 4 0 0 0 0 0 0 0 0 0 0");
        assert_eq!(poked, "0 0 0 A 0 0 4 0 0 0 0 0 0 0 0 0 0 9be3e0a3 : ");
        let other = last_answer("poke 1 313233");
        assert_eq!(last_answer("poke 1 31323334"), other);
    }

    #[test]
    fn a_poke_ends_within_the_image() {
        for line in ["poke 262143 00", "poke 262144 -", "poke 0 -"] {
            assert_ne!(last_answer(line), "bad", "{line}");
        }
        for line in ["poke 262144 00", "poke 262143 0000", "poke 262145 -"] {
            assert_eq!(last_answer(line), "bad", "{line}");
        }
        assert_eq!(last_answer("poke 18446744073709551615 00"), "bad");
    }

    #[test]
    fn an_extension_grows_the_real_length() {
        let poked = last_answer("poke 4 a5a5\nstate A 0 8192 6 0 1 0 0 0 0 0 0 8192 0");
        assert_eq!(last_answer("extend 2"), poked);
        assert_eq!(last_answer("extend 0"), last_answer("poke 0 -"));
    }

    #[test]
    fn an_extension_ends_within_the_image() {
        assert!(last_answer("extend 262140").contains(" 262144 "));
        assert_eq!(last_answer("extend 262141"), "bad");
        assert_eq!(last_answer("extend 18446744073709551615"), "bad");
        let beyond = "state A 0 0 262145 0 0 0 0 0 0 0 0 0 0";
        assert_eq!(last_answer(&format!("{beyond}\nextend 0")), "bad");
    }

    #[test]
    fn a_setting_is_changed_and_nothing_else() {
        let with =
            |settings: &str| format!("0 0 0 A 0 8192 4 0 1 0 0 0 0 0 0 {settings} 2144df1c : ");
        assert_eq!(last_answer("overwrite 1"), with("8192 1"));
        assert_eq!(last_answer("overwrite 1\noverwrite 000"), with("8192 0"));
        assert_eq!(last_answer("capacity 18446744073709551615"), with("18446744073709551615 0"));
        assert_eq!(last_answer("overwrite 1\ncapacity 0"), with("0 1"));
        assert_eq!(last_answer("overwrite 2"), "bad");
        assert_eq!(last_answer("capacity 18446744073709551616"), "bad");
    }

    #[test]
    fn nothing_is_changed_by_a_bad_line_or_before_there_is_a_state() {
        let untouched = answers(STATE);
        for line in ["poke 0 31", "extend 1", "state a 0 8192 4 0 1 0 0 0 0 0 0 8192 0"] {
            assert_eq!(answers(format!("{line}\n{STATE}")), format!("bad\n{untouched}"), "{line}");
        }
        let bad_lines = "poke 0 3\npoke 262144 31\nextend 262141\nstate A\npoke 0 -";
        assert_eq!(format!("{}\n", last_answer(bad_lines)), untouched);
    }
}
