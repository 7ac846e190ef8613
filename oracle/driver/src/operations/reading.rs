//! A queue read: its used bytes, its first element, and its elements in turn. The port refuses
//! where the state is not sound or an output too small; the upstream code asks neither, so that such
//! a line is passed over.

use queue_file::inside::queue::{self, Cursor};
use queue_file::inside::{header, Element};
use queue_file::{Error, QueueFile};

use super::output_len;
use crate::language::{number, spell_crc, OUTPUT_LIMIT, SKIP};
use crate::refusals::{refusal, Refusal, NONE};
use crate::run::Queue;

pub fn used(queue: Queue<'_>) -> Option<String> {
    Some(on_sound(queue, |queue| Some(queue.accepted(queue.upstream().used_bytes()))))
}

pub fn peek(queue: Queue<'_>) -> Option<String> {
    Some(on_sound(queue, |queue| {
        fits(queue, OUTPUT_LIMIT).then(|| peeked(queue, queue.upstream().peek()))
    }))
}

/// The upstream code makes its output as long as the payload.
pub fn peek_into(queue: Queue<'_>, len: &[u8]) -> Option<String> {
    let len = output_len(len)?;
    Some(on_sound(queue, |queue| {
        let mut output = vec![0; len];
        fits(queue, len).then(|| match queue.upstream().peek_into(&mut output) {
            // The upstream code has filled its output all the same.
            Err(error) if queue.raw => {
                let answer = format!("{} {}", output.len(), spell_crc(header::crc32(&output)));
                queue.line(refusal(&error), answer)
            }
            found => peeked(queue, found.map(|found| found.then(|| output))),
        })
    }))
}

/// The upstream code has no peek in place.
pub fn peek_in_place(_: Queue<'_>) -> Option<String> {
    Some(SKIP.to_string())
}

pub fn iterate(queue: Queue<'_>) -> Option<String> {
    Some(on_sound(queue, |queue| {
        let upstream = queue.upstream();
        let mut cursor = Cursor { index: 0, pos: queue.state.first.pos };
        let mut told = String::new();
        loop {
            match Step::at(&upstream, cursor, OUTPUT_LIMIT) {
                Step::Element { told: element, next } => {
                    told.push_str(&element);
                    told.push(' ');
                    cursor = next;
                }
                Step::End => return Some(queue.accepted(format_args!("{told}end {NONE}"))),
                Step::Refused(by) => return Some(queue.accepted(format_args!("{told}end {by}"))),
                Step::TooLong => return None,
            }
        }
    }))
}

/// A place that is none of the ring's is refused by the port, unless the index is at the end.
pub fn step(queue: Queue<'_>, index: &[u8], place: &[u8], len: &[u8]) -> Option<String> {
    let (index, pos, len) = (number(index)?, number(place)?, output_len(len)?);
    Some(on_sound(queue, |queue| {
        let upstream = queue.upstream();
        let at_end = index >= u64::from(queue.state.count);
        if !queue.may(at_end || pos < queue.state.ring_len()) {
            return None;
        }
        match Step::at(&upstream, Cursor { index: index as usize, pos }, len) {
            Step::Element { told, next } => {
                Some(queue.accepted(format_args!("{told} {} {}", next.index, next.pos)))
            }
            Step::End => Some(queue.accepted("end")),
            Step::Refused(refusal) => Some(queue.refused(refusal)),
            Step::TooLong => None,
        }
    }))
}

/// What a step of the iteration comes upon.
enum Step {
    /// An element, told as a line tells it, and the cursor behind it.
    Element {
        told: String,
        next: Cursor,
    },
    End,
    Refused(Refusal),
    /// An element whose header is valid, but whose payload is longer than the output.
    TooLong,
}

impl Step {
    /// Does what the upstream iterator does, with the refusal told that stops it, and sees that the
    /// iterator itself comes to the same payload and the same cursor.
    fn at(queue: &QueueFile, cursor: Cursor, output_len: usize) -> Self {
        let header = match queue::current_element(queue, cursor) {
            Ok(Some(header)) => header,
            Ok(None) => return Self::stopped(queue, cursor, Self::End),
            Err(error) => return Self::stopped_by(queue, cursor, &error),
        };
        if header.payload_len > output_len {
            return Self::TooLong;
        }
        let element = Element { pos: cursor.pos, len: header.payload_len, seq: header.seq };
        let mut payload = vec![0; element.len];
        if let Err(error) = queue::read_payload(queue, &element, &mut payload) {
            return Self::stopped_by(queue, cursor, &error);
        }
        let next = queue::advance(queue, cursor, element.len);
        let crc = header::crc32(&payload);
        assert_eq!(queue::next(queue, cursor), (Some(payload), next), "the iterator goes on");
        let told = format!(
            "{},{},{},{},{}",
            element.pos,
            element.len,
            element.seq,
            header.prev_pos,
            spell_crc(crc)
        );
        Self::Element { told, next }
    }

    fn stopped_by(queue: &QueueFile, cursor: Cursor, error: &Error) -> Self {
        Self::stopped(queue, cursor, Self::Refused(refusal(error)))
    }

    fn stopped(queue: &QueueFile, cursor: Cursor, step: Self) -> Self {
        assert_eq!(queue::next(queue, cursor), (None, cursor), "the iterator stops");
        step
    }
}

/// The line for what an upstream peek returned.
fn peeked(queue: &Queue<'_>, returned: Result<Option<Vec<u8>>, Error>) -> String {
    match returned {
        Ok(None) => queue.accepted("empty"),
        Ok(Some(payload)) => {
            let (len, crc) = (payload.len(), header::crc32(&payload));
            queue.accepted(format_args!("{len} {}", spell_crc(crc)))
        }
        Err(error) => queue.refused(refusal(&error)),
    }
}

/// Whether an output of this length holds the first payload, if there is one.
fn fits(queue: &Queue<'_>, output_len: usize) -> bool {
    queue.may(queue.state.count == 0 || queue.state.first.len <= output_len as u64)
}

/// The line for what is answered on a sound state; `skip` on any other, or where nothing is.
fn on_sound(queue: Queue<'_>, act: impl FnOnce(&Queue<'_>) -> Option<String>) -> String {
    let answered = queue.may(queue.state.is_sound()).then(|| act(&queue)).flatten();
    answered.unwrap_or_else(|| SKIP.to_string())
}

#[cfg(test)]
mod tests {
    use crate::answer::answers;
    use crate::language::spell_bytes;
    use crate::scripts::sample_images;

    const STATE: &str = "state B 6 16584 16584 3 5 44 0 2 132 0 4 8192 1";

    /// The last answer behind the image of this name.
    fn last_answer(name: &str, lines: &str) -> String {
        let (_, bytes) = sample_images().into_iter().find(|(known, _)| *known == name).unwrap();
        let answered = answers(format!("image {} 8192 1\n{lines}", spell_bytes(&bytes)));
        answered.lines().last().unwrap().to_string()
    }

    /// What stands behind the colon of the last line, or the whole line where there is no colon.
    fn answer(lines: &str) -> String {
        last_answer("whole", lines).split(" : ").last().unwrap().to_string()
    }

    #[test]
    fn an_iteration_tells_its_elements_and_what_stopped_it() {
        let (first, others) =
            ("44,0,2,8292,00000000 ", "88,0,3,8236,00000000 132,0,4,8280,00000000 ");
        assert_eq!(answer("iterate"), format!("{first}{others}end 0 0 0"));
        assert!(last_answer("damaged", "iterate").ends_with(&format!(" : {first}end 9 0 0")));
        let more = "state B 6 16584 16584 4 5 44 0 2 132 0 4 8192 1\niterate";
        assert_eq!(answer(more), format!("{first}{others}end 2 0 0"));
    }

    #[test]
    fn an_iteration_goes_round_a_full_ring_as_often_as_the_count_says() {
        let full = "state B 6 8236 16584 3 5 0 0 4 0 0 4 8192 1\npoke 8192 ";
        let whole = answers("header_encode 4 8280 0\nfooter_encode 4 -").replace("0 0 0 : ", "");
        let element = whole.replace('\n', "");
        let each = "0,0,4,8280,00000000 ";
        assert_eq!(
            answer(&format!("{full}{element}\niterate")),
            format!("{}end 0 0 0", each.repeat(3))
        );
    }

    #[test]
    fn a_step_goes_on_from_its_cursor() {
        assert_eq!(answer("step 0 44 0"), "44,0,2,8292,00000000 1 88");
        assert_eq!(answer("step 2 44 65536"), "44,0,2,8292,00000000 3 88");
        assert_eq!(answer("step 3 18446744073709551615 0"), "end");
        assert_eq!(answer("step 18446744073709551615 0 0"), "end");
        assert!(last_answer("whole", "step 0 45 0").starts_with("2 0 0 B 6 "));
        assert!(last_answer("damaged", "step 1 88 0").starts_with("9 0 0 B 6 "));
    }

    #[test]
    fn a_place_that_is_none_is_passed_over() {
        assert_eq!(answer("step 2 8391 0").as_str(), "");
        assert_eq!(answer("step 2 8392 0"), "skip");
        assert_eq!(answer("step 0 18446744073709551615 0"), "skip");
    }

    /// The first element laid anew with this payload.
    fn with_payload(payload: &str) -> String {
        let len = payload.len() / 2;
        let encoded = answers(format!("header_encode 2 0 {len}\nfooter_encode 2 {payload}"));
        let mut encoded = encoded.lines().map(|line| line.split(" : ").last().unwrap());
        let (header, footer) = (encoded.next().unwrap(), encoded.next().unwrap());
        format!(
            "state B 6 81920 81920 1 3 44 {len} 2 44 {len} 2 8192 1\n\
             poke 8236 {header}{payload}{footer}\n"
        )
    }

    #[test]
    fn a_peek_tells_the_first_payload() {
        let laid = with_payload("313233343536373839");
        assert_eq!(answer(&format!("{laid}peek")), "9 cbf43926");
        assert_eq!(answer(&format!("{laid}peek_into 9")), "9 cbf43926");
        assert_eq!(answer(&format!("{laid}peek_into 65536")), "9 cbf43926");
        assert_eq!(answer(&format!("{laid}poke 8273 00\npeek")), "");
        assert_eq!(answer("peek"), "0 00000000");
        assert_eq!(answer("state A 1 8192 8192 0 1 0 0 0 0 0 0 8192 1\npeek_into 0"), "empty");
    }

    #[test]
    fn a_payload_longer_than_the_output_is_passed_over() {
        let laid = with_payload("313233343536373839");
        assert_eq!(answer(&format!("{laid}peek_into 8")), "skip");
        assert_eq!(answer(&format!("{laid}step 0 44 8")), "skip");
        assert_eq!(answer(&format!("{laid}step 0 44 9")), "44,9,2,0,cbf43926 1 97");
        let longest = with_payload(&"00".repeat(65_536));
        assert!(answer(&format!("{longest}iterate")).ends_with(" end 0 0 0"));
        assert!(answer(&format!("{longest}peek")).starts_with("65536 "));
        let longer = with_payload(&"00".repeat(65_537));
        assert_eq!(answer(&format!("{longer}iterate")), "skip");
        assert_eq!(answer(&format!("{longer}peek")), "skip");
    }

    #[test]
    fn an_output_has_a_limit_also_on_an_unsound_state() {
        for line in ["peek_into 65537", "step 0 44 65537"] {
            assert_eq!(answer(line), "bad", "{line}");
            assert_eq!(
                answer(&format!("state A 0 0 0 0 0 0 0 0 0 0 0 0 0\n{line}")),
                "bad",
                "{line}"
            );
        }
    }

    #[test]
    fn used_bytes_go_from_first_to_last() {
        assert_eq!(answer("used"), "8324");
        assert_eq!(answer("state B 6 8292 16584 2 5 60 0 2 4 1 4 8192 1\nused"), "8281");
        assert_eq!(answer("state A 1 8192 8192 0 1 0 0 0 0 0 0 8192 1\nused"), "8192");
    }

    #[test]
    fn an_unsound_state_is_passed_over() {
        let unsound = STATE.replace("16584 16584", "16584 16583");
        for line in ["used", "peek", "peek_into 0", "iterate", "step 0 44 0", "step 9 44 0"] {
            assert_ne!(answer(&format!("{STATE}\n{line}")), "skip", "{line}");
            assert_eq!(answer(&format!("{unsound}\n{line}")), "skip", "{line}");
        }
    }

    #[test]
    fn a_peek_in_place_is_passed_over_and_bad_without_a_state() {
        for line in ["peek_place", "peek_part"] {
            assert_eq!(answer(line), "skip", "{line}");
            assert_eq!(answer(&format!("{line} 0")), "bad", "{line}");
            assert_eq!(answers(line), "bad\n", "{line}");
        }
    }
}
