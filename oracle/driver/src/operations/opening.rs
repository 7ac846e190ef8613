//! A queue opened over the image, and its head recovered. Where the port refuses what the upstream
//! code does not ask, and where the upstream code has no such operation, the line is passed over.

use queue_file::inside::header::V2_DATA_START;
use queue_file::inside::{queue, Result};

use crate::image::{Image, IMAGE_LEN};
use crate::language::{bytes, number, refused, spell_numbers, SKIP};
use crate::refusals::refusal;
use crate::run::{Queue, Run};
use crate::state::{Settings, State};

/// On refusal the bytes stay, and there is no state.
pub fn image(run: &mut Run, hex: &[u8], capacity: &[u8], overwrite: &[u8]) -> Option<String> {
    let (bytes, settings) = (bytes(hex)?, Settings::read(capacity, overwrite)?);
    run.image.replace(&bytes);
    match opened(&run.image, bytes.len() as u64, settings, run.raw) {
        Ok(state) => {
            run.begin_anew(state);
            Some(run.queue()?.accepted(""))
        }
        Err(error) => {
            run.state = None;
            Some(refused(refusal(&error)))
        }
    }
}

/// On refusal the old state stays. A real length beyond the buffer is one that no file here has.
pub fn reopen(queue: Queue<'_>, capacity: &[u8], overwrite: &[u8]) -> Option<String> {
    let settings = Settings::read(capacity, overwrite)?;
    if queue.state.real_len > IMAGE_LEN {
        return Some(SKIP.to_string());
    }
    Some(match opened(queue.image, queue.state.real_len, settings, queue.raw) {
        Ok(state) => {
            *queue.state = state;
            queue.image.begin_anew();
            queue.accepted("")
        }
        Err(error) => queue.refused(refusal(&error)),
    })
}

/// The upstream code has no strict opening. The port's changes its state, so a script has such a
/// line last, or gives the state anew behind it.
pub fn strict(_: Queue<'_>, capacity: &[u8], overwrite: &[u8]) -> Option<String> {
    Settings::read(capacity, overwrite)?;
    Some(SKIP.to_string())
}

/// Only the state's file length plays a part.
pub fn recover(queue: Queue<'_>, place: &[u8], seq: &[u8], n: &[u8]) -> Option<String> {
    let (place, seq, n) = (number(place)?, number(seq)?, u32::try_from(number(n)?).ok()?);
    let file_len = queue.state.file_len;
    if !queue.may(V2_DATA_START < file_len && file_len <= IMAGE_LEN) {
        return Some(SKIP.to_string());
    }
    Some(match queue::recover_v2_head(&queue.upstream(), place, seq, n as usize) {
        Ok(head) => queue.accepted(spell_numbers(&[head.pos, head.len as u64, head.seq])),
        Err(error) => queue.refused(refusal(&error)),
    })
}

/// The set capacity is the one given, or the one that the upstream code keeps where nothing is
/// judged.
pub fn opened(image: &Image, real_len: u64, settings: Settings, raw: bool) -> Result<State> {
    let inner = image.held_to_be_opened(real_len);
    let queue = queue::open(inner, real_len, settings.capacity, settings.overwrite)?;
    let capacity = if raw { queue::capacity(&queue) } else { settings.capacity };
    Ok(State::of(&queue, real_len, Settings { capacity, ..settings }))
}

#[cfg(test)]
mod tests {
    use crate::answer::answers;
    use crate::language::spell_bytes;
    use crate::scripts::sample_images;

    const WHOLE: &str = "0 0 0 B 6 16584 16584 3 5 44 0 2 132 0 4 8192 1 4420446a : ";

    fn image_line(name: &str) -> String {
        let (_, bytes) = sample_images().into_iter().find(|(known, _)| *known == name).unwrap();
        format!("image {} 8192 1", spell_bytes(&bytes))
    }

    /// The last answer behind the image of this name.
    fn last_answer(name: &str, lines: &str) -> String {
        let answered = answers(format!("{}\n{lines}", image_line(name)));
        answered.lines().last().unwrap().to_string()
    }

    #[test]
    fn an_image_is_opened_with_its_settings() {
        assert_eq!(last_answer("whole", ""), WHOLE);
        let set = last_answer("whole", "reopen 18446744073709551615 0");
        assert_eq!(set, WHOLE.replace(" 8192 1 ", " 18446744073709551615 0 "));
        assert_eq!(last_answer("whole", "reopen 7 1"), WHOLE.replace(" 8192 1 ", " 7 1 "));
    }

    #[test]
    fn a_head_that_no_pointer_finds_is_found_from_the_tail() {
        let recovered = last_answer("recovers", "");
        assert_eq!(recovered, WHOLE.replace("4420446a", "1b9065e0"));
    }

    #[test]
    fn a_refused_image_keeps_its_bytes_and_has_no_state() {
        assert_eq!(last_answer("other_run", ""), "17 4 104 : ");
        let lines = "image 31323334 8192 1\npeek\nstate A 0 0 4 0 0 0 0 0 0 0 0 0 0";
        let answered = answers(format!("{}\n{lines}", image_line("whole")));
        let answered: Vec<&str> = answered.lines().skip(1).collect();
        let state = "0 0 0 A 0 0 4 0 0 0 0 0 0 0 0 0 0 9be3e0a3 : ";
        assert_eq!(answered, ["10 0 0 : ", "bad", state]);
    }

    #[test]
    fn a_refused_reopening_keeps_the_old_state() {
        let refused = last_answer("whole", "poke 0 00\npoke 4096 00\nreopen 9000 0");
        assert!(refused.starts_with("10 0 0 B 6 16584 16584 3 5 44 0 2 132 0 4 8192 1 "));
        assert!(refused.ends_with(" : "));
    }

    #[test]
    fn a_slot_is_tried_only_where_the_file_reaches_its_end() {
        let cut = |real_len| format!("state A 0 0 {real_len} 0 0 0 0 0 0 0 0 0 0\nreopen 8192 1");
        let number = |real_len| {
            let answered = last_answer("whole", &cut(real_len));
            answered.split(' ').next().unwrap().to_string()
        };
        // Slot A is the older one, of a shorter file.
        let numbers = [55, 56, 4151, 4152, 8291, 16583, 16584].map(number);
        assert_eq!(numbers, ["10", "12", "12", "12", "12", "12", "0"]);
    }

    #[test]
    fn a_real_length_beyond_the_buffer_is_passed_over() {
        let longer =
            |real_len: u64| format!("state B 6 16584 {real_len} 3 5 44 0 2 132 0 4 8192 1");
        for (real_len, answer) in [(262_144, "0"), (262_145, "skip"), (u64::MAX, "skip")] {
            let answered = last_answer("whole", &format!("{}\nreopen 8192 1", longer(real_len)));
            assert_eq!(answered.split(' ').next(), Some(answer));
        }
    }

    #[test]
    fn strict_opening_is_passed_over_where_it_is_well_spelled() {
        assert_eq!(last_answer("whole", "strict 8192 1"), "skip");
        assert_eq!(last_answer("whole", "strict 8192 2"), "bad");
        assert_eq!(last_answer("whole", "strict 8192"), "bad");
        assert_eq!(answers("strict 8192 1\nreopen 8192 1\nrecover 0 1 1"), "bad\nbad\nbad\n");
    }

    #[test]
    fn recovery_tells_the_head_or_what_stopped_it() {
        let recovered = |words: &str| {
            let answered = last_answer("whole", &format!("recover {words}"));
            let refusal: Vec<&str> = answered.split(' ').take(3).collect();
            (refusal.join(" "), answered.split(" : ").last().unwrap().to_string())
        };
        let found = |words: &str| recovered(words).1;
        assert_eq!(found("132 4 3"), "44 0 2");
        assert_eq!(found("132 4 1"), "132 0 4");
        assert_eq!(found("8524 4 1"), "8524 0 4");
        let refused = |words: &str| recovered(words).0;
        assert_eq!(refused("132 4 0"), "20 0 0");
        assert_eq!(refused("132 5 1"), "17 5 4");
        assert_eq!(refused("132 0 1"), "17 0 4");
        assert_eq!(refused("131 4 1"), "2 0 0");
        assert_eq!(last_answer("whole", "recover 132 4 4294967296"), "bad");
    }

    #[test]
    fn recovery_where_there_is_no_ring_is_passed_over() {
        for (file_len, passed_over) in
            [(8192, true), (8193, false), (262_144, false), (262_145, true)]
        {
            let state = format!("state A 0 {file_len} 0 0 0 0 0 0 0 0 0 0 0");
            let answered = last_answer("whole", &format!("{state}\nrecover 0 1 1"));
            assert_eq!(answered == "skip", passed_over, "{file_len}");
        }
    }
}
