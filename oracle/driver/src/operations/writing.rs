//! A queue written: an element added, elements removed, all cleared, the header committed, the file
//! grown. Each runs the upstream function on the live object's file. What the port refuses and the
//! upstream code does not ask is judged beside it, and where a refusal has changed the file or the
//! object, both are put back.

use queue_file::inside::format::{self, V2_ELEM_OVERHEAD};
use queue_file::inside::header::V2_DATA_START;
use queue_file::inside::qio::QueueFileInner;
use queue_file::inside::{factory, queue, Result};
use queue_file::QueueFile;

use super::fault;
use super::judging::{grown_len, grown_len_ends, judge, Growth, Judgement, Reason, LONGEST_WALK};
use super::opening::opened;
use crate::image::IMAGE_LEN;
use crate::language::{accepted, bytes, number};
use crate::live::contents;
use crate::refusals::{numbered, refusal};
use crate::run::{Queue, Run, LOOPS};
use crate::scratch;
use crate::state::{Settings, State};

/// The most zeros that a clear writes in a run that judges nothing.
const LONGEST_ZEROED: u64 = 1 << 30;

/// A writing call with its argument.
#[derive(Clone, Copy)]
pub enum Call<'a> {
    Add(&'a [u8]),
    Remove(u64),
    Clear,
    Commit,
    Grow(u64),
}

/// A fresh image is laid here: upstream makes one only of 8192 bytes, and with a slot B, which shows
/// where nothing is judged.
pub fn fresh(run: &mut Run, len: &[u8], capacity: &[u8], overwrite: &[u8]) -> Option<String> {
    let (len, settings) = (number(len)?, Settings::read(capacity, overwrite)?);
    if !(V2_DATA_START..=IMAGE_LEN).contains(&len) {
        return Some(run.passed_over("skip fresh image (28, 26)"));
    }
    run.image.store(0, &laid(len, run.raw && len == V2_DATA_START));
    let state = opened(&run.image, len, settings, run.raw);
    run.begin_anew(state.expect("a fresh image opens"));
    Some(run.queue()?.accepted(""))
}

fn laid(len: u64, as_upstream_does: bool) -> Vec<u8> {
    if as_upstream_does {
        let mut inner = scratch::queue();
        let made = factory::init_v2_file(inner.file_mut().expect("the scratch file serves"));
        made.expect("the scratch file serves");
        return contents(&inner, len).1;
    }
    let slot = format::encode_v2_slot(len, 0, 0, 0, 1, 1).expect("a length within the buffer fits");
    let mut bytes = vec![0; len as usize];
    bytes[..slot.len()].copy_from_slice(&slot);
    bytes
}

pub fn add(queue: Queue<'_>, hex: &[u8]) -> Option<String> {
    let payload = bytes(hex)?;
    Some(written(queue, Call::Add(&payload)))
}

pub fn remove(queue: Queue<'_>, n: &[u8]) -> Option<String> {
    let n = number(n)?;
    Some(written(queue, Call::Remove(n)))
}

pub fn clear(queue: Queue<'_>) -> Option<String> {
    Some(written(queue, Call::Clear))
}

pub fn commit(queue: Queue<'_>) -> Option<String> {
    Some(written(queue, Call::Commit))
}

pub fn grow(queue: Queue<'_>, span: &[u8]) -> Option<String> {
    let span = number(span)?;
    Some(written(queue, Call::Grow(span)))
}

/// Where the length does not fit, the upstream code gives another or does not end.
pub fn grow_length(run: &mut Run, len: &[u8], remaining: &[u8], span: &[u8]) -> Option<String> {
    let (len, remaining, span) = (number(len)?, number(remaining)?, number(span)?);
    if !run.raw && grown_len(len, remaining, span).is_none() {
        return Some(run.passed_over(Reason::TooLong.told()));
    }
    if !grown_len_ends(len, remaining, span) {
        return Some(LOOPS.to_string());
    }
    Some(accepted(queue::compute_expanded_len(len, remaining, span)))
}

impl Call<'_> {
    pub fn run(self, queue: &mut QueueFile) -> Result<()> {
        match self {
            Self::Add(payload) => queue.add(payload),
            Self::Remove(n) => queue.remove_n(n as usize),
            Self::Clear => queue.clear(),
            Self::Commit => queue::sync_header(queue),
            Self::Grow(span) => queue::expand_if_necessary(queue, span),
        }
    }

    /// The bytes that are to be free.
    fn span(self) -> Option<u64> {
        match self {
            Self::Add(payload) => Some(payload.len() as u64 + V2_ELEM_OVERHEAD),
            Self::Grow(span) => Some(span),
            Self::Remove(_) | Self::Clear | Self::Commit => None,
        }
    }

    fn clears(self, state: &State) -> bool {
        match self {
            Self::Clear => true,
            Self::Remove(n) => state.count > 0 && n >= u64::from(state.count),
            Self::Add(_) | Self::Commit | Self::Grow(_) => false,
        }
    }
}

/// What a call returned, the state of the object after it, but for the real length, and its file.
pub fn performed(
    state: &State,
    inner: QueueFileInner,
    call: Call<'_>,
) -> (Result<()>, State, QueueFileInner) {
    let mut upstream = state.upstream(inner);
    let returned = call.run(&mut upstream);
    let after = State::of(&upstream, state.real_len, state.settings());
    (returned, after, queue::into_inner(upstream))
}

fn written(mut queue: Queue<'_>, call: Call<'_>) -> String {
    if queue.raw {
        return written_unjudged(queue, call);
    }
    let before = *queue.state;
    let (judgement, growth) = judge(&mut queue, call);
    if let Judgement::PassedOver(reason) = judgement {
        return queue.passed_over(reason.told());
    }
    let (inner, cursor) = queue.image.lend(before.real_len);
    if let (Call::Add(payload), Judgement::Stands) = (call, judgement) {
        if fault::strikes(&before, cursor, growth) {
            note(&mut queue, call, growth, &before);
            return fault::struck(queue, inner, cursor, payload);
        }
    }
    let (returned, after, inner) = performed(&before, inner, call);
    match (returned, judgement) {
        (Ok(()), Judgement::Stands) => {
            let real_len = queue.image.keep(inner);
            *queue.state = State { real_len, ..after };
            note(&mut queue, call, growth, &before);
            queue.accepted("")
        }
        (returned, judgement) => {
            let changed = queue.image.put_back(inner, cursor, before.real_len);
            queue.notes.count_if(changed || after != before, "put back");
            match (returned, judgement) {
                (Err(error), Judgement::Stands) => queue.refused(refusal(&error)),
                (Err(error), Judgement::StandsRefused(wanted, reason)) => match numbered(&error) {
                    Some(by) if wanted.map_or(true, |wanted| wanted == by) => queue.refused(by),
                    _ => queue.passed_over(reason.told()),
                },
                (_, Judgement::StandsRefused(_, reason) | Judgement::PassedOver(reason)) => {
                    queue.passed_over(reason.told())
                }
                (Ok(()), Judgement::Stands) => unreachable!("it was kept"),
            }
        }
    }
}

/// What the upstream code does, whatever the state is; a panic is caught where the line is answered.
fn written_unjudged(queue: Queue<'_>, call: Call<'_>) -> String {
    let before = *queue.state;
    if is_endless(&queue.upstream(), &before, call) {
        return LOOPS.to_string();
    }
    let (inner, _) = queue.image.lend(before.real_len);
    let (returned, after, inner) = performed(&before, inner, call);
    let real_len = queue.image.keep(inner);
    *queue.state = State { real_len, ..after };
    match returned {
        Ok(()) => queue.accepted(""),
        Err(error) => queue.refused_or_error(&error),
    }
}

fn is_endless(upstream: &QueueFile, state: &State, call: Call<'_>) -> bool {
    let grows_for_ever = |span| {
        let remaining = upstream.file_len().wrapping_sub(upstream.used_bytes());
        !grown_len_ends(upstream.file_len(), remaining, span)
    };
    let zeroed = state.file_len.min(state.capacity);
    call.span().map_or(false, grows_for_ever)
        || call.clears(state) && state.overwrite && zeroed > LONGEST_ZEROED
        || matches!(call, Call::Remove(n) if n < u64::from(state.count) && n > LONGEST_WALK)
}

/// Counts what a call came upon that was carried out.
fn note(queue: &mut Queue<'_>, call: Call<'_>, growth: Option<Growth>, before: &State) {
    let (notes, after) = (&mut *queue.notes, &*queue.state);
    notes.count(if before.overwrite { "overwriting on" } else { "overwriting off" });
    notes.count_capacity(before.capacity);
    if let Some(growth) = growth {
        notes.count("growths");
        let new_len = growth.new_len.unwrap_or(u64::MAX);
        notes.count_if(before.real_len > new_len, "growths with real length above new length");
        notes.count_if(growth.wraps, "growths that wrap");
        let across = !growth.moves_last && growth.moved > 0;
        notes.count_if(across, "growths that wrap with last across the end");
        notes.count_if(growth.moves_last, "growths that wrap with last before first");
        notes.count_if(growth.wraps && growth.moved == 0, "growths that wrap with E = 0");
        notes.count_if(growth.rewrites, "growths that wrap with a backlink rewritten");
    }
    if call.clears(before) {
        notes.count("clears");
        notes.count_if(after.file_len < before.file_len, "clears that cut");
        notes.count_if(before.count == 0, "clears of an empty queue");
    } else if matches!(call, Call::Remove(_)) {
        let across = before.overwrite && after.first.pos < before.first.pos;
        notes.count_if(across, "removes that zero across the end");
    }
}

#[cfg(test)]
mod tests {
    use crate::answer::{answer, answer_raw, answers};
    use crate::notes::Notes;
    use crate::operations::fault;

    /// The last answer to these lines.
    fn last_answer(lines: &str) -> String {
        answers(lines).lines().last().unwrap().to_string()
    }

    fn refusal(lines: &str) -> String {
        last_answer(lines).split(' ').take(3).collect::<Vec<_>>().join(" ")
    }

    fn notes(lines: &str) -> Notes {
        answer(lines.as_bytes(), Vec::new()).unwrap()
    }

    fn raw(lines: &str) -> String {
        let mut printed = Vec::new();
        answer_raw(lines.as_bytes(), &mut printed).unwrap();
        String::from_utf8(printed).unwrap().lines().last().unwrap().to_string()
    }

    const WORKED: &str = "fresh 8292 8192 1\nadd -\nadd -\nremove 1\nadd -\nadd -\n";
    const TWO: &str = "fresh 8292 8192 1\nadd -\nadd -\n";
    /// One element fills its ring, and a byte of its header's CRC is changed.
    const SPOILED: &str = "fresh 8236 8192 0\nadd -\npoke 8219 ea\n";

    fn lost_element() -> String {
        let long = "cd".repeat(492);
        let sixty = "ab".repeat(60);
        format!("fresh 8398 8381 0\nadd -\nadd {sixty}\nadd -\nremove 2\nadd 010203040506\nadd {long}\n")
    }

    #[test]
    fn the_worked_example_is_written() {
        let listed = last_answer(&format!("{WORKED}iterate"));
        assert_eq!(
            listed,
            "0 0 0 B 6 16584 16584 3 5 44 0 2 132 0 4 8192 1 4420446a : 44,0,2,8292,00000000 \
             88,0,3,8236,00000000 132,0,4,8280,00000000 end 0 0 0"
        );
        assert_eq!(last_answer(&format!("{WORKED}reopen 8192 1\niterate")), listed);
    }

    #[test]
    fn the_fault_shows_in_its_line_and_is_put_right() {
        let crc = if fault::IN_THIS_BUILD { "919e7bfb" } else { "d4e2b664" };
        let struck = last_answer(&lost_element());
        assert_eq!(struck, format!("0 0 0 A 7 16796 16796 3 6 148 0 3 242 492 5 8381 0 {crc} : "));
        let listed = last_answer(&format!("{}iterate", lost_element()));
        assert!(listed.ends_with(" 242,492,5,8384,648b1f67 end 0 0 0"));
        assert!(listed.contains(" d4e2b664 : "));
        let foretold: &[u64] = if fault::IN_THIS_BUILD { &[7] } else { &[] };
        assert_eq!(notes(&lost_element()).strikes(), foretold);
    }

    #[test]
    fn the_cursor_lasts_from_a_growth_to_an_add() {
        let lines = lost_element();
        let (begin, add) = lines.trim_end().rsplit_once('\n').unwrap();
        let apart = format!("{begin}\ngrow 536\n{add}");
        assert_eq!(last_answer(&apart), last_answer(&lines));
        // A commit between them moves it, and a new object has none.
        for between in ["commit", "state B 6 16796 16796 2 5 148 0 3 192 6 4 8381 0"] {
            let notes = notes(&format!("{begin}\ngrow 536\n{between}\n{add}"));
            assert_eq!(notes.strikes(), &[] as &[u64], "{between}");
        }
    }

    #[test]
    fn where_a_growth_is_refused_all_is_put_back() {
        let before = last_answer(SPOILED);
        let after = format!("5{}", &before[1..]);
        assert_eq!(last_answer(&format!("{SPOILED}add -")), after);
        assert_eq!(last_answer(&format!("{SPOILED}add -\ngrow 1\nadd -\ngrow 1")), after);
        assert_eq!(last_answer(&format!("{SPOILED}add -\ncommit\nadd -\noverwrite 0")), {
            last_answer(&format!("{SPOILED}commit\noverwrite 0"))
        });
        assert_eq!(notes(&format!("{SPOILED}add -\ngrow 1")).times("put back"), 2);
    }

    #[test]
    fn where_the_old_ring_refuses_otherwise_a_growth_is_passed_over() {
        let header = answers("header_encode 1 0 1").replace("0 0 0 : ", "");
        let longer = format!("fresh 8236 8192 0\nadd -\npoke 8192 {header}");
        assert_eq!(last_answer(&format!("{longer}add -")), "skip");
        let full = "fresh 8280 8192 0\nadd -\nadd -\n";
        for count in [1, 3] {
            let given = format!("{full}state A 3 8280 8280 {count} 3 0 0 1 44 0 2 8192 0\n");
            assert_eq!(last_answer(&format!("{given}add -")), "skip", "{count}");
            let after = last_answer(&format!("{given}add -\noverwrite 0"));
            assert_eq!(after, last_answer(&format!("{given}overwrite 0")), "{count}");
            assert_eq!(notes(&format!("{given}add -")).times("skip growth walk"), 1);
        }
    }

    #[test]
    fn counters_at_their_end_are_passed_over_behind_what_is_refused_before() {
        let given = |generation: u64| {
            format!("{TWO}state A {generation} 8292 8292 2 3 0 0 1 44 0 2 8192 1\n")
        };
        let (last, end) = (i64::MAX as u64 - 1, i64::MAX as u64);
        for call in ["add -", "commit", "clear", "remove 1", "remove 2"] {
            assert_eq!(refusal(&format!("{}{call}", given(last))), "0 0 0", "{call}");
            assert_eq!(last_answer(&format!("{}{call}", given(end))), "skip", "{call}");
        }
        for call in ["remove 0", "grow 12"] {
            assert_eq!(refusal(&format!("{}{call}", given(end))), "0 0 0", "{call}");
        }
        assert_eq!(refusal(&format!("{}poke 8236 00\nremove 1", given(end))), "2 0 0");
        assert_eq!(last_answer(&format!("{}grow 13", given(end))).split(' ').nth(5), Some("16584"));
    }

    #[test]
    fn a_growth_that_commits_counts_beside_the_add() {
        let queue = "fresh 8292 8192 1\nadd -\nadd -\nremove 1\nadd -\nremove 1\nadd -\n";
        let given = |back: u64, overwrite: u8| {
            let generation = i64::MAX as u64 - back;
            format!("{queue}state A {generation} 8292 8292 2 5 88 0 3 32 0 4 8192 {overwrite}\n")
        };
        assert_eq!(last_answer(&format!("{}add -", given(1, 1))), "skip");
        assert_eq!(refusal(&format!("{}add -", given(1, 0))), "0 0 0");
        assert_eq!(refusal(&format!("{}add -", given(2, 1))), "0 0 0");
        assert_eq!(refusal(&format!("{}grow 44", given(1, 1))), "0 0 0");
        assert_eq!(last_answer(&format!("{}grow 44", given(0, 1))), "skip");
        assert_eq!(refusal(&format!("{}grow 44", given(0, 0))), "0 0 0");
    }

    #[test]
    fn what_upstream_has_no_refusal_for_is_passed_over() {
        let unsound = "state A 3 8292 8292 2 3 0 57 1 44 0 2 8192 1\n";
        for call in ["add -", "remove 0", "remove 1", "clear", "commit", "grow 0"] {
            assert_eq!(last_answer(&format!("{TWO}{unsound}{call}")), "skip", "{call}");
        }
        for call in ["grow 253953", "grow 18446744073709551615"] {
            assert_eq!(last_answer(&format!("fresh 262144 8192 0\n{call}")), "skip", "{call}");
        }
        for line in ["fresh 8191 8192 0", "fresh 262145 8192 0", "fresh 9223372036854775808 0 0"] {
            assert_eq!(last_answer(line), "skip", "{line}");
            assert_eq!(last_answer(&format!("{line}\nclear")), "bad", "{line}");
        }
    }

    #[test]
    fn too_many_elements_are_refused() {
        let given =
            |count: u32| format!("{TWO}state A 3 8292 8292 {count} 3 0 0 1 44 0 2 8192 1\n");
        assert_eq!(refusal(&format!("{}add -", given(2_147_483_646))), "25 0 0");
        assert_ne!(refusal(&format!("{}add -", given(2_147_483_645))), "25 0 0");
    }

    #[test]
    fn bytes_behind_the_real_length_stay_and_a_growth_zeroes_what_it_takes_in() {
        let poked = "fresh 8292 8192 0\npoke 8300 31\n";
        let fresh = last_answer("fresh 16584 8192 0\nfresh 8292 8192 0\ngrow 101");
        assert_eq!(last_answer(&format!("{poked}grow 101")), fresh);
        let extended = "fresh 8292 8192 0\nextend 3\ngrow 101\nring_read 99 5";
        assert!(last_answer(extended).ends_with(" : 00a5a5a500"));
        let cut = "fresh 8292 8192 0\nextend 20000\ngrow 101";
        assert_eq!(last_answer(cut).split(' ').nth(6), Some("16584"));
        assert!(last_answer(&format!("{cut}\nextend 0\nring_read 99 3")).ends_with(" : 00a5a5"));
    }

    #[test]
    fn a_clear_cuts_to_the_set_capacity() {
        let cleared =
            |set: &str| last_answer(&format!("fresh 8292 {set} 1\nextend 9\nadd -\nclear"));
        let lengths = |set| cleared(set).split(' ').skip(5).take(2).collect::<Vec<_>>().join(" ");
        assert_eq!(lengths("8192"), "8192 8192");
        assert_eq!(lengths("8291"), "8291 8291");
        assert_eq!(lengths("8292"), "8292 8301");
        assert_eq!(refusal("fresh 8192 8192 1\nadd 07\nremove 1\nreopen 8192 1"), "12 0 0");
    }

    #[test]
    fn lengths_after_growth() {
        assert_eq!(last_answer("grow_length 8192 0 8193"), "0 0 0 : 32768");
        assert_eq!(last_answer("grow_length 0 0 1"), "skip");
        assert_eq!(last_answer("grow_length 4611686018427387904 0 1"), "skip");
        assert_eq!(raw("grow_length 0 0 1"), "loops");
        assert_eq!(raw("grow_length 4611686018427387904 0 4611686018427387905"), "0 0 0 : 0");
    }

    #[test]
    fn unjudged_the_upstream_code_is_told_as_it_is() {
        let refused = raw(&format!("{SPOILED}add -"));
        assert!(refused.starts_with("5 0 0 B 2 16472 16472 1 "), "{refused}");
        let none = "state A 1 8192 8192 1 2 0 0 1 0 0 1 8192 0";
        assert_eq!(raw(&format!("fresh 8192 8192 0\n{none}\nadd -")), "panic");
        assert!(raw(&format!("fresh 8192 8192 0\n{none}\nadd -\nclear")).starts_with("0 0 0 B 2 "));
        assert_eq!(raw("fresh 8192 8192 0\ngrow 18446744073709551615"), "loops");
        assert!(raw("fresh 8192 100 0").contains(" 8192 0 5cb2b0ef : "));
    }

    #[test]
    fn what_a_line_came_upon_is_counted() {
        let noted = notes(WORKED);
        for (what, times) in [
            ("add", 4),
            ("remove", 1),
            ("growths", 1),
            ("growths that wrap", 1),
            ("growths that wrap with last across the end", 1),
            ("growths that wrap with last before first", 0),
            ("growths that wrap with a backlink rewritten", 1),
            ("overwriting on", 5),
            ("clears", 0),
        ] {
            assert_eq!(noted.times(what), times, "{what}");
        }
        let noted =
            notes(&format!("{WORKED}remove 3\nclear\nextend 9\ngrow 1\ncapacity 9000\nclear"));
        assert_eq!((noted.times("clears"), noted.times("clears that cut")), (3, 2));
        assert_eq!(noted.times("clears of an empty queue"), 2);
        let ring = "fresh 8292 8192 1\nadd -\nadd -\nremove 1\nadd -\nremove 1\nadd -\nremove 1";
        assert_eq!(notes(ring).times("removes that zero across the end"), 1);
    }
}
