//! The one known fault of the upstream code, which the mended build does not have: a copy notes its
//! end as the file's cursor, which it has not moved, so that a write that starts there goes to where
//! the cursor is. Here it is foretold before an add, the file is held to what it leaves, and then
//! the bytes are put right, so that the script can go on.

use queue_file::inside::format::V2_ELEM_OVERHEAD;
use queue_file::inside::header::{self, V2_DATA_START, V2_SLOT_LEN};
use queue_file::inside::qio::QueueFileInner;

use super::judging::Growth;
use super::writing::{performed, Call};
use crate::image::IMAGE_LEN;
use crate::live::{contents, Cursor};
use crate::run::Queue;
use crate::state::State;

/// Whether this is the build with the fault in it.
pub const IN_THIS_BUILD: bool = matches!(env!("CARGO_PKG_NAME").as_bytes(), b"oracle-plain");

/// Whether the add's element goes to the wrong place: the write starts where a copy ended, in this
/// growth or in one before, and nothing was written since.
pub fn strikes(state: &State, cursor: Cursor, growth: Option<Growth>) -> bool {
    let noted = match growth {
        // A backlink written, or zeros, and the cursor is where it is noted.
        Some(growth) if growth.rewrites => return false,
        Some(growth) if growth.moved > 0 && state.overwrite => return false,
        Some(growth) if growth.moved > 0 => Some(state.file_len + growth.moved),
        _ => cursor.noted.filter(|noted| *noted != cursor.at),
    };
    IN_THIS_BUILD && noted == Some(start(state, growth))
}

/// Where the element is to stand in the file.
fn start(state: &State, growth: Option<Growth>) -> u64 {
    if state.count == 0 {
        return V2_DATA_START;
    }
    let (moves_last, new_len) =
        growth.map_or((false, None), |growth| (growth.moves_last, growth.new_len));
    let last_pos = state.last.pos + if moves_last { state.ring_len() } else { 0 };
    let new_ring_len = new_len.map_or(state.ring_len(), |len| len - V2_DATA_START);
    V2_DATA_START + (last_pos + state.last.span()) % new_ring_len
}

/// The line of an add at which the fault strikes. Growth and add by themselves, with the cursor
/// forgotten between them, are what the add should have been; the file that the add itself leaves
/// has the element's bytes up to the ring's end where the cursor was, and all else as that.
pub fn struck(queue: Queue<'_>, inner: QueueFileInner, cursor: Cursor, payload: &[u8]) -> String {
    let before = *queue.state;
    let (returned, struck_state, inner) = performed(&before, inner, Call::Add(payload));
    returned.expect("an add at which the fault strikes succeeds");
    let (struck_len, struck_bytes) = contents(&inner, IMAGE_LEN);
    queue.image.put_back(inner, cursor, before.real_len);

    let (inner, _) = queue.image.lend(before.real_len);
    let span = payload.len() as u64 + V2_ELEM_OVERHEAD;
    let (returned, grown, mut inner) = performed(&before, inner, Call::Grow(span));
    returned.expect("the growth of such an add succeeds");
    let (_, grown_bytes) = contents(&inner, IMAGE_LEN);
    inner.last_seek = None;
    let (returned, right, inner) = performed(&grown, inner, Call::Add(payload));
    returned.expect("an add where there is room succeeds");
    let (right_len, right_bytes) = contents(&inner, IMAGE_LEN);
    queue.image.keep(inner);

    assert_eq!((struck_state, struck_len), (right, right_len), "the fault strikes the bytes only");
    let expected = as_left(&right, span as usize, cursor.at as usize, &grown_bytes, &right_bytes);
    assert!(struck_bytes == expected, "the fault leaves other bytes than are foretold");

    *queue.state = State { real_len: right_len, ..right };
    queue.notes.strike();
    queue.accepted_with_crc(header::crc32(&struck_bytes))
}

/// The file as the fault leaves it. What was written behind the element's first run lies over it.
fn as_left(state: &State, span: usize, cursor: usize, grown: &[u8], right: &[u8]) -> Vec<u8> {
    let data_start = V2_DATA_START as usize;
    let start = data_start + state.last.pos as usize;
    let run = span.min(state.file_len as usize - start);
    let mut left = right.to_vec();
    left[start..start + run].copy_from_slice(&grown[start..start + run]);
    left[cursor..cursor + run].copy_from_slice(&right[start..start + run]);
    let slot = state.slot.offset() as usize;
    for later in [data_start..data_start + span - run, slot..slot + V2_SLOT_LEN] {
        left[later.clone()].copy_from_slice(&right[later]);
    }
    left
}
