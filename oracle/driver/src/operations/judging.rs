//! What the port asks before it writes and the upstream code does not: whether the state is sound,
//! whether the counters and the buffer have room, and in a growth that wraps the walk over the old
//! ring. Only the state, the image and the upstream header reader play a part.

use queue_file::inside::format;
use queue_file::inside::header::V2_DATA_START;

use super::writing::Call;
use crate::image::{Image, IMAGE_LEN};
use crate::refusals::{refusal, Refusal};
use crate::run::Queue;
use crate::state::State;

const LARGEST: u64 = i64::MAX as u64;
/// The most elements that a removal walks over here. No script for comparison has more.
pub const LONGEST_WALK: u64 = 1 << 20;

/// Why a line is passed over.
#[derive(Clone, Copy, Debug, PartialEq)]
pub enum Reason {
    Unsound,
    Exhausted,
    TooLong,
    NoRoom,
    Walk,
    Endless,
}

impl Reason {
    pub fn told(self) -> &'static str {
        match self {
            Self::Unsound => "skip unsound (28)",
            Self::Exhausted => "skip exhausted (30)",
            Self::TooLong => "skip growth too long (27)",
            Self::NoRoom => "skip no room (26)",
            Self::Walk => "skip growth walk",
            Self::Endless => "skip endless",
        }
    }
}

/// What becomes of the upstream answer.
#[derive(Clone, Copy, Debug, PartialEq)]
pub enum Judgement {
    Stands,
    /// It stands if it is this refusal, or any where none is named.
    StandsRefused(Option<Refusal>, Reason),
    PassedOver(Reason),
}

/// A growth that is needed, by the numbers of a sound state.
#[derive(Clone, Copy, Debug, PartialEq)]
pub struct Growth {
    /// `None` where it would pass 2^63 - 1.
    pub new_len: Option<u64>,
    pub wraps: bool,
    /// The bytes that move, from the ring's start.
    pub moved: u64,
    pub moves_last: bool,
    /// Whether the walk meets a backlink that is rewritten.
    pub rewrites: bool,
}

impl Growth {
    pub fn of(state: &State, span: u64) -> Option<Self> {
        let remaining = state.remaining();
        if remaining >= span {
            return None;
        }
        let new_len = grown_len(state.file_len, remaining, span);
        let none = Self { new_len, wraps: false, moved: 0, moves_last: false, rewrites: false };
        if state.count == 0 {
            return Some(none);
        }
        let end = (state.last.pos + state.last.span()) % state.ring_len();
        if end > state.first.pos {
            return Some(none);
        }
        let moves_last = state.last.pos < state.first.pos;
        Some(Self { wraps: true, moved: end, moves_last, ..none })
    }

    fn commits(&self, state: &State) -> u64 {
        u64::from(self.moves_last && state.overwrite)
    }
}

/// The length after the fewest doublings that leave `span` bytes; `None` where there is no such
/// number of them or the length passes 2^63 - 1. The upstream code shifts and does not look.
pub fn grown_len(len: u64, remaining: u64, span: u64) -> Option<u64> {
    let [wide_len, remaining, span] = [len, remaining, span].map(u128::from);
    let enough = |doublings: &u32| remaining + wide_len * ((1 << doublings) - 1) >= span;
    let grown = wide_len << (0..=64).find(enough)?;
    u64::try_from(grown).ok().filter(|grown| *grown <= LARGEST)
}

/// Whether the upstream computation of that length ends. After 64 doublings it adds nothing more.
pub fn grown_len_ends(len: u64, remaining: u64, span: u64) -> bool {
    let reached = (0..64).fold(remaining, |sum, nth| sum.saturating_add(len << nth));
    reached >= span
}

/// What becomes of the upstream answer to the call, and the growth that it needs.
pub fn judge(queue: &mut Queue<'_>, call: Call<'_>) -> (Judgement, Option<Growth>) {
    let state = *queue.state;
    if !state.is_sound() {
        return (Judgement::PassedOver(Reason::Unsound), None);
    }
    match call {
        // The upstream code refuses such a count itself, before all else.
        Call::Add(_) if state.count + 1 >= i32::MAX as u32 => (Judgement::Stands, None),
        Call::Add(_) if state.next_seq >= LARGEST => {
            (Judgement::PassedOver(Reason::Exhausted), None)
        }
        Call::Add(payload) => {
            judge_growth(queue.image, &state, payload.len() as u64 + format::V2_ELEM_OVERHEAD, 1)
        }
        Call::Grow(span) => judge_growth(queue.image, &state, span, 0),
        Call::Remove(n) => (judge_removal(&state, n), None),
        Call::Clear | Call::Commit => (judge_commits(&state, 1), None),
    }
}

fn judge_commits(state: &State, commits: u64) -> Judgement {
    if state.generation + commits > LARGEST {
        Judgement::PassedOver(Reason::Exhausted)
    } else {
        Judgement::Stands
    }
}

/// A removal that leaves elements reads their headers before it looks at the counters.
fn judge_removal(state: &State, n: u64) -> Judgement {
    let leaves_some = n < u64::from(state.count);
    match judge_commits(state, 1) {
        _ if n == 0 || state.count == 0 => Judgement::Stands,
        _ if leaves_some && n > LONGEST_WALK => Judgement::PassedOver(Reason::Endless),
        Judgement::PassedOver(reason) if leaves_some => Judgement::StandsRefused(None, reason),
        judgement => judgement,
    }
}

/// With so many commits beside growth's own.
fn judge_growth(
    image: &mut Image,
    state: &State,
    span: u64,
    commits: u64,
) -> (Judgement, Option<Growth>) {
    let Some(mut growth) = Growth::of(state, span) else {
        return (judge_commits(state, commits), None);
    };
    let judgement = match (judge_commits(state, commits + growth.commits(state)), growth.new_len) {
        (Judgement::Stands, None) => Judgement::PassedOver(Reason::TooLong),
        (Judgement::Stands, Some(len)) if len > IMAGE_LEN => Judgement::PassedOver(Reason::NoRoom),
        (Judgement::Stands, Some(_)) if growth.wraps => walk_old_ring(image, state, &mut growth),
        (judgement, _) => judgement,
    };
    (judgement, Some(growth))
}

/// The headers in the ring as it is: each valid, all spans within it, the last where the state says.
/// The upstream code walks when it has moved, in the ring as it will be, and asks but the first.
fn walk_old_ring(image: &mut Image, state: &State, growth: &mut Growth) -> Judgement {
    let ring = image.ring_to_read(state.file_len);
    let (mut pos, mut last, mut spans) = (state.first.pos, None, 0);
    for _ in 0..state.count {
        let header = match format::read_v2_element_header(&ring, pos) {
            Ok(header) => header,
            Err(error) => {
                return Judgement::StandsRefused(Some(refusal(&error)), Reason::Walk);
            }
        };
        let span = header.payload_len as u64 + format::V2_ELEM_OVERHEAD;
        spans += span;
        if spans > state.ring_len() {
            return Judgement::PassedOver(Reason::Walk);
        }
        growth.rewrites |= (1..V2_DATA_START + growth.moved).contains(&header.prev_pos);
        last = Some(pos);
        pos = ring.add(pos, span);
    }
    if last == Some(state.last.pos) {
        Judgement::Stands
    } else {
        Judgement::PassedOver(Reason::Walk)
    }
}

#[cfg(test)]
mod tests {
    use super::*;

    #[test]
    fn lengths_double_until_there_is_room() {
        assert_eq!(grown_len(8192, 0, 44), Some(16384));
        assert_eq!(grown_len(8192, 0, 8192), Some(16384));
        assert_eq!(grown_len(8192, 0, 8193), Some(32768));
        assert_eq!(grown_len(8192, 7, 7), Some(8192));
        assert_eq!(grown_len(0, 1, 1), Some(0));
        assert_eq!(grown_len(1, 0, LARGEST), None);
        assert_eq!(grown_len(1, 0, (1 << 62) - 1), Some(1 << 62));
    }

    #[test]
    fn a_length_that_does_not_fit_is_none() {
        assert_eq!(grown_len(0, 0, 1), None);
        assert_eq!(grown_len(1 << 63, 5, 1), None);
        assert_eq!(grown_len(1 << 62, 0, 1), None);
        assert_eq!(grown_len(1 << 62, 0, (1 << 62) + 1), None);
        assert_eq!(grown_len(8192, 0, u64::MAX), None);
    }

    #[test]
    fn the_upstream_loop_ends_unless_all_doublings_are_too_few() {
        assert!(!grown_len_ends(0, 0, 1));
        assert!(grown_len_ends(0, 1, 1));
        assert!(grown_len_ends(1 << 62, 0, (1 << 62) + 1));
        assert!(grown_len_ends(8192, 0, u64::MAX - 8191));
        assert!(!grown_len_ends(8192, 0, u64::MAX - 8190));
    }
}
