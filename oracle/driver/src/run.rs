//! What the lines of one script share: the image, and the state once there is one.

use std::fmt::Display;

use queue_file::{Error, QueueFile};

use crate::image::Image;
use crate::language::{line_with_state, spell_crc, SKIP};
use crate::notes::Notes;
use crate::refusals::{numbered, Refusal, NONE};
use crate::state::State;

/// What a run that judges nothing answers to a call that would not end.
pub const LOOPS: &str = "loops";
/// To one that panics.
pub const PANICS: &str = "panic";
/// And to one that fails in a way that has no number.
pub const FAILS: &str = "error";

pub struct Run {
    pub image: Image,
    pub state: Option<State>,
    pub notes: Notes,
    /// Whether the upstream code's doings are told as they are: nothing is judged beside it, and
    /// nothing put back.
    pub raw: bool,
}

/// The state with its image, for an operation that needs both.
pub struct Queue<'a> {
    pub image: &'a mut Image,
    pub state: &'a mut State,
    pub notes: &'a mut Notes,
    pub raw: bool,
}

impl Run {
    /// Each script begins with an image of zeros and no state.
    pub fn new(raw: bool) -> Self {
        Self { image: Image::new(), state: None, notes: Notes::default(), raw }
    }

    /// `None` while there is no state: an operation on the queue is a bad line until then.
    pub fn queue(&mut self) -> Option<Queue<'_>> {
        let Self { image, state, notes, raw } = self;
        Some(Queue { image, state: state.as_mut()?, notes, raw: *raw })
    }

    /// A queue object in this state, new.
    pub fn begin_anew(&mut self, state: State) {
        self.state = Some(state);
        self.image.begin_anew();
    }

    /// The answer to a line that is passed over, for this reason.
    pub fn passed_over(&mut self, reason: &str) -> String {
        self.notes.count(reason);
        SKIP.to_string()
    }
}

impl Queue<'_> {
    /// Whether the port refuses nothing here, or nobody asks.
    pub fn may(&self, allowed: bool) -> bool {
        self.raw || allowed
    }

    pub fn passed_over(&mut self, reason: &str) -> String {
        self.notes.count(reason);
        SKIP.to_string()
    }

    /// The line of an operation that fails, where nothing is judged.
    pub fn refused_or_error(&self, error: &Error) -> String {
        numbered(error).map_or_else(|| FAILS.to_string(), |refusal| self.refused(refusal))
    }

    /// The upstream queue in this state, over the whole buffer.
    pub fn upstream(&self) -> QueueFile {
        self.state.upstream(self.image.held(self.state.file_len))
    }

    /// The line of an operation that refuses nothing.
    pub fn accepted(&self, answer: impl Display) -> String {
        self.line(NONE, answer)
    }

    /// The line of an operation that refuses: no answer stands behind it.
    pub fn refused(&self, refusal: Refusal) -> String {
        self.line(refusal, "")
    }

    /// The same without an answer, where the image had this CRC before it was put right.
    pub fn accepted_with_crc(&self, crc: u32) -> String {
        self.line_with_crc(NONE, "", crc)
    }

    /// The line of an operation with this refusal and this answer.
    pub fn line(&self, refusal: Refusal, answer: impl Display) -> String {
        self.line_with_crc(refusal, answer, self.image.crc(self.state.real_len))
    }

    fn line_with_crc(&self, refusal: Refusal, answer: impl Display, crc: u32) -> String {
        line_with_state(refusal, format_args!("{} {}", self.state, spell_crc(crc)), answer)
    }
}
