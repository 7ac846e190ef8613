//! A script that is written line by line, each answered at once by the driver itself, so that the
//! next line can build on the state that the upstream code came to.

use queue_file::inside::format::{self, V2_ELEM_HDR_LEN};
use queue_file::inside::header::V2_DATA_START;

use super::lines::{add, fresh, poke};
use super::Line;
use crate::answer::answered;
use crate::random::Random;
use crate::run::Run;
use crate::state::{Settings, State};

pub struct Writer {
    run: Run,
    lines: Vec<Line>,
}

/// The header of an element in its place.
#[derive(Clone, Debug)]
pub struct Header {
    pub pos: u64,
    pub len: u64,
    pub backlink: u64,
    pub bytes: [u8; V2_ELEM_HDR_LEN],
}

impl Writer {
    pub fn new() -> Self {
        Self { run: Run::new(false), lines: Vec::new() }
    }

    /// The lines since the last taking, as a group.
    pub fn taken(&mut self) -> Vec<Line> {
        std::mem::take(&mut self.lines)
    }

    pub fn written(&self) -> usize {
        self.lines.len()
    }

    /// Writes the line and tells its answer.
    pub fn say(&mut self, line: Line) -> String {
        let answer = answered(&mut self.run, &line);
        self.lines.push(line);
        answer
    }

    pub fn say_all(&mut self, lines: impl IntoIterator<Item = Line>) {
        for line in lines {
            self.say(line);
        }
    }

    /// The state, which the first line of a group gives.
    pub fn state(&self) -> State {
        self.run.state.expect("a group begins with a state")
    }

    /// The headers from first on, as far as they are valid and no more than so many.
    pub fn headers(&mut self, most: u32) -> Vec<Header> {
        let state = self.state();
        let ring = self.run.image.ring_to_read(state.file_len);
        let mut pos = state.first.pos;
        let mut headers = Vec::new();
        for _ in 0..state.count.min(most) {
            let Ok(header) = format::read_v2_element_header(&ring, pos) else { break };
            let mut bytes = [0; V2_ELEM_HDR_LEN];
            ring.read_at(pos, &mut bytes).expect("the ring is read");
            let len = header.payload_len as u64;
            headers.push(Header { pos, len, backlink: header.prev_pos, bytes });
            pos = ring.add(pos, len + format::V2_ELEM_OVERHEAD);
        }
        headers
    }

    /// Bytes of the ring replaced from this place on; they may go across its end.
    pub fn poke_ring(&mut self, pos: u64, bytes: &[u8]) {
        let ring_len = self.state().ring_len();
        let pos = pos % ring_len;
        let cut = bytes.len().min((ring_len - pos) as usize);
        self.say(poke(V2_DATA_START + pos, &bytes[..cut]));
        if cut < bytes.len() {
            self.say(poke(V2_DATA_START, &bytes[cut..]));
        }
    }

    /// A fresh ring of this many bytes with elements of up to so many, rolled some way round it:
    /// elements are added and the first ones removed, while there is room.
    pub fn roll(
        &mut self,
        random: &mut Random,
        ring_len: u64,
        settings: Settings,
        longest: usize,
        steps: usize,
    ) {
        self.say(fresh(V2_DATA_START + ring_len, settings));
        for _ in 0..steps {
            let len = random.below(longest + 1);
            if self.state().remaining() >= len as u64 + format::V2_ELEM_OVERHEAD {
                self.say(add(&random.bytes(len)));
            } else if self.state().count > 1 {
                let n = 1 + random.below(self.state().count as usize - 1);
                self.say(super::lines::remove(n as u64));
            }
        }
    }
}
