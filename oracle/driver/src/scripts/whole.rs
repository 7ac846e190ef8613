//! An image with what it holds, and changes to its bytes that can be made and undone.

use queue_file::inside::header::V2_DATA_START;

use super::layouts::{element_header, footer};
use super::lines::{image, poke};
use super::trails::SETTINGS;
use super::Line;
use crate::state::State;

#[derive(Clone)]
pub struct Whole {
    pub bytes: Vec<u8>,
    /// The state that opening gives.
    pub state: State,
    pub elements: Vec<Placed>,
}

#[derive(Clone)]
pub struct Placed {
    pub pos: u64,
    pub seq: u64,
    pub backlink: u64,
    pub payload: Vec<u8>,
}

/// Bytes of an image replaced: each part with its offset.
#[derive(Clone, Default)]
pub struct Change(Vec<(u64, Vec<u8>)>);

impl Placed {
    pub fn phys(&self) -> u64 {
        V2_DATA_START + self.pos
    }

    pub fn len(&self) -> u64 {
        self.payload.len() as u64
    }

    pub fn footer_pos(&self) -> u64 {
        self.pos + 28 + self.len()
    }

    /// Header, payload and footer.
    pub fn encoded(&self) -> Vec<u8> {
        let header = element_header(self.seq, self.backlink, self.payload.len() as u32);
        [header, self.payload.clone(), footer(self.seq, &self.payload)].concat()
    }
}

impl Whole {
    pub fn ring_len(&self) -> u64 {
        self.state.ring_len()
    }

    /// The fields of the elected slot, in the order of its operations.
    pub fn slot_fields(&self) -> [u64; 6] {
        let State { file_len, count, generation, next_seq, first, last, .. } = self.state;
        let physical = |pos: u64| if count == 0 { 0 } else { V2_DATA_START + pos };
        [file_len, u64::from(count), physical(first.pos), physical(last.pos), generation, next_seq]
    }

    /// The elected slot replaced.
    pub fn slot_changed(&self, slot: &[u8]) -> Change {
        Change::at(self.state.slot.offset(), slot)
    }

    /// Bytes of the ring replaced from this place on; they may go across its end.
    pub fn ring_changed(&self, place: u64, bytes: &[u8]) -> Change {
        let place = place % self.ring_len();
        let cut = bytes.len().min((self.ring_len() - place) as usize);
        let mut change = Change::at(V2_DATA_START + place, &bytes[..cut]);
        if cut < bytes.len() {
            change = change.and(Change::at(V2_DATA_START, &bytes[cut..]));
        }
        change
    }

    pub fn read(&self, place: u64, len: usize) -> Vec<u8> {
        let byte = |nth: u64| (V2_DATA_START + (place + nth) % self.ring_len()) as usize;
        (0..len as u64).map(|nth| self.bytes[byte(nth)]).collect()
    }

    /// The line that lays the image and opens it.
    pub fn laid(&self) -> Line {
        image(&self.bytes, SETTINGS)
    }

    /// What makes this image of another of the same length.
    pub fn difference(&self, other: &Self) -> Change {
        assert_eq!(self.bytes.len(), other.bytes.len());
        let mut parts: Vec<(u64, Vec<u8>)> = Vec::new();
        for (offset, (new, old)) in self.bytes.iter().zip(&other.bytes).enumerate() {
            if new == old {
                continue;
            }
            match parts.last_mut() {
                // A short stretch that is the same costs less than a line.
                Some((begin, part)) if offset < *begin as usize + part.len() + 16 => {
                    part.extend_from_slice(&self.bytes[*begin as usize + part.len()..=offset]);
                }
                _ => parts.push((offset as u64, vec![*new])),
            }
        }
        Change(parts)
    }
}

impl Change {
    pub fn at(offset: u64, bytes: &[u8]) -> Self {
        Self(vec![(offset, bytes.to_vec())])
    }

    pub fn and(mut self, other: Self) -> Self {
        self.0.extend(other.0);
        self
    }

    pub fn done(&self) -> Vec<Line> {
        self.0.iter().map(|(offset, bytes)| poke(*offset, bytes)).collect()
    }

    /// The image with these bytes in it.
    pub fn applied(&self, whole: &Whole) -> Vec<u8> {
        let mut bytes = whole.bytes.clone();
        for (offset, part) in &self.0 {
            let begin = *offset as usize;
            bytes[begin..begin + part.len()].copy_from_slice(part);
        }
        bytes
    }

    /// The bytes put back that the image has there.
    pub fn undone(&self, whole: &Whole) -> Vec<Line> {
        let back = |(offset, bytes): &(u64, Vec<u8>)| {
            let begin = *offset as usize;
            poke(*offset, &whole.bytes[begin..begin + bytes.len()])
        };
        self.0.iter().map(back).collect()
    }
}

#[cfg(test)]
mod tests {
    use super::super::lines::state;
    use super::super::trails::{rolled, Trail};
    use super::super::{joined, layouts};
    use super::*;
    use crate::answer::answers;
    use crate::random::Random;

    fn last_answer(lines: &[Line]) -> String {
        answers(joined(lines)).lines().last().unwrap().to_string()
    }

    #[test]
    fn a_whole_image_is_what_its_parts_say() {
        let whole = rolled(&mut Random::new(1), 8492, 250, &[5, 0, 9]);
        for element in &whole.elements {
            let encoded = element.encoded();
            assert_eq!(whole.read(element.pos, encoded.len()), encoded);
        }
        let slot = layouts::slot(whole.slot_fields());
        let offset = whole.state.slot.offset() as usize;
        assert_eq!(whole.bytes[offset..offset + 56], slot);
    }

    #[test]
    fn opening_a_whole_image_gives_its_state() {
        let whole = rolled(&mut Random::new(1), 8492, 250, &[5, 0, 9]);
        assert_eq!(last_answer(&[whole.laid()]), last_answer(&[whole.laid(), state(whole.state)]));
    }

    #[test]
    fn a_change_is_made_and_undone() {
        let whole = rolled(&mut Random::new(1), 8492, 250, &[5, 0, 9]);
        let change = whole.ring_changed(298, b"across the end").and(whole.slot_changed(&[0; 56]));
        let changed = [vec![whole.laid()], change.done()].concat();
        let undone = [changed.clone(), change.undone(&whole)].concat();
        assert_ne!(last_answer(&changed), last_answer(&[whole.laid()]));
        assert_eq!(last_answer(&undone), last_answer(&[whole.laid()]));
    }

    #[test]
    fn a_difference_leads_from_one_image_to_the_next() {
        let mut trail = Trail::fresh(8492);
        trail.add(b"one");
        let before = trail.whole();
        trail.add(b"another");
        trail.remove(1);
        let after = trail.whole();
        let lines =
            [vec![before.laid()], after.difference(&before).done(), vec![state(after.state)]];
        assert_eq!(last_answer(&lines.concat()), last_answer(&[after.laid()]));
    }
}
