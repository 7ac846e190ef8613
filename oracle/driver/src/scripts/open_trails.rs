//! The part of the family `open` with whole images: trails through small rings, image by image, and
//! queues that begin at every place of a ring.

use queue_file::inside::header::V2_DATA_START;

use super::lines::{iterate, peek, peek_into, recover, reopen, used};
use super::trails::{rolled, Trail, LEAST_SPAN, SETTINGS};
use super::whole::Whole;
use super::Line;
use crate::random::Random;

const STEPS: usize = 60;
/// Rings with room for one element, for two and for a few, and those in between.
const CAPACITIES: [u64; 16] =
    [44, 45, 60, 87, 88, 89, 90, 99, 100, 131, 132, 133, 150, 200, 250, 333];

pub fn groups(random: &mut Random) -> Vec<Vec<Line>> {
    let mut groups = Vec::new();
    for capacity in CAPACITIES {
        for overwrite in [false, true] {
            let trail = Trail::fresh(V2_DATA_START + capacity).overwriting(overwrite);
            groups.push(wandered(random, trail, (capacity - LEAST_SPAN) as usize));
        }
    }
    groups.push(wandered(random, Trail::beginning_at(8492, i64::MAX as u64 - 50), 60));
    groups.push(grown(random));
    groups.push(at_every_place(random));
    groups
}

/// Each step of a trail that never makes its file longer.
fn wandered(random: &mut Random, mut trail: Trail, longest: usize) -> Vec<Line> {
    let mut images = vec![trail.whole()];
    for _ in 0..STEPS {
        trail.wander(random, longest);
        images.push(trail.whole());
    }
    one_after_the_other(&images)
}

/// A trail whose file becomes longer, with elements across the old end and without.
fn grown(random: &mut Random) -> Vec<Line> {
    let mut lines = Vec::new();
    for len in [0usize, 44, 60, 70] {
        let mut trail = Trail::fresh(V2_DATA_START + 100);
        for len in [len, len.saturating_sub(44), 0, 9, 200] {
            trail.add(&random.bytes(len));
            if trail.count() > 2 {
                trail.remove(1);
            }
            lines.extend(laid_and_read(&trail.whole()));
        }
    }
    lines
}

fn at_every_place(random: &mut Random) -> Vec<Line> {
    let file_len = V2_DATA_START + 150;
    let places = (LEAST_SPAN..150).chain([0]);
    let images: Vec<Whole> = places.map(|place| rolled(random, file_len, place, &[7, 0])).collect();
    one_after_the_other(&images)
}

/// Images of one length: the first laid as a whole, and each other by what it changes.
fn one_after_the_other(images: &[Whole]) -> Vec<Line> {
    let mut lines = laid_and_read(&images[0]);
    for pair in images.windows(2) {
        lines.extend(pair[1].difference(&pair[0]).done());
        lines.push(reopen(SETTINGS));
        lines.extend(read(&pair[1]));
    }
    lines
}

fn laid_and_read(whole: &Whole) -> Vec<Line> {
    [vec![whole.laid()], read(whole)].concat()
}

/// What a whole image answers, the head found from the tail too.
fn read(whole: &Whole) -> Vec<Line> {
    let state = whole.state;
    vec![
        iterate(),
        peek(),
        peek_into(state.first.len),
        used(),
        recover(state.last.pos, state.last.seq, state.count),
    ]
}
