//! The images that are kept as samples: the worked example of the format, and what damage makes of
//! it.

use super::layouts::{slot, with};
use super::trails::Trail;
use super::whole::{Change, Placed, Whole};

/// A fresh image of 8292 bytes; add, add, remove 1, add, add, all payloads empty. The last add goes
/// across the ring's end and makes the file longer.
pub fn worked_example() -> Whole {
    let mut trail = Trail::fresh(8292);
    trail.add(&[]);
    trail.add(&[]);
    trail.remove(1);
    trail.add(&[]);
    trail.add(&[]);
    trail.whole()
}

/// The first pointer one byte too far, under a CRC that is right: no header is there, so that the
/// head is found from the tail.
pub fn first_spoiled(whole: &Whole) -> Change {
    let fields = whole.slot_fields();
    whole.slot_changed(&slot(with(fields, 2, fields[2] + 1)))
}

/// The CRC of the second element's footer changed.
pub fn footer_spoiled(whole: &Whole) -> Change {
    let last_byte = whole.elements[1].footer_pos() + 15;
    let byte = whole.read(last_byte, 1)[0];
    whole.ring_changed(last_byte, &[byte ^ 1])
}

/// In the place of the last element one of another run, valid but with a later sequence.
pub fn of_another_run(whole: &Whole) -> Change {
    let last = &whole.elements[2];
    let other = Placed { seq: last.seq + 100, ..last.clone() };
    whole.ring_changed(last.pos, &other.encoded())
}

/// The images by name.
pub fn sample_images() -> [(&'static str, Vec<u8>); 4] {
    let whole = worked_example();
    [
        ("recovers", first_spoiled(&whole).applied(&whole)),
        ("damaged", footer_spoiled(&whole).applied(&whole)),
        ("other_run", of_another_run(&whole).applied(&whole)),
        ("whole", whole.bytes),
    ]
}

#[cfg(test)]
mod tests {
    use super::super::joined;
    use super::super::lines::{image, iterate};
    use super::super::trails::SETTINGS;
    use super::*;
    use crate::answer::answers;

    /// The answers to the opening of a sample and to an iteration over it.
    fn answered(name: &str) -> String {
        let (_, bytes) = sample_images().into_iter().find(|(known, _)| *known == name).unwrap();
        assert!(bytes.len() < 20_000);
        answers(joined(&[image(&bytes, SETTINGS), iterate()]))
    }

    const ELEMENTS: [&str; 3] =
        ["44,0,2,8292,00000000", "88,0,3,8236,00000000", "132,0,4,8280,00000000"];

    #[test]
    fn the_worked_example_is_as_its_listing_says() {
        let answered = answered("whole");
        assert!(answered.starts_with("0 0 0 B 6 16584 16584 3 5 44 0 2 132 0 4 8192 1 "));
        let all = format!(" : {} end 0 0 0\n", ELEMENTS.join(" "));
        assert!(answered.ends_with(&all), "{answered}");
    }
}
