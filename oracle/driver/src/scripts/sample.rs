//! The family `sample`: one small script that is kept with the port and replayed where no Rust is.

use super::codec_sample;
use super::codec_spellings::few_wrong_codecs;
use super::lines::{crc, crc_joined};
use super::queue_sample;
use super::queue_spellings::few_wrong_queue_lines;
use super::ring_sample;
use super::ring_spellings::{few_wrong_ring_lines, without_a_state};
use super::spellings::ODD_LINES;
use super::writing_sample;
use super::writing_spellings::few_wrong_writing_lines;
use super::{packed, Line, Script};
use crate::random::Random;

/// The bytes whose CRC-32 is published with the definition, cbf43926.
const CHECK: &[u8] = b"123456789";

pub fn scripts(random: &mut Random) -> Vec<Script> {
    let mut lines = vec![comment("The published check value, whole and cut in two.")];
    lines.push(crc(CHECK));
    lines.extend(splits(CHECK));
    lines.push(comment("Random bytes, by length."));
    lines.extend(lengths().map(|len| crc(&random.bytes(len))));
    lines.push(comment("Zeros and ones."));
    lines.extend([1, 2, 3, 4, 8, 64].map(|len| crc(&vec![0; len])));
    lines.extend([1, 2, 3, 4, 8, 64].map(|len| crc(&vec![0xff; len])));
    lines.push(comment("Longer parts, cut in two."));
    lines.extend([12, 28, 52, 300].iter().flat_map(|len| some_splits(&random.bytes(*len))));
    lines.extend(codecs());
    lines.extend(ring());
    lines.extend(queue());
    lines.extend(writing());
    lines.push(comment("Odd spellings; the last line has no newline."));
    lines.extend(few_wrong_codecs());
    lines.extend(few_wrong_ring_lines());
    lines.extend(few_wrong_queue_lines());
    lines.extend(few_wrong_writing_lines());
    lines.extend(printable_odd_lines());

    let mut script = packed(lines).concat();
    script.extend(crc(CHECK));
    vec![script]
}

/// Each codec with each of its answers.
fn codecs() -> Vec<Line> {
    let parts = [
        ("Slots encoded.", codec_sample::slots_encoded()),
        ("Slots parsed.", codec_sample::slots_parsed()),
        ("Slots checked.", codec_sample::slots_checked()),
        ("Slots elected.", codec_sample::slots_elected()),
        ("Element headers encoded.", codec_sample::headers_encoded()),
        ("Element headers parsed.", codec_sample::headers_parsed()),
        ("Footers encoded.", codec_sample::footers_encoded()),
        ("Footers checked.", codec_sample::footers_checked()),
        ("Legacy headers.", codec_sample::legacy_headers()),
        ("V1 headers.", codec_sample::v1_headers()),
    ];
    with_titles(parts)
}

/// Each operation of the ring with each of its answers.
fn ring() -> Vec<Line> {
    let parts = [
        ("The ring without a state, and with one.", without_a_state()),
        ("States as given.", ring_sample::states()),
        ("Bytes of the image.", ring_sample::image_changed()),
        ("Places and distances.", ring_sample::places()),
        ("The ring read.", ring_sample::reads()),
        ("The ring written.", ring_sample::writes()),
        ("The ring erased.", ring_sample::erasures()),
        ("Bytes moved behind the old end.", ring_sample::relocations()),
    ];
    with_titles(parts)
}

/// A queue opened, recovered and read, with each answer.
fn queue() -> Vec<Line> {
    let parts = [
        ("Images that do not open.", queue_sample::refused_images()),
        ("A queue of three elements.", queue_sample::opened()),
        ("Its head found from its tail.", queue_sample::recoveries()),
        ("Its slot changed.", queue_sample::slots_changed()),
        ("Its last header changed.", queue_sample::headers_changed()),
        ("Its footers changed, and an element of another run.", queue_sample::footers_changed()),
        ("Its first pointer spoiled.", queue_sample::heads_recovered()),
        ("Its file cut and lengthened.", queue_sample::real_lengths()),
    ];
    with_titles(parts)
}

/// A queue written, with each answer that the upstream code has too.
fn writing() -> Vec<Line> {
    let parts = [
        ("The worked example, written.", writing_sample::worked()),
        ("An element behind a growth that wraps.", writing_sample::lost_element()),
        ("Fresh images.", writing_sample::begun()),
        ("Growths of every kind.", writing_sample::growths()),
        ("Spans around what remains.", writing_sample::spans()),
        ("Lengths after growth.", writing_sample::lengths()),
        ("Elements removed.", writing_sample::removals()),
        ("Queues cleared.", writing_sample::clears()),
        ("Headers committed.", writing_sample::commits()),
        ("Headers refused.", writing_sample::headers_refused()),
        ("Backlinks around what moves.", writing_sample::backlinks()),
        ("Everything by turns.", writing_sample::wandered()),
    ];
    with_titles(parts)
}

fn with_titles<const N: usize>(parts: [(&str, Vec<Line>); N]) -> Vec<Line> {
    parts.into_iter().flat_map(|(title, lines)| [vec![comment(title)], lines].concat()).collect()
}

fn comment(text: &str) -> Line {
    format!("# {text}").into_bytes()
}

/// Around the sizes of words, tables and blocks; 4096 is the longest, a page.
fn lengths() -> impl Iterator<Item = usize> {
    (0..=40).chain(127..=129).chain(255..=257).chain([1034, 4096])
}

/// The part cut at every place.
fn splits(part: &[u8]) -> impl Iterator<Item = Line> + '_ {
    (0..=part.len()).map(|cut| crc_joined(&part[..cut], &part[cut..]))
}

/// The part cut at its ends, next to them and in the middle.
fn some_splits(part: &[u8]) -> [Line; 5] {
    let len = part.len();
    [0, 1, len / 2, len - 1, len].map(|cut| crc_joined(&part[..cut], &part[cut..]))
}

/// Only what a text file holds, since the sample is kept as one.
fn printable_odd_lines() -> impl Iterator<Item = Line> {
    let printable = |line: &&&str| line.bytes().all(|byte| matches!(byte, b' '..=b'~'));
    ODD_LINES.iter().filter(printable).map(|line| line.as_bytes().to_vec())
}
