//! The scripts for the comparison, by family. The same family and seed give the same scripts.

mod checksums;
mod codec_sample;
mod codec_spellings;
mod damage;
mod elements;
mod file_headers;
mod iterate;
mod iterate_damaged;
mod iterate_states;
mod layouts;
mod lengths;
mod limits;
mod lines;
mod misspellings;
mod open;
mod open_lengths;
mod open_slots;
mod open_trails;
mod queue_sample;
mod queue_spellings;
mod recover;
mod ring;
mod ring_large;
mod ring_limits;
mod ring_sample;
mod ring_small;
mod ring_spellings;
mod sample;
mod slots;
mod spellings;
mod trails;
mod whole;
mod worked;
mod write;
mod writer;
mod writing_sample;
mod writing_spellings;

pub use worked::sample_images;

use crate::language::SCRIPT_LIMIT;
use crate::random::Random;

type Line = Vec<u8>;
type Script = Vec<u8>;

pub fn family(name: &str, seed: u64) -> Option<Vec<Script>> {
    let random = &mut Random::new(seed);
    match name {
        "crc" => Some(checksums::scripts(random)),
        "bad" => Some(spellings::scripts(random)),
        "slots" => Some(slots::scripts(random)),
        "elements" => Some(elements::scripts(random)),
        "file_headers" => Some(file_headers::scripts(random)),
        "ring" => Some(ring::scripts(random)),
        "open" => Some(open::scripts(random)),
        "recover" => Some(recover::scripts(random)),
        "iterate" => Some(iterate::scripts(random)),
        "write" => Some(write::scripts(random)),
        "damage" => Some(damage::scripts(random)),
        "lengths" => Some(lengths::scripts(random)),
        "sample" => Some(sample::scripts(random)),
        _ => None,
    }
}

/// The lines in as few scripts within the limit as keep their order.
fn packed(lines: impl IntoIterator<Item = Line>) -> Vec<Script> {
    packed_groups(&[], lines.into_iter().map(|line| vec![line]))
}

/// The groups in as few scripts within the limit as keep their order. The lines of a group build on
/// each other, so that none is cut; every script begins with the same lines.
fn packed_groups(beginning: &[Line], groups: impl IntoIterator<Item = Vec<Line>>) -> Vec<Script> {
    let beginning = joined(beginning);
    let mut scripts = Vec::new();
    let mut script = beginning.clone();
    for group in groups {
        let group = joined(&group);
        if script.len() + group.len() > SCRIPT_LIMIT {
            scripts.push(std::mem::replace(&mut script, beginning.clone()));
        }
        script.extend(group);
    }
    scripts.push(script);
    scripts
}

/// The lines, each with its newline.
fn joined(lines: &[Line]) -> Script {
    lines.iter().flat_map(|line| [line as &[u8], b"\n"]).flatten().copied().collect()
}

#[cfg(test)]
mod tests {
    use super::*;
    use crate::answer::{answer, answers};
    use crate::language;
    use crate::notes::Notes;
    use crate::tally::opened_images;
    use std::collections::BTreeSet;

    /// What each family but the first two is to reach: operation and number, with the field for 22;
    /// for an iteration the number that ended it.
    #[rustfmt::skip]
    const REACHED: [(&str, &[&str]); 10] = [
        ("slots", &[
            "slot_encode 0", "slot_encode 22 1", "slot_encode 22 2", "slot_encode 22 3",
            "slot_encode 22 4", "slot_parse 0", "slot_parse 31", "slot_parse skip",
            "slot_check 0", "slot_check 11", "slot_check 12", "slot_check 13", "slot_check 14",
            "slot_check 15", "slot_check 16", "elect 0", "elect 10",
        ]),
        ("elements", &[
            "header_encode 0", "header_encode skip", "header_parse 0", "header_parse 2",
            "header_parse 3", "header_parse 4", "header_parse 5", "header_parse 6",
            "header_parse skip", "footer_encode 0", "footer_check 0", "footer_check 7",
            "footer_check 8", "footer_check 9", "footer_check skip",
        ]),
        ("file_headers", &[
            "legacy_encode 0", "legacy_encode 22 1", "legacy_encode 22 2", "legacy_encode 22 3",
            "legacy_encode 22 4", "legacy_parse 0", "legacy_parse 22 1", "legacy_parse 22 2",
            "legacy_parse 22 3", "legacy_parse 22 4", "legacy_parse skip", "v1_encode 0",
            "v1_encode 22 1", "v1_encode 22 2", "v1_encode 22 3", "v1_encode 22 4", "v1_parse 0",
            "v1_parse 22 1", "v1_parse 22 2", "v1_parse 22 3", "v1_parse 22 4", "v1_parse 23",
            "v1_parse skip",
        ]),
        ("ring", &[
            "state 0", "state bad", "poke 0", "poke bad", "extend 0", "extend bad",
            "ring_add 0", "ring_add bad", "ring_add skip", "ring_distance 0", "ring_distance bad",
            "ring_distance skip", "ring_read 0", "ring_read bad", "ring_read skip",
            "ring_write 0", "ring_write bad", "ring_write skip", "ring_erase 0", "ring_erase bad",
            "ring_erase skip", "relocate 0", "relocate bad", "relocate skip",
        ]),
        ("open", &[
            "extend 0", "image 0", "image 10", "image 12", "iterate bad", "iterate skip",
            "iterate end 0", "iterate end 2", "iterate end 5", "iterate end 8", "peek 0",
            "peek 8", "peek skip", "peek_into 0", "poke 0", "recover 0", "recover 20",
            "recover skip", "reopen 0", "reopen 2", "reopen 5", "reopen 6", "reopen 10",
            "reopen 11", "reopen 12", "reopen 13", "reopen 14", "reopen 15", "reopen 16",
            "reopen 17", "reopen 18", "reopen skip", "state 0", "used 0", "used bad", "used skip",
        ]),
        ("recover", &[
            "image 0", "image 2", "image 3", "image 4", "image 5", "image 6", "image 17",
            "image 18", "image 19", "iterate bad", "iterate skip", "iterate end 0",
            "iterate end 2", "iterate end 3", "iterate end 4", "iterate end 5", "iterate end 6",
            "iterate end 7", "iterate end 8", "peek 0", "peek 8", "poke 0", "recover 0",
            "recover 2", "recover 3", "recover 4", "recover 5", "recover 6", "recover 17",
            "recover 18", "recover 19", "recover 20", "recover skip", "reopen 0", "reopen 2",
            "reopen 3", "reopen 4", "reopen 5", "reopen 6", "reopen 14", "reopen 16", "reopen 17",
            "reopen 18", "reopen 19", "state 0", "used 0", "used skip",
        ]),
        ("iterate", &[
            "capacity 0", "image 0", "iterate skip", "iterate end 0", "iterate end 2",
            "iterate end 3", "iterate end 4", "iterate end 5", "iterate end 6", "iterate end 7",
            "iterate end 8", "iterate end 9", "overwrite 0", "peek 0", "peek 7", "peek 8",
            "peek 9", "peek skip", "peek_into 0", "peek_into 7", "peek_into 8", "peek_into 9",
            "peek_into skip", "poke 0", "recover 0", "recover 5", "recover skip", "reopen 0",
            "reopen 2", "reopen 3", "reopen 4", "reopen 5", "reopen 6", "reopen 10", "reopen 12",
            "reopen 17", "reopen skip", "state 0", "step 0", "step 2", "step 3", "step 4",
            "step 5", "step 6", "step 7", "step 8", "step 9", "step skip", "used 0", "used skip",
        ]),
        ("lengths", &["grow_length 0", "grow_length skip"]),
        ("write", &[
            "add 0", "capacity 0", "clear 0", "commit 0", "extend 0", "fresh 0", "grow 0",
            "grow skip", "image 0", "iterate end 0", "overwrite 0", "peek 0", "poke 0", "remove 0",
            "reopen 0", "reopen 12", "reopen 2", "reopen 5", "state 0", "used 0",
        ]),
        ("damage", &[
            "add 0", "add 2", "add 25", "add 3", "add 4", "add 5", "add 6", "add skip", "clear 0",
            "clear skip", "commit 0", "commit skip", "extend 0", "fresh 0", "fresh skip", "grow 0",
            "grow 2", "grow 3", "grow 4", "grow 5", "grow 6", "grow skip", "iterate end 0",
            "iterate end 2", "iterate end 3", "iterate end 4", "iterate end 5", "iterate end 6",
            "iterate end 7", "iterate end 8", "overwrite 0", "poke 0", "remove 0", "remove 2",
            "remove 3", "remove 4", "remove 5", "remove 6", "remove skip", "reopen 0", "reopen 12",
            "reopen 17", "reopen 2", "reopen 3", "reopen 4", "reopen 5", "reopen 6", "state 0",
            "used 0",
        ]),
    ];

    fn all_lines(scripts: &[Script]) -> Vec<&[u8]> {
        scripts.iter().flat_map(|script| language::lines(script)).collect()
    }

    /// The first word of every line with the number of its answer, or what ended it, or `bad` or
    /// `skip`.
    fn reached(scripts: &[Script]) -> BTreeSet<String> {
        let answered: String = scripts.iter().map(answers).collect();
        let lines = all_lines(scripts);
        assert_eq!(lines.len(), answered.lines().count());
        let told = |(line, answer): (&&[u8], &str)| {
            let operation = language::words(line)[0].escape_ascii();
            let words: Vec<&str> = answer.split(' ').collect();
            match words[..] {
                [.., "end", stopped, _, _] => format!("{operation} end {stopped}"),
                ["22", field, ..] => format!("{operation} 22 {field}"),
                _ => format!("{operation} {}", words[0]),
            }
        };
        lines.iter().zip(answered.lines()).map(told).collect()
    }

    #[test]
    fn the_seed_decides() {
        for name in [
            "crc",
            "bad",
            "slots",
            "elements",
            "file_headers",
            "ring",
            "open",
            "recover",
            "iterate",
            "lengths",
        ] {
            assert!(family(name, 7) == family(name, 7), "{name}");
            assert!(family(name, 7) != family(name, 8), "{name}");
        }
        assert!(family("no", 7).is_none());
    }

    #[test]
    fn the_seed_decides_what_is_written() {
        let written = |seed| {
            let random = &mut Random::new(seed);
            let groups: Vec<Vec<Line>> = write::groups(random, 2).collect();
            (groups, damage::groups(random, 2).collect::<Vec<_>>())
        };
        assert!(written(7) == written(7));
        assert!(written(7) != written(8));
    }

    #[test]
    fn every_answer_is_reached_and_no_other() {
        for (name, wanted) in REACHED {
            let scripts = family(name, 1).unwrap();
            let wanted: BTreeSet<String> = wanted.iter().map(|told| told.to_string()).collect();
            assert_eq!(reached(&scripts), wanted, "{name}");
            assert!(scripts.iter().all(|script| script.len() <= SCRIPT_LIMIT), "{name}");
        }
    }

    #[test]
    fn families_have_as_many_lines_as_are_wanted() {
        let lines = |name| all_lines(&family(name, 1).unwrap()).len();
        assert!(lines("slots") + lines("elements") + lines("file_headers") >= 210_000);
        assert!(lines("ring") >= 60_000);
        assert!(lines("open") + lines("recover") + lines("iterate") >= 150_000);
    }

    /// What writing is to come upon often.
    #[rustfmt::skip]
    const CAME_UPON: [(&str, u64); 13] = [
        ("growths that wrap", 3000),
        ("growths that wrap with last across the end", 1000),
        ("growths that wrap with last before first", 1000),
        ("growths that wrap with E = 0", 300),
        ("growths that wrap with a backlink rewritten", 1000),
        ("growths with real length above new length", 200),
        ("clears that cut", 1000), ("clears of an empty queue", 200),
        ("removes that zero across the end", 1000),
        ("skip exhausted (30)", 1000), ("skip unsound (28)", 1000), ("skip growth walk", 100),
        ("put back", 1000),
    ];

    #[test]
    fn writing_comes_upon_every_case() {
        let mut noted = Notes::default();
        for name in ["write", "damage"] {
            for script in family(name, 1).unwrap() {
                let notes = answer(&script[..], std::io::sink()).unwrap();
                noted.read(notes.to_string().as_bytes()).unwrap();
            }
        }
        for (what, times) in CAME_UPON {
            assert!(noted.times(what) >= times, "{what} {}", noted.times(what));
        }
        let writing = ["add", "remove", "clear", "commit", "grow"].map(|name| noted.times(name));
        assert!(writing.iter().sum::<u64>() >= 200_000);
    }

    #[test]
    fn as_many_images_are_opened_as_are_wanted() {
        let mut images = BTreeSet::new();
        for name in ["open", "recover", "iterate"] {
            for script in family(name, 1).unwrap() {
                images.extend(opened_images(&script, answers(&script).as_bytes()));
            }
        }
        assert!(images.len() >= 20_000, "{}", images.len());
    }

    #[test]
    fn the_sample_shows_every_answer_and_none_is_passed_over() {
        let shown = reached(&family("sample", 1).unwrap());
        for told in REACHED.iter().flat_map(|(_, reached)| reached.iter()) {
            // A refused image is as long as another; what opening refuses is shown by `reopen`.
            let told = told.replace("image", "reopen");
            assert_eq!(shown.contains(&told), !told.ends_with("skip"), "{told}");
        }
        assert!(!shown.iter().any(|told| told.ends_with("skip")));
    }

    #[test]
    fn packing_keeps_all_lines_and_the_limit() {
        let lines: Vec<Line> = (0..40).map(|n| vec![b'a'; n * 5000 + 1]).collect();
        let scripts = packed(lines.clone());
        assert_eq!(all_lines(&scripts), lines);
        assert!(scripts.iter().all(|script| script.len() <= SCRIPT_LIMIT));
        assert_eq!(packed([vec![b'a'; SCRIPT_LIMIT - 1], vec![b'b']]).len(), 2);
    }

    #[test]
    fn groups_stay_whole_and_every_script_begins_alike() {
        let group = |byte: u8| vec![vec![byte; SCRIPT_LIMIT / 3], vec![byte]];
        let scripts = packed_groups(&[b"first".to_vec()], [group(b'a'), group(b'b'), group(b'c')]);
        assert_eq!(scripts.len(), 2);
        let begins = |script: &Script| script.starts_with(b"first\n");
        assert!(scripts.iter().all(begins));
        assert!(scripts[0].ends_with(b"\nb\n") && scripts[1].ends_with(b"\nc\n"));
    }

    #[test]
    fn every_short_length_occurs() {
        let scripts = family("crc", 1).unwrap();
        let lines = all_lines(&scripts);
        for len in 1..=4100 {
            let wanted = "crc ".len() + 2 * len;
            assert!(lines.iter().any(|line| line.len() == wanted), "{len}");
        }
        assert!(scripts.iter().all(|script| script.len() <= SCRIPT_LIMIT));
    }

    #[test]
    fn the_sample_is_one_small_script() {
        let scripts = family("sample", 1).unwrap();
        assert_eq!(scripts.len(), 1);
        assert!(scripts[0].len() <= 150_000);
    }
}
