//! Ways to misspell a line, whatever its operation.

use super::Line;
use crate::language::spell_bytes;

/// A well spelled line taken apart: the operation's name, its words, and the kind of each: `n` a
/// number, `b` bytes, `s` the name of a slot, `f` a flag.
pub struct Example {
    pub name: &'static str,
    pub words: Vec<String>,
    pub kinds: &'static str,
}

/// Numbers well and badly spelled, at the limits of 32 and of 64 bits, and what is none.
#[rustfmt::skip]
const ODD_NUMBERS: &[&str] = &[
    "0", "00", "007", "00000000000000000000000000008192",
    "4294967295", "4294967296", "00004294967295", "00004294967296",
    "18446744073709551615", "18446744073709551616", "000018446744073709551615",
    "000018446744073709551616", "18446744073709551625", "28446744073709551615",
    "99999999999999999999", "184467440737095516150", "340282366920938463463374607431768211456",
    "", "-", "--", "+1", "-1", "-0", "1-", "a", "ff", "1a", "a1", "0x10", "1.", "1.0", "1e3",
    "1_0", "1,0", "1\t", "\t1", "1\r", "1\0", "/", ":",
];

/// Byte strings badly spelled, and some that are well spelled but short.
#[rustfmt::skip]
const ODD_BYTES: &[&str] = &[
    "", "0", "000", "819", "00", "-", "--", "---", "-0", "-00", "00-", "0-", "AB", "aB",
    "0g", "g0", "gg", "0x00", "+0", "00\t", "\t00", "00\r", "0\0", "0/", "0:", "0`", "0@",
];

/// Names of slots, and what is none.
const ODD_SLOTS: &[&str] = &[
    "A", "B", "a", "b", "AB", "BA", "AA", "C", "0", "1", "-", "", "A0", "0A", "A\t", "\tA", "A\r",
    "A\0", "@",
];

/// Flags, and numbers that are none.
const ODD_FLAGS: &[&str] = &[
    "0",
    "1",
    "00",
    "01",
    "0000000000000000000000001",
    "2",
    "10",
    "002",
    "",
    "-",
    "a",
    "1a",
    "+1",
];

impl Example {
    /// A line taken apart, with the kinds of its words.
    pub fn of(line: &'static str, kinds: &'static str) -> Self {
        let mut words = line.split(' ');
        let name = words.next().unwrap_or_default();
        Self { name, words: words.map(str::to_string).collect(), kinds }
    }

    pub fn line(&self) -> Line {
        spelled(self.name, &self.words)
    }

    /// The line with wrong names, with words too few and too many, and with each word replaced.
    pub fn misspelled(&self) -> Vec<Line> {
        [self.wrong_names(), self.wrong_counts(), self.wrong_words()].concat()
    }

    /// A word too many and, where there are words, one too few and a first one that is wrong: no
    /// bytes where a number is asked for, half a byte where bytes are, a small letter where a slot
    /// or a flag is.
    pub fn few_misspelled(&self) -> Vec<Line> {
        let surplus = self.with_surplus("0");
        let Some(kind) = self.kinds.chars().next() else {
            return vec![surplus];
        };
        let mut first_wrong = self.words.clone();
        first_wrong[0] = match kind {
            'n' => "-",
            'b' => "819",
            _ => "a",
        }
        .to_string();
        vec![spelled(self.name, &self.words[1..]), surplus, spelled(self.name, &first_wrong)]
    }

    /// The name as it is, and misspelled in each way.
    fn wrong_names(&self) -> Vec<Line> {
        let name = self.name;
        let last = name.len() - 1;
        let names = [
            name.to_string(),
            name[..last].to_string(),
            name[1..].to_string(),
            format!("{name}d"),
            format!("{name}_"),
            format!("_{name}"),
            name.to_uppercase(),
            format!("{}{}", name[..1].to_uppercase(), &name[1..]),
            name.replace('_', "-"),
            name.replace('_', ""),
            name.replace('_', " "),
            format!(" {name}"),
            format!("{name} "),
        ];
        names.iter().map(|name| spelled(name, &self.words)).collect()
    }

    /// Every number of words below the right one, and one or two too many, empty ones among them.
    fn wrong_counts(&self) -> Vec<Line> {
        let fewer = (0..self.words.len()).map(|count| spelled(self.name, &self.words[..count]));
        let more = ["0", "00", "-", "", "#", "0 0", "0 "].map(|surplus| self.with_surplus(surplus));
        fewer.chain(more).collect()
    }

    fn with_surplus(&self, surplus: &str) -> Line {
        spelled(self.name, &[&self.words as &[String], &[surplus.to_string()]].concat())
    }

    /// Each word replaced by each odd one of its kind, and by a good one of another.
    fn wrong_words(&self) -> Vec<Line> {
        let mut lines = Vec::new();
        for (place, kind) in self.kinds.char_indices() {
            let (odd, other) = match kind {
                'n' => (ODD_NUMBERS, good_word('b')),
                'b' => (ODD_BYTES, good_word('n')),
                'f' => (ODD_FLAGS, good_word('n')),
                _ => (ODD_SLOTS, good_word('n')),
            };
            for word in odd.iter().map(|word| word.to_string()).chain([other]) {
                let mut words = self.words.clone();
                words[place] = word;
                lines.push(spelled(self.name, &words));
            }
        }
        lines
    }
}

/// A good number, or bytes enough for every layout.
pub fn good_word(kind: char) -> String {
    match kind {
        'n' => "8192".to_string(),
        _ => spell_bytes(&[0; 56]),
    }
}

pub fn spelled(name: &str, words: &[String]) -> Line {
    let mut line = name.to_string();
    for word in words {
        line.push(' ');
        line.push_str(word);
    }
    line.into_bytes()
}
