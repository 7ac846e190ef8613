//! Holds the plain build's answers to the mended build's: they differ at the lines where the known
//! fault struck, as foretold, in the image's CRC alone, and nowhere else.

use crate::language;

/// Where the CRC stands among a line's words: behind the refusal and the words of the state.
const CRC_WORD: usize = 17;

/// How many lines differ, or what is wrong.
pub fn struck(plain: &[u8], mended: &[u8], foretold: &[u64]) -> Result<usize, String> {
    let (plain_lines, mended_lines) = (lines(plain), lines(mended));
    if plain_lines.len() != mended_lines.len() {
        return Err("the builds answer different numbers of lines".to_string());
    }
    let numbered = (1..).zip(plain_lines.iter().zip(&mended_lines));
    let mut differing = Vec::new();
    for (line, (plain, mended)) in numbered {
        if plain == mended {
            continue;
        }
        if !differ_in_crc_alone(plain, mended) {
            return Err(format!("line {line}: the builds differ in more than the image"));
        }
        differing.push(line);
    }
    if differing != foretold {
        return Err(format!("the builds differ at lines {differing:?}, foretold are {foretold:?}"));
    }
    Ok(differing.len())
}

fn differ_in_crc_alone(plain: &[u8], mended: &[u8]) -> bool {
    let without_crc = |line| {
        let mut words = language::words(line);
        (words.len() > CRC_WORD).then(|| {
            words.remove(CRC_WORD);
            words
        })
    };
    let (plain, mended) = (without_crc(plain), without_crc(mended));
    plain.is_some() && plain == mended
}

fn lines(answers: &[u8]) -> Vec<&[u8]> {
    language::lines(answers).collect()
}

#[cfg(test)]
mod tests {
    use super::*;

    const MENDED: &str = "0 0 0 A 7 16796 16796 3 6 148 0 3 242 492 5 8381 0 d4e2b664 : \nbad\n";

    fn told(plain: &str, foretold: &[u64]) -> Result<usize, String> {
        struck(plain.as_bytes(), MENDED.as_bytes(), foretold)
    }

    #[test]
    fn a_line_that_is_foretold_differs_in_its_image() {
        let plain = MENDED.replace("d4e2b664", "919e7bfb");
        assert_eq!(told(&plain, &[1]), Ok(1));
        assert_eq!(told(MENDED, &[]), Ok(0));
    }

    #[test]
    fn a_line_more_or_less_is_a_fault() {
        let plain = MENDED.replace("d4e2b664", "919e7bfb");
        assert!(told(&plain, &[]).is_err());
        assert!(told(&plain, &[1, 2]).is_err());
        assert!(told(MENDED, &[1]).is_err());
        assert!(told("bad\n", &[]).is_err());
    }

    #[test]
    fn a_difference_in_anything_else_is_a_fault() {
        assert!(told(&MENDED.replace(" 7 ", " 8 "), &[1]).is_err());
        assert!(told(&MENDED.replace("bad", "skip"), &[2]).is_err());
    }
}
