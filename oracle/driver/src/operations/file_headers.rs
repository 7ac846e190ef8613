//! The file headers of the older formats, Legacy and V1.

use queue_file::inside::{format, Result};

use super::{answered, layout};
use crate::language::{bytes, numbers, spell_bytes, spell_numbers, SKIP};

/// File length, count, first and last, as the upstream parsers return them.
type Fields = (u64, usize, u64, u64);

pub fn legacy_encode(fields: &[&[u8]]) -> Option<String> {
    let [file_len, count, first, last] = numbers(fields)?;
    let header = format::encode_legacy_header(file_len, count as usize, first, last);
    Some(answered(header.map(|header| spell_bytes(&header))))
}

pub fn v1_encode(fields: &[&[u8]]) -> Option<String> {
    let [file_len, count, first, last] = numbers(fields)?;
    let header = format::encode_v1_header(file_len, count as usize, first, last);
    Some(answered(header.map(|header| spell_bytes(&header))))
}

pub fn legacy_parse(header: &[u8]) -> Option<String> {
    parse::<16>(header, format::parse_legacy_header)
}

pub fn v1_parse(header: &[u8]) -> Option<String> {
    parse::<32>(header, format::parse_versioned_header)
}

/// The upstream parsers take their bytes from the front and panic where there are too few.
fn parse<const LEN: usize>(
    header: &[u8],
    parser: fn(&mut &[u8]) -> Result<Fields>,
) -> Option<String> {
    let header = bytes(header)?;
    let Some(header) = layout::<LEN>(&header) else {
        return Some(SKIP.to_string());
    };
    Some(answered(parser(&mut &header[..]).map(spell_fields)))
}

fn spell_fields((file_len, count, first, last): Fields) -> String {
    spell_numbers(&[file_len, count as u64, first, last])
}

#[cfg(test)]
mod tests {
    use crate::answer::answers;

    const LEGACY: &str = "00001000000000020000001000000078";
    const V1: &str = "8000000100000000000010000000000200000000000000200000000000000088";

    #[test]
    fn headers_there_and_back() {
        assert_eq!(answers("legacy_encode 4096 2 16 120"), format!("0 0 0 : {LEGACY}\n"));
        assert_eq!(answers(format!("legacy_parse {LEGACY}ff")), "0 0 0 : 4096 2 16 120\n");
        assert_eq!(answers("v1_encode 4096 2 32 136"), format!("0 0 0 : {V1}\n"));
        assert_eq!(answers(format!("v1_parse {V1}ff")), "0 0 0 : 4096 2 32 136\n");
    }

    #[test]
    fn the_first_field_that_is_too_large_is_told() {
        for (name, large) in [("legacy_encode", 1u64 << 31), ("v1_encode", 1 << 63)] {
            let script = [
                format!("{name} {large} {large} {large} {large}"),
                format!("{name} 0 2147483648 {large} {large}"),
                format!("{name} 0 0 {large} {large}"),
                format!("{name} 0 0 0 {large}"),
            ];
            let told = "22 1 0 : \n22 2 0 : \n22 3 0 : \n22 4 0 : \n";
            assert_eq!(answers(script.join("\n")), told, "{name}");
        }
    }

    #[test]
    fn the_version_is_judged_first_and_without_its_top_bit() {
        let with = |version: &str| answers(format!("v1_parse {version}{}", &V1[8..]));
        assert_eq!(with("00000001"), "0 0 0 : 4096 2 32 136\n");
        assert_eq!(with("80000002"), "23 2 0 : \n");
        assert_eq!(with("ffffffff"), "23 2147483647 0 : \n");
        assert_eq!(answers(format!("v1_parse {}", "00".repeat(32))), "23 0 0 : \n");
        assert_eq!(answers(format!("v1_parse 80000001{}", "ff".repeat(28))), "22 1 0 : \n");
    }

    #[test]
    fn too_few_bytes_are_passed_over() {
        assert_eq!(answers(format!("legacy_parse {}", &LEGACY[2..])), "skip\n");
        assert_eq!(answers(format!("v1_parse {}", &V1[2..])), "skip\n");
    }
}
