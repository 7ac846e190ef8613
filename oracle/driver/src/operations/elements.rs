//! The header and the footer of an element.

use queue_file::inside::format;

use super::{answered, layout};
use crate::language::{accepted, bytes, number, numbers, spell_bytes, spell_numbers, SKIP};
use crate::scratch;

/// The upstream encoder checks no length: its caller did, and a longer one would lose its top bits.
pub fn header_encode(fields: &[&[u8]]) -> Option<String> {
    let [seq, backlink, len] = numbers(fields)?;
    if i32::try_from(len).is_err() {
        return Some(SKIP.to_string());
    }
    let header = format::encode_v2_element_header(seq, backlink, len as usize);
    Some(accepted(spell_bytes(&header)))
}

/// Where the header is said to be shows in the texts of errors and nowhere else.
pub fn header_parse(header: &[u8], capacity: &[u8]) -> Option<String> {
    let (header, capacity) = (bytes(header)?, number(capacity)?);
    let Some(header) = layout(&header) else {
        return Some(SKIP.to_string());
    };
    let parsed = format::parse_v2_element_header(header, 0, capacity);
    Some(answered(
        parsed
            .map(|header| spell_numbers(&[header.payload_len as u64, header.seq, header.prev_pos])),
    ))
}

pub fn footer_encode(seq: &[u8], payload: &[u8]) -> Option<String> {
    let footer = format::encode_v2_footer(number(seq)?, &bytes(payload)?);
    Some(accepted(spell_bytes(&footer)))
}

/// The upstream check reads the footer from a ring, which is made to begin with it.
pub fn footer_check(footer: &[u8], seq: &[u8], payload: &[u8]) -> Option<String> {
    let (footer, seq, payload) = (bytes(footer)?, number(seq)?, bytes(payload)?);
    let Some(footer) = layout::<{ format::V2_ELEM_FTR_LEN }>(&footer) else {
        return Some(SKIP.to_string());
    };
    let checked =
        scratch::on_ring(footer, |ring| format::validate_v2_footer(ring, 0, seq, &payload));
    Some(answered(checked.map(|()| "")))
}

#[cfg(test)]
mod tests {
    use crate::answer::answers;

    const HEADER: &str = "49544844000000000000000200000000000020000000000959e813b7";
    const FOOTER: &str = "495446540000000000000002cb7259ee";
    const PAYLOAD: &str = "313233343536373839";

    #[test]
    fn a_header_there_and_back() {
        assert_eq!(answers("header_encode 2 8192 9"), format!("0 0 0 : {HEADER}\n"));
        for header in [HEADER.to_string(), format!("{HEADER}{PAYLOAD}")] {
            assert_eq!(answers(format!("header_parse {header} 53")), "0 0 0 : 9 2 8192\n");
            assert_eq!(answers(format!("header_parse {header} 52")), "6 0 0 : \n");
        }
    }

    #[test]
    fn a_header_refuses_by_number() {
        let with = |sequence: &str, len: &str, crc: &str| {
            answers(format!("header_parse 49544844{sequence}0000000000002000{len}{crc} 0"))
        };
        let (none, two) = ("0000000000000000", "0000000000000002");
        assert_eq!(answers(format!("header_parse {} 0", "00".repeat(28))), "2 0 0 : \n");
        assert_eq!(with(none, "80000000", "00000000"), "3 0 0 : \n");
        assert_eq!(with(none, "7fffffff", "00000000"), "4 0 0 : \n");
        assert_eq!(with(two, "00000009", "59e813b8"), "5 0 0 : \n");
        assert_eq!(with(two, "00000009", "59e813b7"), "6 0 0 : \n");
    }

    #[test]
    fn what_the_upstream_code_leaves_to_its_callers_is_passed_over() {
        assert_eq!(answers("header_encode 1 0 2147483648"), "skip\n");
        assert_eq!(answers(format!("header_parse {} 53", &HEADER[2..])), "skip\n");
        assert_eq!(answers(format!("footer_check {} 2 {PAYLOAD}", &FOOTER[2..])), "skip\n");
    }

    #[test]
    fn a_bad_word_is_bad_whatever_the_others_are() {
        assert_eq!(answers("header_encode 1 x 2147483648"), "bad\n");
        assert_eq!(answers("header_parse - x"), "bad\n");
        assert_eq!(answers("footer_check - 2 x\nfooter_check - x -"), "bad\nbad\n");
    }

    #[test]
    fn a_footer_there_and_back() {
        assert_eq!(answers(format!("footer_encode 2 {PAYLOAD}")), format!("0 0 0 : {FOOTER}\n"));
        assert_eq!(answers(format!("footer_check {FOOTER} 2 {PAYLOAD}")), "0 0 0 : \n");
        assert_eq!(answers(format!("footer_check {FOOTER}00 2 {PAYLOAD}")), "0 0 0 : \n");
    }

    #[test]
    fn a_footer_refuses_by_number() {
        let spoiled = FOOTER.replace("4954", "4955");
        assert_eq!(answers(format!("footer_check {spoiled} 3 -")), "7 0 0 : \n");
        assert_eq!(answers(format!("footer_check {FOOTER} 3 -")), "8 0 0 : \n");
        assert_eq!(answers(format!("footer_check {FOOTER} 2 -")), "9 0 0 : \n");
    }

    #[test]
    fn a_footer_is_not_judged_by_the_one_before() {
        let (good, bad) = (
            format!("footer_check {FOOTER} 2 {PAYLOAD}\n"),
            format!("footer_check {FOOTER} 2 -\n"),
        );
        assert_eq!(
            answers([good.as_str(), &bad, &good].concat()),
            "0 0 0 : \n9 0 0 : \n0 0 0 : \n"
        );
    }
}
