//! The header slots: codec, check and election.

use queue_file::inside::format;
use queue_file::inside::header::{self, HeaderSlot, SlotData};

use super::{answered, layout};
use crate::language::{accepted, bytes, numbers, refused, spell_bytes, spell_numbers, SKIP};
use crate::refusals::NOT_A_SLOT;

pub fn slot_encode(fields: &[&[u8]]) -> Option<String> {
    let [file_len, count, first, last, generation, next_seq] = numbers(fields)?;
    let slot = format::encode_v2_slot(file_len, count as usize, first, last, generation, next_seq);
    Some(answered(slot.map(|slot| spell_bytes(&slot))))
}

pub fn slot_parse(slot: &[u8]) -> Option<String> {
    let slot = bytes(slot)?;
    Some(match layout(&slot).map(header::parse_slot) {
        None => SKIP.to_string(),
        Some(None) => refused(NOT_A_SLOT),
        Some(Some(slot)) => accepted(spell_slot(&slot)),
    })
}

/// The count is that of a parsed slot, of 32 bits; a larger one is a bad word.
pub fn slot_check(fields: &[&[u8]]) -> Option<String> {
    let [file_len, count, first, last, generation, next_seq, real_len] = numbers(fields)?;
    let slot = SlotData {
        file_length: file_len,
        element_count: u32::try_from(count).ok()?,
        first_position: first,
        last_position: last,
        generation,
        next_sequence_number: next_seq,
    };
    Some(answered(format::validate_v2_slot_data(&slot, real_len).map(|()| "")))
}

/// A string that is too short for a slot is none, as in a file that ends within it.
pub fn elect(a: &[u8], b: &[u8]) -> Option<String> {
    let (a, b) = (bytes(a)?, bytes(b)?);
    let parsed = |slot| layout(slot).and_then(header::parse_slot);
    let elected = format::elect_canonical_slot(parsed(&a), parsed(&b));
    Some(answered(
        elected.map(|(name, slot)| format!("{} {}", spell_name(name), spell_slot(&slot))),
    ))
}

pub fn spell_name(name: HeaderSlot) -> &'static str {
    match name {
        HeaderSlot::A => "A",
        HeaderSlot::B => "B",
    }
}

fn spell_slot(slot: &SlotData) -> String {
    spell_numbers(&[
        slot.file_length,
        u64::from(slot.element_count),
        slot.first_position,
        slot.last_position,
        slot.generation,
        slot.next_sequence_number,
    ])
}

#[cfg(test)]
mod tests {
    use crate::answer::answers;

    const FRESH: &str = "51464d4802000000000000000000200000000000000000000000000000000000\
                         0000000000000000000000010000000000000001\
                         1e491a6a";
    const THREE: &str = "51464d480200000000000000000040c800000003000000000000202c0000000000002084\
                         00000000000000060000000000000005\
                         79b766d4";

    #[test]
    fn a_slot_there_and_back() {
        let encoded = answers("slot_encode 8192 0 0 0 1 1\nslot_encode 16584 3 8236 8324 6 5");
        assert_eq!(encoded, format!("0 0 0 : {FRESH}\n0 0 0 : {THREE}\n"));
        let parsed = answers(format!("slot_parse {FRESH}\nslot_parse {THREE}ff"));
        assert_eq!(parsed, "0 0 0 : 8192 0 0 0 1 1\n0 0 0 : 16584 3 8236 8324 6 5\n");
    }

    #[test]
    fn the_first_field_that_is_too_large_is_told() {
        let (large, count) = (1u64 << 63, 1u64 << 32);
        let script = [
            format!("slot_encode {large} {count} {large} {large} 1 1"),
            format!("slot_encode 0 {count} {large} {large} 1 1"),
            format!("slot_encode 0 0 {large} {large} 1 1"),
            format!("slot_encode 0 0 0 {large} 1 1"),
        ];
        assert_eq!(answers(script.join("\n")), "22 1 0 : \n22 2 0 : \n22 3 0 : \n22 4 0 : \n");
    }

    #[test]
    fn the_encoder_takes_counts_and_generations_that_the_parser_refuses() {
        for fields in ["0 2147483648 0 0 1 1", "0 1 0 0 9223372036854775808 1"] {
            let encoded = answers(format!("slot_encode {fields}"));
            let slot = encoded.trim_end().strip_prefix("0 0 0 : ").unwrap();
            assert_eq!(answers(format!("slot_parse {slot}")), "31 0 0 : \n");
        }
    }

    #[test]
    fn too_few_bytes_are_passed_over() {
        assert_eq!(answers(format!("slot_parse {}\nslot_parse -", &FRESH[..110])), "skip\nskip\n");
        assert_eq!(answers(format!("slot_parse {}", "00".repeat(56))), "31 0 0 : \n");
    }

    #[test]
    fn a_check_refuses_by_number() {
        let checks = [
            ("16584 3 8236 8324 6 5 16584", "0 0 0"),
            ("8192 0 0 0 0 1 8192", "0 0 0"),
            ("8191 0 1 0 0 0 0", "11 0 0"),
            ("8192 0 1 0 0 0 8191", "12 0 0"),
            ("8192 0 1 0 0 0 8192", "13 0 0"),
            ("8192 0 0 1 0 1 8192", "14 0 0"),
            ("8292 1 100 0 0 1 8292", "15 0 0"),
            ("8292 1 8191 8192 0 1 8292", "16 0 0"),
            ("8292 1 8291 8292 0 1 8292", "16 0 0"),
        ];
        for (fields, refusal) in checks {
            assert_eq!(
                answers(format!("slot_check {fields}")),
                format!("{refusal} : \n"),
                "{fields}"
            );
        }
    }

    #[test]
    fn a_count_has_32_bits_where_it_is_checked() {
        assert_eq!(answers("slot_check 8292 4294967295 8192 8192 0 1 8292"), "0 0 0 : \n");
        assert_eq!(answers("slot_check 8292 4294967296 8192 8192 0 1 8292"), "bad\n");
        assert_eq!(answers("slot_check 8292 1 8192 8192 0 1"), "bad\n");
    }

    #[test]
    fn the_higher_generation_is_elected() {
        let (fresh, three) = ("0 0 0 : A 8192 0 0 0 1 1\n", "0 0 0 : B 16584 3 8236 8324 6 5\n");
        assert_eq!(answers(format!("elect {FRESH} {THREE}")), three);
        assert_eq!(answers(format!("elect {FRESH} {FRESH}")), fresh);
        assert_eq!(answers(format!("elect {FRESH} {}", &THREE[2..])), fresh);
        assert_eq!(answers(format!("elect - {THREE}00")), three);
        assert_eq!(answers(format!("elect - {}", &THREE[2..])), "10 0 0 : \n");
    }
}
