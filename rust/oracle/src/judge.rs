//! Judging a framed item.
//!
//! 01: "Judging a framed primitive: 5 behind the header, 9, 8, 10. Judging a
//! group: 11, then its items one by one, each framed (an inner 7 next), then
//! judged; the first refusal stands, with number and place."
//!
//! 02 a: `-K` and `-L` hold indexed items by a table of their own, and nothing
//! else: "The four "current only" codes that carry ondex digits must have them
//! zero, else a new number 15, judged after 8."
//!
//! 02 c: 16 for type `A`, "Judged after 8".
//!
//! 02 h: "Large variable codes and large groups whose size fits the small code
//! are refused with new number 18, judged directly after 11 for groups, in the
//! walk too, and before 9 for primitives."
//!
//! 02 j: where 5 stands, `+`, `/` and `=` are 19.

use crate::form::Form;
use crate::frame::{frame_by, require_genus_version, Frame};
use crate::indexed;
use crate::refusal::{
    Refusal, LEAD_WITHOUT_VALUE, NOT_SHORT, NOT_ZERO, ONDEX, PREPAD, TEXT_FILL, TOO_DEEP,
};
use crate::registry::{Code, Indexed, MOST_SMALL_COUNT};
use crate::text;

/// A group may stand within this many groups less one. 02 g: "Raise the limit
/// from 16 to 64".
pub const MOST_GROUPS: usize = 64;

/// Judges a framed item that stands within `depth` groups. A genus/version
/// has no judging of its own (D13).
pub fn judge(stream: &[u8], form: Form, framed: &Frame, depth: usize) -> Result<(), Refusal> {
    match framed.code {
        Code::Fixed(_) | Code::Variable { .. } => judge_primitive(stream, form, framed),
        Code::Group { .. } => judge_group(stream, form, framed, depth),
        Code::Genus => Ok(()),
        Code::Indexed(row) => judge_indexed(stream, form, framed, row),
    }
}

/// 5 or 19 behind the header, 8, 15.
pub fn judge_indexed(
    stream: &[u8],
    form: Form,
    framed: &Frame,
    row: &Indexed,
) -> Result<(), Refusal> {
    form.check_alphabet(stream, framed.behind_header(), framed.end())?;
    let refuse = |number| Err(Refusal::new(number, framed.offset));
    // The pad bits stand between the last digit and the raw bytes.
    let behind_digits = 6 * row.code_length();
    if !form.zero_bits(stream, framed.offset, behind_digits, row.pad_bits()) {
        return refuse(NOT_ZERO);
    }
    if row.is_current_only() && indexed::ondex(stream, form, framed, row) != 0 {
        return refuse(ONDEX);
    }
    Ok(())
}

/// 18: a large code with a count that the small one has digits for.
fn check_short(framed: &Frame) -> Result<(), Refusal> {
    if framed.code.is_large() && framed.count <= MOST_SMALL_COUNT {
        return Err(Refusal::new(NOT_SHORT, framed.offset));
    }
    Ok(())
}

/// 5 or 19 behind the header, 18, 9, 8, 10 of tags, 16 of text.
pub fn judge_primitive(stream: &[u8], form: Form, framed: &Frame) -> Result<(), Refusal> {
    form.check_alphabet(stream, framed.behind_header(), framed.end())?;
    check_short(framed)?;
    let refuse = |number| Err(Refusal::new(number, framed.offset));
    if framed.code.lead() > 0 && framed.count == 0 && is_variable(framed.code) {
        return refuse(LEAD_WITHOUT_VALUE);
    }
    let (from, count) = zeros(framed.code);
    if !form.zero_bits(stream, framed.offset, from, count) {
        return refuse(NOT_ZERO);
    }
    if let Code::Fixed(row) = framed.code {
        // The prepad stands right behind the code characters (D17).
        let behind_code = form.character(stream, framed.offset, row.code.len());
        if row.prepad && behind_code != Some(b'_') {
            return refuse(PREPAD);
        }
    }
    if text::is_text(framed.code) {
        let value = text::value(stream, form, framed);
        if text::without_fill(framed.code.lead(), &value).is_none() {
            return refuse(TEXT_FILL);
        }
    }
    Ok(())
}

/// What is judged of a group itself, before its items: 11, 18.
pub fn judge_group_itself(framed: &Frame, depth: usize) -> Result<(), Refusal> {
    if depth >= MOST_GROUPS {
        return Err(Refusal::new(TOO_DEEP, framed.offset));
    }
    check_short(framed)
}

fn judge_group(stream: &[u8], form: Form, group: &Frame, depth: usize) -> Result<(), Refusal> {
    judge_group_itself(group, depth)?;
    let table = group.code.table_within();
    let mut position = group.behind_header();
    let mut first = group.code.is_overrideable();
    while position < group.end() {
        let item = frame_by(table, stream, form, position, group.end())?;
        if first {
            require_genus_version(stream, form, &item)?;
        }
        judge(stream, form, &item, depth + 1)?;
        position = item.end();
        first = false;
    }
    Ok(())
}

fn is_variable(code: Code) -> bool {
    matches!(code, Code::Variable { .. })
}

/// Which bits of the item must be zero: the pad bits behind the code
/// characters and the lead bytes behind these. First bit, and how many.
fn zeros(code: Code) -> (usize, usize) {
    match code {
        Code::Fixed(row) => (6 * row.code.len(), row.pad_bits() + 8 * row.lead),
        Code::Variable { .. } => (24 * code.header_units(), 8 * code.lead()),
        Code::Group { .. } | Code::Genus | Code::Indexed(_) => (0, 0),
    }
}

#[cfg(test)]
mod tests {
    use super::*;
    use crate::frame::frame_top_level;
    use crate::registry::INDEXED;

    fn text(stream: &str) -> Result<(), (u8, usize)> {
        let framed = frame_top_level(stream.as_bytes(), Form::Text, 0).unwrap();
        judge(stream.as_bytes(), Form::Text, &framed, 0)
            .map_err(|refused| (refused.number, refused.place))
    }

    fn binary(stream: &[u8]) -> Result<(), (u8, usize)> {
        let framed = frame_top_level(stream, Form::Binary, 0).unwrap();
        judge(stream, Form::Binary, &framed, 0).map_err(|refused| (refused.number, refused.place))
    }

    #[test]
    fn pad_bits() {
        assert_eq!(text("MP__"), Ok(()));
        assert_eq!(text("MQAA"), Err((8, 0)));
        assert_eq!(text("MgAA"), Err((8, 0)));
        assert_eq!(text("0HD_____"), Ok(()));
        assert_eq!(text("0HEAAAAA"), Err((8, 0)));
        assert_eq!(binary(&[0x30, 0xFF, 0xFF]), Ok(()));
        assert_eq!(binary(&[0x31, 0x00, 0x00]), Err((8, 0)));
    }

    #[test]
    fn label_one_has_pad_bits_and_a_lead_byte() {
        // D17. B is 000001: its low four bits and the next two make up `h`.
        assert_eq!(text("VABh"), Ok(()));
        assert_eq!(text("VAD_"), Ok(()));
        assert_eq!(text("VAEA"), Err((8, 0)));
        assert_eq!(text("VBAA"), Err((8, 0)));
        assert_eq!(text("VQAA"), Err((8, 0)));
        assert_eq!(binary(&[0x54, 0x00, 0x61]), Ok(()));
        assert_eq!(binary(&[0x54, 0x01, 0x61]), Err((8, 0)));
    }

    #[test]
    fn lead_bytes_of_variable_values() {
        assert_eq!(text("5BABAPAA"), Ok(()));
        assert_eq!(text("5BABAQAA"), Err((8, 0)));
        assert_eq!(text("6BABAABh"), Ok(()));
        assert_eq!(text("6BABAAEA"), Err((8, 0)));
        assert_eq!(text("4BAB____"), Ok(()));
    }

    #[test]
    fn nine_for_a_lead_without_value() {
        for stream in ["5BAA", "6BAA"] {
            assert_eq!(text(stream), Err((9, 0)));
        }
        assert_eq!(text("4BAA"), Ok(()));
    }

    /// A large variable of `units` units, the first of them `first`.
    fn large(selector: char, units: usize, first: &str) -> String {
        let digit = |shift: usize| crate::alphabet::character((units >> shift) as u8 & 63);
        let digits: String = [18, 12, 6, 0]
            .map(|shift| digit(shift) as char)
            .iter()
            .collect();
        format!("{selector}AAB{digits}{first}{}", "AAAA".repeat(units - 1))
    }

    #[test]
    fn eighteen_for_a_large_variable_that_fits_the_small_code() {
        for selector in ['7', '8', '9'] {
            for units in [1, 2, 63, 64, 4095] {
                assert_eq!(text(&large(selector, units, "AAAA")), Err((18, 0)));
            }
            for units in [4096, 4097, 8191] {
                assert_eq!(text(&large(selector, units, "AAAA")), Ok(()));
            }
        }
        // Before 9 and 8; behind 5.
        for stream in ["7AABAAAA", "8AABAAAA", "9AABAAAA"] {
            assert_eq!(text(stream), Err((18, 0)));
        }
        assert_eq!(text("9AABAAABAAEA"), Err((18, 0)));
        assert_eq!(text("9AABAAAB!AEA"), Err((5, 8)));
        assert_eq!(text("9AABAAAB=AEA"), Err((19, 8)));
        // From 4,096 units on it is 8 as with the small code.
        assert_eq!(text(&large('8', 4096, "AQAA")), Err((8, 0)));
        assert_eq!(text(&large('9', 4096, "AAEA")), Err((8, 0)));
        // `8AAB` `AAAA`: 111100 000000 000000 000001 is F0 00 01.
        assert_eq!(binary(&[0xF0, 0x00, 0x01, 0, 0, 0]), Err((18, 0)));
    }

    #[test]
    fn eighteen_for_a_large_group_that_fits_the_small_code() {
        // 02 h: "A large group below 4,096 units is thus 18, and `--AAABAA`
        // with its 4,096 units still passes."
        let whole = format!("--AAABAA{}", "1AAK".repeat(4096));
        assert_eq!(text(&whole), Ok(()));
        let short = format!("--AAAA__{}", "1AAK".repeat(4095));
        assert_eq!(text(&short), Err((18, 0)));
        // Before what stands in it.
        for stream in [
            "--AAAAAA",
            "--JAAAAB_AAA",
            "--KAAAAB_A!A",
            "--CAAAAC-_AAABAA",
        ] {
            assert_eq!(text(stream), Err((18, 0)));
        }
        // In a group, at its place; a refusal before it stands.
        assert_eq!(text("-AAD--JAAAABMAAB"), Err((18, 4)));
        assert_eq!(text("-AADMAAB--JAAAAA"), Err((18, 8)));
        assert_eq!(text("-AADMQAA--JAAAAA"), Err((8, 4)));
        // `--AA` `AAAA`: 111110 111110 000000 000000 is FB E0 00.
        assert_eq!(binary(&[0xFB, 0xE0, 0x00, 0, 0, 0]), Err((18, 0)));
    }

    #[test]
    fn tags_are_free_but_for_the_prepad() {
        // D17.
        assert_eq!(text("X___"), Ok(()));
        assert_eq!(text("0J_A"), Ok(()));
        assert_eq!(text("0JAA"), Err((10, 0)));
        assert_eq!(text("0L_AAAAA"), Ok(()));
        assert_eq!(text("0LAAAAAA"), Err((10, 0)));
        assert_eq!(text("0N-AAAAAAAAA"), Err((10, 0)));
        assert_eq!(text("0K__"), Ok(()));
        // `0J_A` is 110100 001001 111111 000000: D0 9F C0.
        assert_eq!(binary(&[0xD0, 0x9F, 0xC0]), Ok(()));
        assert_eq!(binary(&[0xD0, 0x90, 0x00]), Err((10, 0)));
    }

    #[test]
    fn five_over_the_whole_item_comes_first() {
        // D16.
        assert_eq!(text("0HEAA!AA"), Err((5, 5)));
        assert_eq!(text("0LAAA!=A"), Err((5, 5)));
        assert_eq!(text("0LAAA=!A"), Err((19, 5)));
    }

    #[test]
    fn the_first_refusal_in_a_group_stands() {
        // D21: 8 at the first item, not 6 at the second.
        assert_eq!(text("-AACMQAA_AAA"), Err((8, 4)));
        assert_eq!(text("-AACMAAB_AAA"), Err((6, 8)));
        assert_eq!(text("-AACMAABMA!A"), Err((5, 10)));
        assert_eq!(text("-AACMAABMA+A"), Err((19, 10)));
        assert_eq!(text("-AAB0AAA"), Err((4, 4)));
    }

    /// A `-K` around these characters, whole units.
    fn signatures(body: &str) -> String {
        let units = body.len() / 4;
        let digit = |value| crate::alphabet::character(value) as char;
        let digits = [digit((units / 64) as u8), digit((units % 64) as u8)];
        format!("-K{}{}{body}", digits[0], digits[1])
    }

    /// An indexed item: code and digits, then `value`, then `A` to its size.
    fn item(code: &str, value: &str) -> String {
        let row = INDEXED.iter().find(|row| code.starts_with(row.code));
        let full = row.unwrap().full;
        let rest = full - code.len() - value.len();
        format!("{code}{value}{}", "A".repeat(rest))
    }

    #[test]
    fn only_k_and_l_hold_indexed_items() {
        // 88 characters, as two master items of 44 in any other group.
        let two = format!("A{}A{}", "A".repeat(43), "A".repeat(43));
        let bad = two.replacen("AAAA", "AAQA", 1);
        for letter in ["K", "L"] {
            assert_eq!(text(&format!("-{letter}AW{two}")), Ok(()));
            // The indexed table's four pad bits; the master's two are others.
            assert_eq!(text(&format!("-{letter}AW{bad}")), Err((8, 4)));
        }
        for letter in ["A", "J", "M", "X", "Y"] {
            assert_eq!(text(&format!("-{letter}AW{two}")), Ok(()));
            assert_eq!(text(&format!("-{letter}AW{bad}")), Ok(()));
            assert_eq!(
                text(&format!("-{letter}AX{}", item("2AAAAA", ""))),
                Err((6, 4))
            );
        }
        // 187 of 22 units are 4,114.
        let large = format!("--KAABAS{}", item("AA", "").repeat(187));
        assert_eq!(text(&large), Ok(()));
        assert_eq!(text(&large.replacen("AAAA", "AAEA", 2)[..]), Err((8, 8)));
        assert_eq!(text("-HAB_AAA"), Err((6, 4)));
        assert_eq!(text("-KAB_A!A"), Err((5, 6)));
        assert_eq!(text("-KAB_A/!"), Err((19, 6)));
    }

    #[test]
    fn six_for_any_other_start_in_a_signature_group() {
        for start in [
            "_AAA", "MAAB", "1AAK", "4BAA", "-KAA", "-AAA", "-JAA", "-_AA", "EAAA", "0CAA", "2EAA",
            "3CAA", "7AAB", "--KA",
        ] {
            assert_eq!(text(&signatures(start)), Err((6, 4)), "{start}");
            let behind = format!("{}{start}", item("BA", ""));
            assert_eq!(text(&signatures(&behind)), Err((6, 92)), "{start}");
        }
        // The genus/version that is read, too; an empty group has no start.
        assert_eq!(text("-KAC-_AAACAA"), Err((6, 4)));
        assert_eq!(text("-KAA"), Ok(()));
        assert_eq!(text("-LAA"), Ok(()));
    }

    #[test]
    fn the_twelve_codes_from_both_sides() {
        for row in INDEXED {
            for digit in ["A", "B", "_"] {
                let index = digit.repeat(row.index);
                let code = format!("{}{index}{}", row.code, "A".repeat(row.ondex));
                let zero = item(&code, "");
                assert_eq!(text(&signatures(&zero)), Ok(()), "{code}");
                // All of the value may be set but for the pad bits.
                let (low, high) = match row.pad_bits() {
                    4 => ("D", "E"),
                    _ => ("_", "_"),
                };
                let rest = "_".repeat(row.full - code.len() - 1);
                assert_eq!(
                    text(&signatures(&item(&code, &format!("{low}{rest}")))),
                    Ok(())
                );
                let set = text(&signatures(&item(&code, &format!("{high}{rest}"))));
                let told = if row.pad_bits() == 4 {
                    Err((8, 4))
                } else {
                    Ok(())
                };
                assert_eq!(set, told, "{code}");
            }
            // One past its size and one short of it.
            let whole = item(row.code, "");
            assert_eq!(text(&signatures(&whole[..row.full - 4])), Err((4, 4)));
            assert_eq!(
                text(&signatures(&format!("{whole}AAAA"))),
                Err((4, 4 + row.full))
            );
        }
    }

    #[test]
    fn fifteen_for_the_four_that_have_ondex_digits() {
        for row in INDEXED.iter().filter(|row| row.ondex > 0) {
            for place in 0..row.ondex {
                for digit in ["B", "g", "_"] {
                    let mut ondex = "A".repeat(row.ondex);
                    ondex.replace_range(place..place + 1, digit);
                    let code = format!("{}{}{ondex}", row.code, "_".repeat(row.index));
                    let current = ["0B", "2B", "2D", "3B"].contains(&row.code);
                    let told = if current { Err((15, 4)) } else { Ok(()) };
                    assert_eq!(text(&signatures(&item(&code, ""))), told, "{code}");
                }
            }
        }
        // `B#` and `D#` have none, so any second character is an index.
        assert_eq!(text(&signatures(&item("B_", ""))), Ok(()));
        assert_eq!(text(&signatures(&item("D_", ""))), Ok(()));
    }

    #[test]
    fn the_indexed_orders_of_judging() {
        // 8 before 15, 5 and 19 over the whole item before both; behind it
        // nothing is looked at.
        assert_eq!(text(&signatures(&item("2BAAAB", "E"))), Err((8, 4)));
        assert_eq!(text(&signatures(&item("2BAAAB", "D"))), Err((15, 4)));
        let strange = item("2BAAAB", "EAA!");
        assert_eq!(text(&signatures(&strange)), Err((5, 13)));
        let strange = strange.replace('!', "/");
        assert_eq!(text(&signatures(&strange)), Err((19, 13)));
        let two = format!("{}{}", item("0BAB", ""), item("AA", "E"));
        assert_eq!(text(&signatures(&two)), Err((15, 4)));
        let two = format!("{}{}", item("0BAA", ""), item("AA", "E"));
        assert_eq!(text(&signatures(&two)), Err((8, 160)));
        // In binary the same, in bytes: `-KAW` is F8 A0 16, `AA` 00 0.
        let mut bytes = vec![0xF8, 0xA0, 0x16];
        bytes.extend([0; 66]);
        assert_eq!(binary(&bytes), Ok(()));
        bytes[4] = 0x08;
        assert_eq!(binary(&bytes), Err((8, 3)));
        bytes[4] = 0xF0;
        assert_eq!(binary(&bytes), Ok(()));
    }

    #[test]
    fn genus_version_as_first_item() {
        assert_eq!(text("-AAC-_AAABAA"), Err((7, 4)));
        assert_eq!(text("-AAC-_AAACAA"), Ok(()));
        let large = format!("--CAABAA-_AAABAA{}", "1AAK".repeat(4094));
        assert_eq!(text(&large), Err((7, 8)));
        assert_eq!(text("-JAC-_AAABAA"), Ok(()));
        // D12.
        assert_eq!(text("-AADMAAB-_AAABAA"), Ok(()));
        assert_eq!(text("-AAD-AAA-_AAABAA"), Ok(()));
        assert_eq!(text("-AAD-CAC-_AAABAA"), Err((7, 8)));
        assert_eq!(text("-AAD-KAA-_AAABAA"), Ok(()));
    }

    /// `groups` nested small `-J` headers around `units` units that are still
    /// to come.
    fn nested(groups: u8, units: u8) -> String {
        let digit = |value| crate::alphabet::character(value) as char;
        let header = |inner: u8| format!("-J{}{}", digit(inner / 64), digit(inner % 64));
        (units..units + groups).rev().map(header).collect()
    }

    #[test]
    fn sixty_four_groups_but_not_sixty_five() {
        assert_eq!(text(&nested(40, 0)), Ok(()));
        assert_eq!(text(&nested(64, 0)), Ok(()));
        assert_eq!(text(&nested(65, 0)), Err((11, 256)));
    }

    #[test]
    fn eleven_for_signature_groups_too_but_behind_framing() {
        // D20: the 65th group is one of signatures with a bad character, and
        // then one that passes its group.
        let strange = format!("{}-KAB!!!!", nested(64, 2));
        assert_eq!(text(&strange), Err((11, 256)));
        let last = format!("{}{}", nested(63, 23), signatures(&item("AA", "")));
        assert_eq!(text(&last), Ok(()));
        let passing = format!("{}-KAB", nested(64, 1));
        assert_eq!(text(&passing), Err((4, 256)));
        // 02 h: 18 directly after 11.
        let large = format!("{}--KAAAAA", nested(64, 2));
        assert_eq!(text(&large), Err((11, 256)));
        let large = format!("{}--KAAAAA", nested(63, 2));
        assert_eq!(text(&large), Err((18, 252)));
    }
}
