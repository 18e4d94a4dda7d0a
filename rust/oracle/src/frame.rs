//! Framing: how far an item reaches, from its header alone.
//!
//! 01: "Framing an item: 4 (first unit), 5 (its first bad character), 6, 4
//! (second unit), 5, 4 (extent). At top level 7 is part of framing and
//! follows."

use crate::form::Form;
use crate::refusal::{Refusal, GENUS_VERSION, PAST_END, UNKNOWN_CODE};
use crate::registry::{self, Code, Table};

/// A framed item. Offset and sizes are in the stream's own measure.
#[derive(Clone, Copy, Debug, PartialEq, Eq)]
pub struct Frame {
    pub offset: usize,
    /// Full size, header and all.
    pub size: usize,
    /// Size of the header: one unit or two.
    pub header: usize,
    pub code: Code,
    /// n of a variable code or a group, else 0.
    pub count: u64,
}

impl Frame {
    /// Where the item ends.
    pub fn end(&self) -> usize {
        self.offset + self.size
    }

    /// Where the contents or the value behind the header start.
    pub fn behind_header(&self) -> usize {
        self.offset + self.header
    }
}

/// Frames the item at `offset`, which must not pass `end`: the end of the
/// stream or of the innermost enclosing group (D10).
pub fn frame(stream: &[u8], form: Form, offset: usize, end: usize) -> Result<Frame, Refusal> {
    frame_by(Table::Master, stream, form, offset, end)
}

/// The same with the code looked up in either table.
pub fn frame_by(
    table: Table,
    stream: &[u8],
    form: Form,
    offset: usize,
    end: usize,
) -> Result<Frame, Refusal> {
    let unit = form.unit();
    let left = end.min(stream.len()).saturating_sub(offset);
    // The place of 4 is always the item's start (D10).
    let past_end = Err(Refusal::new(PAST_END, offset));
    if left < unit {
        return past_end;
    }
    form.check_alphabet(stream, offset, offset + unit)?;
    let first = first_unit(stream, form, offset);
    let Some(code) = first.and_then(|unit| table.identify(unit)) else {
        return Err(Refusal::new(UNKNOWN_CODE, offset));
    };
    let header = code.header_units() * unit;
    if left < header {
        return past_end;
    }
    form.check_alphabet(stream, offset + unit, offset + header)?;
    let count = number(stream, form, offset, code.digits());
    let size = code.units(count) * unit as u64;
    if size > left as u64 {
        return past_end;
    }
    Ok(Frame {
        offset,
        size: size as usize,
        header,
        code,
        count,
    })
}

/// Frames a top-level item: 7 follows.
pub fn frame_top_level(stream: &[u8], form: Form, offset: usize) -> Result<Frame, Refusal> {
    let framed = frame(stream, form, offset, stream.len())?;
    require_genus_version(stream, form, &framed)?;
    Ok(framed)
}

/// 7: where a genus/version is required to be `AAACAA`, any other is refused.
/// An item that is no genus/version is none of its business.
pub fn require_genus_version(stream: &[u8], form: Form, framed: &Frame) -> Result<(), Refusal> {
    if framed.code != Code::Genus {
        return Ok(());
    }
    let wanted = registry::GENUS_VERSION.iter().enumerate();
    // `-_GGGVVV`: the six characters behind `-_`.
    let mut found = wanted.map(|(index, character)| {
        form.character(stream, framed.offset, 2 + index) == Some(*character)
    });
    if found.all(|same| same) {
        return Ok(());
    }
    Err(Refusal::new(GENUS_VERSION, framed.offset))
}

fn first_unit(stream: &[u8], form: Form, offset: usize) -> Option<[u8; 4]> {
    let mut unit = [0; 4];
    for (index, character) in unit.iter_mut().enumerate() {
        *character = form.character(stream, offset, index)?;
    }
    Some(unit)
}

/// A number in the digits with these places in an item: base 64, most
/// significant digit first; 0 where there are none.
pub fn number(stream: &[u8], form: Form, offset: usize, digits: std::ops::Range<usize>) -> u64 {
    digits.fold(0, |n, index| {
        let digit = form.sextet(stream, offset, index).unwrap_or(0);
        n * 64 + u64::from(digit)
    })
}

#[cfg(test)]
mod tests {
    use super::*;

    fn text(stream: &str) -> Result<(usize, usize, u64), (u8, usize)> {
        frame_top_level(stream.as_bytes(), Form::Text, 0)
            .map(|framed| (framed.size, framed.header, framed.count))
            .map_err(|refused| (refused.number, refused.place))
    }

    #[test]
    fn extents_of_01s_table() {
        assert_eq!(text("MAAB"), Ok((4, 4, 0)));
        assert_eq!(text("0HAAAAAA"), Ok((8, 4, 0)));
        assert_eq!(text("1AAM"), Ok((4, 4, 0)));
        assert_eq!(text("4BAA"), Ok((4, 4, 0)));
        assert_eq!(text("5BABAGhp"), Ok((8, 4, 1)));
        assert_eq!(text("7AABAAAA"), Ok((8, 8, 0)));
        assert_eq!(text("9AABAAABAABh"), Ok((12, 8, 1)));
        assert_eq!(text("-AAA"), Ok((4, 4, 0)));
        assert_eq!(text("-AABMAAB"), Ok((8, 4, 1)));
        assert_eq!(text("--AAAAABMAAB"), Ok((12, 8, 1)));
        assert_eq!(text("-_AAACAA"), Ok((8, 8, 0)));
    }

    #[test]
    fn what_follows_is_not_looked_at() {
        assert_eq!(text("MAAB!!!!"), Ok((4, 4, 0)));
        // The contents of a group and the value behind the header neither.
        assert_eq!(text("-AAB!!!!"), Ok((8, 4, 1)));
        assert_eq!(text("0HAA!!!!"), Ok((8, 4, 0)));
    }

    #[test]
    fn four_before_five_in_a_partial_unit() {
        // D8: whatever the characters are.
        for tail in ["", "M", "MA", "MAA", "!", "\n"] {
            assert_eq!(text(tail), Err((4, 0)));
        }
    }

    #[test]
    fn five_before_six_in_the_first_unit() {
        // D7, D8.
        assert_eq!(text("MAA!"), Err((5, 3)));
        assert_eq!(text("0A?!"), Err((5, 2)));
        assert_eq!(text("b!!A"), Err((5, 1)));
        assert_eq!(text("_AA="), Err((19, 3)));
        assert_eq!(text("=AAA"), Err((19, 0)));
        // 02 j: the first bad character decides.
        assert_eq!(text("MA!+"), Err((5, 2)));
        assert_eq!(text("MA+!"), Err((19, 2)));
    }

    #[test]
    fn six_before_the_second_unit() {
        // D8.
        assert_eq!(text("7AAG"), Err((6, 0)));
        assert_eq!(text("--0A"), Err((6, 0)));
        assert_eq!(text("7AAB"), Err((4, 0)));
        assert_eq!(text("--AA"), Err((4, 0)));
        assert_eq!(text("-_AA"), Err((4, 0)));
        assert_eq!(text("-_AACAA"), Err((4, 0)));
    }

    #[test]
    fn five_in_the_second_unit_before_the_extent() {
        // D8.
        assert_eq!(text("7AAB!__!"), Err((5, 4)));
        assert_eq!(text("--A__!__"), Err((5, 5)));
        assert_eq!(text("-_AAABA!"), Err((5, 7)));
        assert_eq!(text("7AAB+__!"), Err((19, 4)));
        assert_eq!(text("--A__!_/"), Err((5, 5)));
        assert_eq!(text("-_AAABA/"), Err((19, 7)));
        assert_eq!(text("7AAB____"), Err((4, 0)));
    }

    #[test]
    fn the_largest_extent_is_four() {
        // D9: above 2 to the 32.
        assert_eq!(text("--c_____"), Err((4, 0)));
    }

    #[test]
    fn seven_at_top_level() {
        assert_eq!(text("-_AAABAA"), Err((7, 0)));
        assert_eq!(text("-_BAACAA"), Err((7, 0)));
        assert_eq!(text("-_AAACAB"), Err((7, 0)));
    }

    #[test]
    fn the_enclosing_end_binds() {
        // D10: the stream goes on, the group does not.
        let inner = frame(b"-AAB0HAAAAAA", Form::Text, 4, 8);
        assert_eq!(inner, Err(Refusal::new(4, 4)));
    }

    #[test]
    fn binary_is_read_on_its_sextets() {
        // `-AAB` `MAAB`: F8 00 01, 30 00 01.
        let stream = [0xF8, 0x00, 0x01, 0x30, 0x00, 0x01];
        let framed = frame_top_level(&stream, Form::Binary, 0).unwrap();
        assert_eq!((framed.size, framed.header, framed.count), (6, 3, 1));
        let short = frame_top_level(&stream[..5], Form::Binary, 0);
        assert_eq!(short, Err(Refusal::new(4, 0)));
        // `_AAA`: FC 00 00.
        let reserved = frame_top_level(&[0xFC, 0, 0], Form::Binary, 0);
        assert_eq!(reserved, Err(Refusal::new(6, 0)));
        // `-_AA` `ABAA`: FB F0 00, 00 10 00.
        let old = frame_top_level(&[0xFB, 0xF0, 0, 0, 0x10, 0], Form::Binary, 0);
        assert_eq!(old, Err(Refusal::new(7, 0)));
    }

    /// Full size and header of an indexed item, or number and place.
    fn indexed(stream: &str) -> Result<(usize, usize), (u8, usize)> {
        let stream = stream.as_bytes();
        frame_by(Table::Indexed, stream, Form::Text, 0, stream.len())
            .map(|framed| (framed.size, framed.header))
            .map_err(|refused| (refused.number, refused.place))
    }

    #[test]
    fn indexed_items_by_their_own_table() {
        for row in registry::INDEXED {
            let header = 4 * row.header_units();
            let whole = format!("{}{}", row.code, "A".repeat(row.full - row.code.len()));
            assert_eq!(indexed(&whole), Ok((row.full, header)));
            assert_eq!(indexed(&format!("{whole}!!!!")), Ok((row.full, header)));
            // 4 for the extent, for the second unit and for the first one.
            for left in [row.full - 1, row.full - 4, header, header - 1, 3, 1, 0] {
                assert_eq!(indexed(&whole[..left]), Err((4, 0)), "{} {left}", row.code);
            }
            // A stranger in the header is framing's, and before the extent.
            for place in row.code.len()..row.full {
                for (stranger, number) in [("!", 5), ("+", 19)] {
                    let mut strange = whole.clone();
                    strange.replace_range(place..place + 1, stranger);
                    let found = indexed(&strange);
                    if place < header {
                        assert_eq!(found, Err((number, place)));
                        assert_eq!(indexed(&strange[..header]), Err((number, place)));
                    } else {
                        assert_eq!(found, Ok((row.full, header)));
                    }
                }
            }
        }
    }

    #[test]
    fn the_indexed_orders_of_framing() {
        // 5 before 6 in the first unit, 6 before the second unit is asked for.
        assert_eq!(indexed("E!AA"), Err((5, 1)));
        assert_eq!(indexed("2EA="), Err((19, 3)));
        assert_eq!(indexed("2EAA"), Err((6, 0)));
        assert_eq!(indexed("2AAA"), Err((4, 0)));
        assert_eq!(indexed("2AAA!AA"), Err((4, 0)));
        assert_eq!(indexed("2AAA!AAA"), Err((5, 4)));
        assert_eq!(indexed("2AAAAA+!"), Err((19, 6)));
        assert_eq!(indexed("3BAA___/"), Err((19, 7)));
        // Groups, genus/versions and what only the master table has.
        for start in [
            "-KAA", "-AAA", "--KAAAAA", "-_AAACAA", "MAAB", "1AAK", "4BAA",
        ] {
            assert_eq!(indexed(start), Err((6, 0)));
        }
    }

    #[test]
    fn far_offsets_are_four() {
        let far = frame(b"MAAB", Form::Text, usize::MAX, usize::MAX);
        assert_eq!(far, Err(Refusal::new(4, usize::MAX)));
    }
}
