//! Reading and writing a single indexed item.
//!
//! 02 a: "Add reading and writing of single indexed items, by 01's orders for
//! primitives; an index or ondex too large for its digits (without digits, any
//! but 0) is 12, a nonzero ondex for a "current only" code is 15 after 12, place
//! 0."

use crate::alphabet;
use crate::convert::{binary_of, lend, text_of};
use crate::form::Form;
use crate::frame::{frame_by, number, Frame};
use crate::judge::judge_indexed;
use crate::refusal::{Refusal, ONDEX, PAST_END, UNFIT_LENGTH, UNKNOWN_CODE};
use crate::registry::{self, Code, Indexed, Table};

/// What a reader finds: the code, the item's size in the stream's own measure,
/// the raw value's length in bytes, the index, and the ondex, "read as 0 where
/// it has no digits".
#[derive(Clone, Copy, Debug, PartialEq, Eq)]
pub struct IndexedItem {
    pub row: &'static Indexed,
    pub size: usize,
    pub raw: usize,
    pub index: u64,
    pub ondex: u64,
}

/// Index digits first, then ondex (D151).
fn index(stream: &[u8], form: Form, framed: &Frame, row: &Indexed) -> u64 {
    let from = row.code.len();
    number(stream, form, framed.offset, from..from + row.index)
}

/// 0 where it has no digits.
pub fn ondex(stream: &[u8], form: Form, framed: &Frame, row: &Indexed) -> u64 {
    let from = row.code.len() + row.index;
    number(stream, form, framed.offset, from..from + row.ondex)
}

/// Reads from text: 1, 4 at or past the end, framing by the indexed table (a
/// group or a genus/version is 6, never 14), judging, 3. The raw value is copied
/// out to the start of `out`.
pub fn read_text(stream: &[u8], offset: usize, out: &mut [u8]) -> Result<IndexedItem, Refusal> {
    let (framed, found) = accepted(stream, Form::Text, offset)?;
    let item = binary_of(&stream[framed.offset..framed.end()]);
    lend(&item[item.len() - found.raw..], out)?;
    Ok(found)
}

/// Reads from binary. The raw value is the part of the stream where it lies, at
/// the item's end; room is not asked.
pub fn read_binary(stream: &[u8], offset: usize) -> Result<(IndexedItem, &[u8]), Refusal> {
    let (framed, found) = accepted(stream, Form::Binary, offset)?;
    Ok((found, &stream[framed.end() - found.raw..framed.end()]))
}

fn accepted(stream: &[u8], form: Form, offset: usize) -> Result<(Frame, IndexedItem), Refusal> {
    form.check_length(stream)?;
    if offset >= stream.len() {
        return Err(Refusal::new(PAST_END, offset));
    }
    let framed = frame_by(Table::Indexed, stream, form, offset, stream.len())?;
    let Code::Indexed(row) = framed.code else {
        return Err(Refusal::new(UNKNOWN_CODE, offset));
    };
    judge_indexed(stream, form, &framed, row)?;
    let found = IndexedItem {
        row,
        size: framed.size,
        raw: row.raw(),
        index: index(stream, form, &framed, row),
        ondex: ondex(stream, form, &framed, row),
    };
    Ok((framed, found))
}

/// Writes one indexed item to text or binary: 6, 12, 15, 3, else the size
/// written. The code is named by its characters.
pub fn write(
    code: &[u8],
    index: u64,
    ondex: u64,
    raw: &[u8],
    form: Form,
    out: &mut [u8],
) -> Result<usize, Refusal> {
    let Some(row) = registry::indexed_code(code) else {
        return Err(Refusal::new(UNKNOWN_CODE, 0));
    };
    let fits = |number: u64, digits: usize| number < 64u64.pow(digits as u32);
    if raw.len() != row.raw() || !fits(index, row.index) || !fits(ondex, row.ondex) {
        return Err(Refusal::new(UNFIT_LENGTH, 0));
    }
    if row.is_current_only() && ondex != 0 {
        return Err(Refusal::new(ONDEX, 0));
    }
    let mut sextets: Vec<u8> = code.iter().filter_map(|c| alphabet::value(*c)).collect();
    put_digits(&mut sextets, index, row.index);
    put_digits(&mut sextets, ondex, row.ondex);
    let item = item(&sextets, row.pad_bits(), raw);
    match form {
        Form::Text => lend(&text_of(&item), out),
        Form::Binary => lend(&item, out),
    }
}

/// Base 64, most significant digit first.
fn put_digits(sextets: &mut Vec<u8>, number: u64, digits: usize) {
    let digit = |place: usize| (number >> (6 * place)) as u8 & 63;
    sextets.extend((0..digits).rev().map(digit));
}

/// Sextets, so many zero bits, then the raw bytes.
fn item(sextets: &[u8], pad_bits: usize, raw: &[u8]) -> Vec<u8> {
    let bits = sextets
        .iter()
        .flat_map(|sextet| (0..6).rev().map(move |bit| sextet >> bit & 1))
        .chain(std::iter::repeat_n(0, pad_bits));
    let bits: Vec<u8> = bits.collect();
    let head = bits.chunks(8);
    let mut bytes: Vec<u8> = head
        .map(|byte| byte.iter().fold(0, |whole, bit| whole << 1 | bit))
        .collect();
    bytes.extend(raw);
    bytes
}

#[cfg(test)]
mod tests {
    use super::*;
    use crate::registry::INDEXED;

    type Outcome = Result<(&'static str, u64, u64, Vec<u8>), (u8, usize)>;

    fn read(text: &str, offset: usize) -> Outcome {
        let mut out = [0xEE; 200];
        let found = read_text(text.as_bytes(), offset, &mut out);
        let found = found.map_err(|refused| (refused.number, refused.place))?;
        assert!(out[found.raw..].iter().all(|byte| *byte == 0xEE));
        let raw = out[..found.raw].to_vec();
        Ok((found.row.code, found.index, found.ondex, raw))
    }

    fn written(code: &str, index: u64, ondex: u64, raw: &[u8]) -> Result<String, (u8, usize)> {
        let mut out = [b'?'; 200];
        let size = write(code.as_bytes(), index, ondex, raw, Form::Text, &mut out)
            .map_err(|refused| (refused.number, refused.place))?;
        assert!(out[size..].iter().all(|byte| *byte == b'?'));
        Ok(String::from_utf8_lossy(&out[..size]).into_owned())
    }

    #[test]
    fn the_twelve_codes_there_and_back() {
        for row in INDEXED {
            let raw: Vec<u8> = (0..row.raw()).map(|byte| 255 - byte as u8).collect();
            let most = |digits: usize| 64u64.pow(digits as u32) - 1;
            let ondexes = match row.is_current_only() {
                true => vec![0],
                false => vec![0, most(row.ondex), most(row.ondex) / 3],
            };
            for index in [0, 1, most(row.index) / 2, most(row.index)] {
                for &ondex in &ondexes {
                    let text = written(row.code, index, ondex, &raw).unwrap();
                    assert_eq!(text.len(), row.full);
                    assert_eq!(read(&text, 0), Ok((row.code, index, ondex, raw.clone())));
                    let mut bytes = vec![0; row.full / 4 * 3];
                    let code = row.code.as_bytes();
                    let size = write(code, index, ondex, &raw, Form::Binary, &mut bytes);
                    assert_eq!(
                        (size, &bytes),
                        (Ok(bytes.len()), &binary_of(text.as_bytes()))
                    );
                    let (found, part) = read_binary(&bytes, 0).unwrap();
                    assert_eq!((found.index, found.ondex, part), (index, ondex, &raw[..]));
                    assert!(std::ptr::eq(part, &bytes[bytes.len() - raw.len()..]));
                }
            }
        }
    }

    #[test]
    fn index_digits_stand_before_ondex_digits() {
        let head = |code, index, ondex, raw: usize, length: usize| {
            written(code, index, ondex, &vec![0; raw]).unwrap()[..length].to_string()
        };
        assert_eq!(head("A", 63, 0, 64, 4), "A_AA");
        assert_eq!(head("0A", 1, 2, 114, 4), "0ABC");
        assert_eq!(head("2A", 65, 130, 64, 8), "2ABBCCAA");
        assert_eq!(head("3A", 4161, 8322, 114, 8), "3ABBBCCC");
        assert_eq!(head("3B", 262_143, 0, 114, 8), "3B___AAA");
    }

    #[test]
    fn what_is_no_code_is_six() {
        for code in [
            "", "E", "a", "0C", "2E", "3C", "1A", "AA", "-K", "0", "2AA", "4B",
        ] {
            assert_eq!(
                written(code, u64::MAX, u64::MAX, &[]),
                Err((6, 0)),
                "{code}"
            );
        }
    }

    #[test]
    fn twelve_fifteen_three() {
        for row in INDEXED {
            let raw = vec![0; row.raw() + 1];
            let most = |digits: usize| 64u64.pow(digits as u32) - 1;
            let (index, ondex) = (most(row.index), most(row.ondex));
            for length in [0, row.raw() - 1, row.raw() + 1] {
                assert_eq!(written(row.code, 0, 0, &raw[..length]), Err((12, 0)));
            }
            let raw = &raw[..row.raw()];
            assert_eq!(written(row.code, index + 1, 0, raw), Err((12, 0)));
            assert_eq!(written(row.code, u64::MAX, 0, raw), Err((12, 0)));
            // Without digits any but 0: 12 and not 15 for `B` and `D`.
            assert_eq!(written(row.code, 0, ondex + 1, raw), Err((12, 0)));
            assert_eq!(written(row.code, index, u64::MAX, raw), Err((12, 0)));
            if row.is_current_only() && row.ondex > 0 {
                for told in [1, 64u64.pow(row.ondex as u32 - 1), ondex] {
                    assert_eq!(written(row.code, index, told, raw), Err((15, 0)));
                    assert_eq!(written(row.code, index + 1, told, raw), Err((12, 0)));
                }
                let code = row.code.as_bytes();
                let refused = write(code, 0, 1, raw, Form::Text, &mut []);
                assert_eq!(refused, Err(Refusal::new(15, 0)));
            }
            for form in [Form::Text, Form::Binary] {
                let full = row.full / 4 * form.unit();
                let mut short = vec![7; full - 1];
                let refused = write(row.code.as_bytes(), 0, 0, raw, form, &mut short);
                assert_eq!(refused, Err(Refusal::new(3, 0)));
                assert!(short.iter().all(|byte| *byte == 7));
            }
        }
    }

    #[test]
    fn refused_reads() {
        let whole = written("2B", 7, 0, &[9; 64]).unwrap();
        assert_eq!(read("", 0), Err((4, 0)));
        assert_eq!(read(&whole, 92), Err((4, 92)));
        assert_eq!(read(&whole, 4000), Err((4, 4000)));
        assert_eq!(read(&whole[..91], 0), Err((4, 0)));
        assert_eq!(read(&whole[..7], 0), Err((4, 0)));
        // An offset that is not a whole unit's; places count from the start.
        let shifted = format!("x{whole}");
        assert_eq!(read(&shifted, 1).map(|found| found.1), Ok(7));
        assert_eq!(
            read(&shifted.replacen("AAA", "AA!", 1), 1).map_err(|r| r.0),
            Err(5)
        );
        // Groups and genus/versions are 6, never 14; no 7.
        for start in [
            "-AAA", "-KAA", "-_AAABAA", "-_AAACAA", "--KAAAAA", "MAAB", "EAAA",
        ] {
            assert_eq!(read(start, 0), Err((6, 0)));
        }
        // 5 and 19 first, 8, 15, 3.
        let both = format!("2BAAABE{}", "A".repeat(85));
        assert_eq!(read(&both, 0), Err((8, 0)));
        assert_eq!(read(&both.replacen('E', "D", 1), 0), Err((15, 0)));
        let refused = read_text(both.replacen('E', "D", 1).as_bytes(), 0, &mut []);
        assert_eq!(refused, Err(Refusal::new(15, 0)));
        assert_eq!(read(&format!("{}!", &both[..91]), 0), Err((5, 91)));
        assert_eq!(read(&format!("{}=", &both[..91]), 0), Err((19, 91)));
        let mut short = [7; 63];
        let refused = read_text(whole.as_bytes(), 0, &mut short);
        assert_eq!((refused, short), (Err(Refusal::new(3, 0)), [7; 63]));
        // 1 before the offset.
        let long = vec![b'A'; Form::Text.limit() + 1];
        assert_eq!(
            read_text(&long, usize::MAX, &mut []),
            Err(Refusal::new(1, 0))
        );
        let long = &long[..Form::Binary.limit() + 1];
        assert_eq!(read_binary(long, 0), Err(Refusal::new(1, 0)));
    }

    #[test]
    fn the_ondex_is_zero_where_it_has_no_digits() {
        for code in ["A", "B", "C", "D"] {
            let text = written(code, 5, 0, &[1; 64]).unwrap();
            assert_eq!(read(&text, 0).map(|found| (found.1, found.2)), Ok((5, 0)));
        }
    }
}
