//! 02 m: what the plain second judge answers. Its report is the first engine's;
//! its own is the working room.

use crate::convert::{lend, text_of};
use crate::form::Form;
use crate::refusal::Refusal;
use crate::report;

/// The report's bytes into a lent buffer, with lent working room: 1, 3 for the
/// working room, then what the report asks for, else the length written. "4
/// characters for each whole triplet of a binary stream and none for text; with
/// less it answers 3, after 1. After either the room is as it was; else, even if
/// the report is then refused, it begins with the text of those triplets, if any,
/// and the rest stays".
pub fn write_report(
    stream: &[u8],
    form: Form,
    work: &mut [u8],
    out: &mut [u8],
) -> Result<usize, Refusal> {
    form.check_length(stream)?;
    if form == Form::Binary {
        lend(&text_of(stream), work)?;
    }
    report::write_report(stream, form, out)
}

#[cfg(test)]
mod tests {
    use super::*;

    /// `MAAB`, and a byte more.
    const BINARY: [u8; 4] = [0x30, 0, 1, 0x30];

    #[test]
    fn a_text_asks_no_working_room() {
        let mut work = [9; 4];
        let answer = write_report(b"MAAB", Form::Text, &mut work, &mut [0; 35]);
        assert_eq!((answer, work), (Ok(21), [9; 4]));
        let answer = write_report(b"MAAB", Form::Text, &mut [], &mut [0; 35]);
        assert_eq!(answer, Ok(21));
    }

    #[test]
    fn a_binary_asks_four_characters_for_each_whole_triplet() {
        let (mut work, mut out) = ([9; 5], [9; 35]);
        let answer = write_report(&BINARY, Form::Binary, &mut work, &mut out);
        // One item, no refusal, and the last byte is a remainder.
        assert_eq!(answer, Ok(4 + 9 + 4 + 4 + 5));
        assert_eq!(&work, b"MAAB\x09");
        let mut work = [9; 3];
        let answer = write_report(&BINARY, Form::Binary, &mut work, &mut [0; 35]);
        assert_eq!((answer, work), (Err(Refusal::new(3, 0)), [9; 3]));
        // Of two bytes no triplet is whole.
        let answer = write_report(&BINARY[..2], Form::Binary, &mut [], &mut [0; 17]);
        assert_eq!(answer, Ok(4 + 4 + 4 + 5));
    }

    #[test]
    fn a_refused_report_leaves_the_text() {
        let (mut work, mut out) = ([9; 5], [9; 34]);
        let answer = write_report(&BINARY, Form::Binary, &mut work, &mut out);
        assert_eq!((answer, out), (Err(Refusal::new(3, 0)), [9; 34]));
        assert_eq!(&work, b"MAAB\x09");
    }

    #[test]
    fn one_before_either_room() {
        let long = vec![b'A'; 4_194_305];
        let mut work = [9; 4];
        for (form, length) in [(Form::Text, 4_194_305), (Form::Binary, 3_145_729)] {
            let answer = write_report(&long[..length], form, &mut work, &mut []);
            assert_eq!((answer, work), (Err(Refusal::new(1, 0)), [9; 4]));
        }
    }
}
