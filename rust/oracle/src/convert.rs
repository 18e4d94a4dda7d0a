//! Whole-stream conversion. It does not look at codes (D25).

use crate::alphabet;
use crate::form::Form;
use crate::refusal::{Refusal, NOT_WHOLE_UNITS, ROOM};

/// Four text characters go by value to three bytes. Nothing if a character is
/// outside the alphabet.
pub fn unit_to_bytes(characters: [u8; 4]) -> Option<[u8; 3]> {
    let mut bits = 0u32;
    for character in characters {
        bits = bits << 6 | u32::from(alphabet::value(character)?);
    }
    let [_, first, second, third] = bits.to_be_bytes();
    Some([first, second, third])
}

/// And back.
pub fn unit_to_text(bytes: [u8; 3]) -> [u8; 4] {
    let bits = u32::from_be_bytes([0, bytes[0], bytes[1], bytes[2]]);
    [18, 12, 6, 0].map(|shift| alphabet::character((bits >> shift) as u8 & 63))
}

/// Text to binary: 1, 2, 5 or 19, 3, else the number of bytes written.
pub fn to_binary(text: &[u8], out: &mut [u8]) -> Result<usize, Refusal> {
    Form::Text.check_length(text)?;
    if !text.len().is_multiple_of(4) {
        return Err(Refusal::new(NOT_WHOLE_UNITS, 0));
    }
    Form::Text.check_alphabet(text, 0, text.len())?;
    lend(&binary_of(text), out)
}

/// Binary to text: 1, 2, 3, else the number of characters written.
pub fn to_text(binary: &[u8], out: &mut [u8]) -> Result<usize, Refusal> {
    Form::Binary.check_length(binary)?;
    if !binary.len().is_multiple_of(3) {
        return Err(Refusal::new(NOT_WHOLE_UNITS, 0));
    }
    lend(&text_of(binary), out)
}

/// The bytes of whole units that are known to lie in the alphabet.
pub(crate) fn binary_of(text: &[u8]) -> Vec<u8> {
    let units = text.chunks_exact(4);
    units
        .filter_map(|unit| unit_to_bytes([unit[0], unit[1], unit[2], unit[3]]))
        .flatten()
        .collect()
}

/// The characters of whole units.
pub(crate) fn text_of(binary: &[u8]) -> Vec<u8> {
    let units = binary.chunks_exact(3);
    units
        .flat_map(|unit| unit_to_text([unit[0], unit[1], unit[2]]))
        .collect()
}

/// 3 if the room is short, and then nothing is written. Else the answer goes
/// to the buffer's start and the bytes behind it stay.
pub(crate) fn lend(answer: &[u8], out: &mut [u8]) -> Result<usize, Refusal> {
    match out.get_mut(..answer.len()) {
        Some(part) => part.copy_from_slice(answer),
        None => return Err(Refusal::new(ROOM, 0)),
    }
    Ok(answer.len())
}

#[cfg(test)]
mod tests {
    use super::*;

    #[test]
    fn the_three_rows_of_002() {
        // 002, "Examples": MAAA 300000, MAAB 300001, MP__ 30ffff.
        let rows = [
            (*b"MAAA", [0x30, 0x00, 0x00]),
            (*b"MAAB", [0x30, 0x00, 0x01]),
            (*b"MP__", [0x30, 0xFF, 0xFF]),
            // 01's deck: `1AAM` in B is D4 00 0C.
            (*b"1AAM", [0xD4, 0x00, 0x0C]),
        ];
        for (text, bytes) in rows {
            assert_eq!(unit_to_bytes(text), Some(bytes));
            assert_eq!(unit_to_text(bytes), text);
        }
        assert_eq!(unit_to_bytes(*b"AAA="), None);
    }

    #[test]
    fn bytes_behind_the_answer_stay() {
        let mut out = [7; 8];
        assert_eq!(to_binary(b"MAAB1AAM", &mut out), Ok(6));
        assert_eq!(out, [0x30, 0, 1, 0xD4, 0, 0x0C, 7, 7]);
        let mut out = [b'?'; 6];
        assert_eq!(to_text(&[0x30, 0, 1], &mut out), Ok(4));
        assert_eq!(&out, b"MAAB??");
    }

    #[test]
    fn the_empty_stream_needs_no_room() {
        assert_eq!(to_binary(b"", &mut []), Ok(0));
        assert_eq!(to_text(b"", &mut []), Ok(0));
    }

    #[test]
    fn refusals_in_order_and_nothing_written() {
        let refused = |text: &[u8], room: usize| {
            let mut out = vec![9; room];
            let answer = to_binary(text, &mut out);
            assert!(out.iter().all(|byte| *byte == 9));
            answer.map_err(|r| (r.number, r.place))
        };
        // 2 before 5, 5 before 3; the place of 5 is the character.
        assert_eq!(refused(b"MAA!A", 9), Err((2, 0)));
        assert_eq!(refused(b"MAABMA!!", 0), Err((5, 6)));
        assert_eq!(refused(b"MAABMA!=", 0), Err((5, 6)));
        assert_eq!(refused(b"MAABMA=!", 0), Err((19, 6)));
        assert_eq!(refused(b"MAA+A", 9), Err((2, 0)));
        // RFC 4648: `Zg==` is `f` in ordinary Base64.
        assert_eq!(refused(b"Zg==", 9), Err((19, 2)));
        assert_eq!(refused(b"MAABMAAB", 5), Err((3, 0)));
        // 1 before 2: one character too many is not whole units either.
        assert_eq!(refused(&vec![b'!'; 4_194_305], 0), Err((1, 0)));
    }

    #[test]
    fn refusals_back_to_text() {
        let refused = |bytes: &[u8], room: usize| {
            let mut out = vec![9; room];
            let answer = to_text(bytes, &mut out);
            assert!(out.iter().all(|byte| *byte == 9));
            answer.map_err(|r| (r.number, r.place))
        };
        assert_eq!(refused(&[0; 4], 0), Err((2, 0)));
        assert_eq!(refused(&[0; 3], 3), Err((3, 0)));
        assert_eq!(refused(&vec![0; 3_145_729], 0), Err((1, 0)));
    }

    #[test]
    fn streams_of_just_the_limit() {
        let mut out = vec![0; 4_194_304];
        assert_eq!(to_binary(&vec![b'A'; 4_194_304], &mut out), Ok(3_145_728));
        assert_eq!(to_text(&vec![0; 3_145_728], &mut out), Ok(4_194_304));
    }
}
