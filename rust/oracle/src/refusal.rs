//! The numbers a vendor sees, and the place that comes with each.

/// A refused call: 01's number, and the place in the stream's own measure.
#[derive(Clone, Copy, Debug, PartialEq, Eq)]
pub struct Refusal {
    pub number: u8,
    pub place: usize,
}

impl Refusal {
    pub fn new(number: u8, place: usize) -> Self {
        Refusal { number, place }
    }
}

/// Stream longer than 4,194,304 characters or 3,145,728 bytes; a mixed one longer
/// than 4,194,304 bytes.
pub const TOO_LONG: u8 = 1;
/// Whole-stream conversion: not whole units.
pub const NOT_WHOLE_UNITS: u8 = 2;
/// Output room too small.
pub const ROOM: u8 = 3;
/// Header or full size passes the end of stream or enclosing group.
pub const PAST_END: u8 = 4;
/// Character outside the alphabet but `+`, `/`, `=`.
pub const CHARACTER: u8 = 5;
/// Code unknown or reserved.
pub const UNKNOWN_CODE: u8 = 6;
/// Genus/version required but not `AAACAA`.
pub const GENUS_VERSION: u8 = 7;
/// Pad bit or lead byte not zero.
pub const NOT_ZERO: u8 = 8;
/// Selector 5, 6, 8, 9 with n = 0.
pub const LEAD_WITHOUT_VALUE: u8 = 9;
/// Tag prepad not `_`.
pub const PREPAD: u8 = 10;
/// Group standing within 64 groups already.
pub const TOO_DEEP: u8 = 11;
/// Writer: raw length, tag length, index or ondex unfit for the code.
pub const UNFIT_LENGTH: u8 = 12;
/// Walk state unfit for the stream.
pub const UNFIT_STATE: u8 = 13;
/// Primitive asked for, group or genus/version found.
pub const NOT_A_PRIMITIVE: u8 = 14;
/// 02 a: ondex digits not zero in a code for the current key list only.
pub const ONDEX: u8 = 15;
/// 02 c: Base64 text without its full fill, or that starts with `A`.
pub const TEXT_FILL: u8 = 16;
/// 02 d: in a mixed stream a first byte that opens no item, or a JSON header
/// that is malformed or states a length below 23.
pub const MIXED_START: u8 = 17;
/// 02 h: large variable code or large group whose size fits the small code.
pub const NOT_SHORT: u8 = 18;
/// 02 j: `+`, `/` or `=` of the ordinary alphabet.
pub const ORDINARY_BASE64: u8 = 19;
/// Expectation file or report: a missing count, a section shorter than its
/// count says, a remainder count above 1, or bytes left over (02, n).
pub const MALFORMED: u8 = 20;

#[cfg(test)]
mod tests {
    use super::*;

    #[test]
    fn the_numbers_in_01s_order_and_those_of_02() {
        let numbers = [
            TOO_LONG,
            NOT_WHOLE_UNITS,
            ROOM,
            PAST_END,
            CHARACTER,
            UNKNOWN_CODE,
            GENUS_VERSION,
            NOT_ZERO,
            LEAD_WITHOUT_VALUE,
            PREPAD,
            TOO_DEEP,
            UNFIT_LENGTH,
            UNFIT_STATE,
            NOT_A_PRIMITIVE,
        ];
        assert!(numbers.iter().copied().eq(1..=14));
        assert_eq!(
            [ONDEX, TEXT_FILL, MIXED_START, NOT_SHORT, ORDINARY_BASE64],
            [15, 16, 17, 18, 19]
        );
    }
}
