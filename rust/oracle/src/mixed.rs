//! 02 d: the report of a stream that changes form at top level.
//!
//! "Each top-level item starts with `-` (text CESR), a byte F8 to FB (binary
//! CESR), or `{` (JSON); any other first byte is a remainder with number 17."
//! Offsets, sizes and places are in bytes of the mixed stream, with no alignment
//! to 4 or 3; what stands in a group has the group's form.

use crate::convert::lend;
use crate::form::Form;
use crate::frame::frame_top_level;
use crate::judge::judge;
use crate::refusal::{Refusal, MIXED_START, PAST_END, ROOM, TOO_LONG};
use crate::report::{put4, RefusalRow, Remainder};

/// "The stream limit is 4,194,304 bytes", whatever the items' forms are.
pub const LIMIT: usize = 4_194_304;

/// The form of a top-level item, told by its first byte.
#[derive(Clone, Copy, Debug, PartialEq, Eq)]
pub enum Kind {
    Text,
    Binary,
    Json,
}

impl Kind {
    pub fn of(first: u8) -> Option<Kind> {
        match first {
            b'-' => Some(Kind::Text),
            0xF8..=0xFB => Some(Kind::Binary),
            b'{' => Some(Kind::Json),
            _ => None,
        }
    }

    /// "Item rows gain a last byte, 0 text, 1 binary, 2 JSON".
    pub fn byte(self) -> u8 {
        match self {
            Kind::Text => 0,
            Kind::Binary => 1,
            Kind::Json => 2,
        }
    }
}

/// A framed top-level item; verdict 0 means accepted.
#[derive(Clone, Copy, Debug, PartialEq, Eq)]
pub struct ItemRow {
    pub offset: usize,
    pub size: usize,
    pub verdict: u8,
    pub kind: Kind,
}

#[derive(Clone, Debug, Default, PartialEq, Eq)]
pub struct Report {
    pub items: Vec<ItemRow>,
    pub refusals: Vec<RefusalRow>,
    pub remainder: Option<Remainder>,
}

/// "A JSON item must open with the bytes `{"v":"`".
pub const OPENING: &[u8; 6] = br#"{"v":""#;

/// "Its header is those 23 bytes": the opening and the 17 characters of the
/// version string.
pub const HEADER: usize = 23;

/// What a well-formed header says.
#[derive(Clone, Copy, Debug, PartialEq, Eq)]
pub struct Header {
    pub protocol: [u8; 4],
    pub version: [u8; 2],
    pub length: usize,
}

/// "four capital letters of protocol, two lowercase hexadecimal digits of
/// version, `JSON`, six lowercase hexadecimal digits of total length, `_`".
/// None for a malformed header.
pub fn header(bytes: &[u8; HEADER]) -> Option<Header> {
    let rest = bytes.strip_prefix(OPENING)?;
    let (protocol, rest) = rest.split_first_chunk::<4>()?;
    let (version, rest) = rest.split_first_chunk::<2>()?;
    let rest = rest.strip_prefix(b"JSON")?;
    let (digits, rest) = rest.split_first_chunk::<6>()?;
    let capital = |letter: &u8| letter.is_ascii_uppercase();
    let hex = |digit: &u8| matches!(digit, b'0'..=b'9' | b'a'..=b'f');
    let well_made = protocol.iter().all(capital) && version.iter().chain(digits).all(hex);
    if !well_made || rest != b"_" {
        return None;
    }
    let value = |digit: u8| match digit {
        b'a'.. => usize::from(digit - b'a') + 10,
        _ => usize::from(digit - b'0'),
    };
    let length = digits.iter().fold(0, |n, digit| n * 16 + value(*digit));
    Some(Header {
        protocol: *protocol,
        version: *version,
        length,
    })
}

/// "Fewer than 23 bytes left is a remainder 4; then a malformed header, or a
/// length below 23, is 17; then a length past the end is 4." The size.
fn frame_json(left: &[u8]) -> Result<usize, u8> {
    let Some(first) = left.first_chunk::<HEADER>() else {
        return Err(PAST_END);
    };
    match header(first) {
        Some(Header { length, .. }) if length >= HEADER => {
            if length > left.len() {
                return Err(PAST_END);
            }
            Ok(length)
        }
        _ => Err(MIXED_START),
    }
}

/// A CESR item, framed and judged as at top level of a stream of its form: its
/// size and its verdict.
fn cesr(stream: &[u8], form: Form, offset: usize) -> Result<(usize, Result<(), Refusal>), u8> {
    let framed = frame_top_level(stream, form, offset).map_err(|refused| refused.number)?;
    Ok((framed.size, judge(stream, form, &framed, 0)))
}

/// The report in its structured form: 1, else the rows.
pub fn report(stream: &[u8]) -> Result<Report, Refusal> {
    if stream.len() > LIMIT {
        return Err(Refusal::new(TOO_LONG, 0));
    }
    let mut report = Report::default();
    let mut offset = 0;
    while let Some(first) = stream.get(offset) {
        let Some(kind) = Kind::of(*first) else {
            report.end(offset, MIXED_START);
            break;
        };
        let found = match kind {
            Kind::Text => cesr(stream, Form::Text, offset),
            Kind::Binary => cesr(stream, Form::Binary, offset),
            // "The JSON body isn't judged."
            Kind::Json => frame_json(&stream[offset..]).map(|size| (size, Ok(()))),
        };
        match found {
            Ok((size, verdict)) => {
                report.take(offset, size, kind, verdict);
                offset += size;
            }
            Err(number) => {
                report.end(offset, number);
                break;
            }
        }
    }
    Ok(report)
}

/// The report's bytes into a lent buffer: 1, then 3 exactly if the room is
/// below 17 + 19 x items, else the length written.
pub fn write_report(stream: &[u8], out: &mut [u8]) -> Result<usize, Refusal> {
    let report = report(stream)?;
    if out.len() < report.room() {
        return Err(Refusal::new(ROOM, 0));
    }
    lend(&report.bytes(), out)
}

impl Report {
    /// The first framing refusal starts the remainder and ends the report.
    fn end(&mut self, offset: usize, number: u8) {
        self.remainder = Some(Remainder { offset, number });
    }

    fn take(&mut self, offset: usize, size: usize, kind: Kind, verdict: Result<(), Refusal>) {
        let index = self.items.len();
        let mut row = ItemRow {
            offset,
            size,
            verdict: 0,
            kind,
        };
        if let Err(Refusal { number, place }) = verdict {
            row.verdict = number;
            self.refusals.push(RefusalRow {
                index,
                number,
                place,
            });
        }
        self.items.push(row);
    }

    /// The room that is asked: ten bytes an item row and nine a refusal's.
    pub fn room(&self) -> usize {
        17 + 19 * self.items.len()
    }

    /// Three sections, each after its count, all numbers big-endian.
    pub fn bytes(&self) -> Vec<u8> {
        let mut bytes = Vec::new();
        put4(&mut bytes, self.items.len());
        for row in &self.items {
            put4(&mut bytes, row.offset);
            put4(&mut bytes, row.size);
            bytes.extend([row.verdict, row.kind.byte()]);
        }
        put4(&mut bytes, self.refusals.len());
        for row in &self.refusals {
            put4(&mut bytes, row.index);
            bytes.push(row.number);
            put4(&mut bytes, row.place);
        }
        put4(&mut bytes, usize::from(self.remainder.is_some()));
        if let Some(row) = self.remainder {
            put4(&mut bytes, row.offset);
            bytes.push(row.number);
        }
        bytes
    }
}

#[cfg(test)]
mod tests {
    use super::*;
    use Kind::{Binary, Json, Text};

    /// Offset, size, verdict and form of each item.
    type Rows = Vec<(usize, usize, u8, Kind)>;

    /// The rows, and the remainder's offset and number.
    fn rows(stream: &[u8]) -> (Rows, Option<(usize, u8)>) {
        let report = report(stream).unwrap();
        let item = |row: &ItemRow| (row.offset, row.size, row.verdict, row.kind);
        let items = report.items.iter().map(item).collect();
        (items, report.remainder.map(|row| (row.offset, row.number)))
    }

    fn remainder(stream: &[u8]) -> Option<(usize, u8)> {
        rows(stream).1
    }

    /// A header that states this length.
    fn head(length: &str) -> String {
        format!(r#"{{"v":"KERI10JSON{length}_"#)
    }

    #[test]
    fn forms_are_told_by_the_first_byte() {
        for first in 0..=255 {
            let kind = match first {
                b'-' => Some(Text),
                0xF8..=0xFB => Some(Binary),
                b'{' => Some(Json),
                _ => None,
            };
            assert_eq!(Kind::of(first), kind);
            // One byte by itself is less than any header.
            let number = if kind.is_some() { 4 } else { 17 };
            assert_eq!(remainder(&[first]), Some((0, number)), "{first}");
        }
    }

    #[test]
    fn items_of_each_form() {
        // `-AABMAAB` is F8 00 01 30 00 01 in binary.
        let mut stream = b"-AABMAAB".to_vec();
        stream.extend([0xF8, 0, 1, 0x30, 0, 1]);
        stream.extend(head("000017").bytes());
        stream.extend(b"-AABMQAA");
        let told = vec![
            (0, 8, 0, Text),
            (8, 6, 0, Binary),
            (14, 23, 0, Json),
            (37, 8, 8, Text),
        ];
        assert_eq!(rows(&stream), (told, None));
        let report = report(&stream).unwrap();
        let refused: Vec<_> = report
            .refusals
            .iter()
            .map(|r| (r.index, r.number, r.place))
            .collect();
        assert_eq!(refused, [(3, 8, 41)]);
    }

    #[test]
    fn the_order_at_a_brace() {
        // Fewer than 23 bytes: 4, even if malformed.
        for left in 1..HEADER {
            assert_eq!(remainder(&head("000017").as_bytes()[..left]), Some((0, 4)));
            assert_eq!(remainder(&vec![b'{'; left]), Some((0, 4)), "{left}");
        }
        // 23 bytes: 17 if malformed.
        assert_eq!(remainder(&[b'{'; HEADER]), Some((0, 17)));
        // The length: 22 is 17, 23 is accepted, 24 with 23 bytes left is 4.
        assert_eq!(remainder(head("000016").as_bytes()), Some((0, 17)));
        assert_eq!(remainder(head("000018").as_bytes()), Some((0, 4)));
        assert_eq!(
            rows(head("000017").as_bytes()),
            (vec![(0, 23, 0, Json)], None)
        );
        // 17 before a length past the end.
        assert_eq!(remainder(head("ffffff").as_bytes()), Some((0, 4)));
        assert_eq!(remainder(head("fffffF").as_bytes()), Some((0, 17)));
    }

    /// Every byte of a header, from both sides of what may stand there.
    #[test]
    fn every_byte_of_a_header() {
        let good = head("000017").into_bytes();
        let hex = |byte: u8| byte.is_ascii_digit() || (b'a'..=b'f').contains(&byte);
        for place in 0..HEADER {
            for byte in 0..=255u8 {
                let fits = match place {
                    6..=9 => byte.is_ascii_uppercase(),
                    10 | 11 | 16..=21 => hex(byte),
                    _ => byte == good[place],
                };
                let mut bytes = <[u8; HEADER]>::try_from(&good[..]).unwrap();
                bytes[place] = byte;
                assert_eq!(header(&bytes).is_some(), fits, "{place}: {byte}");
            }
        }
        let whole = header(&<[u8; HEADER]>::try_from(head("0a1b2f").as_bytes()).unwrap());
        let whole = whole.unwrap();
        assert_eq!(whole.length, 0x0A_1B2F);
        assert_eq!((&whole.protocol, &whole.version), (b"KERI", b"10"));
    }

    #[test]
    fn other_kinds_are_malformed() {
        for kind in ["MGPK", "CBOR", "Json", "json"] {
            let stream = head("000017").replace("JSON", kind);
            assert_eq!(remainder(stream.as_bytes()), Some((0, 17)), "{kind}");
        }
        // A version 2 string, and a map whose first key is another one.
        for stream in [
            r#"{"v":"KERICAAJSONAAAX."}"#,
            r#"{"t":"KERI10JSON000017_""#,
            r#"{ "v":"KERI10JSON000018_"#,
        ] {
            assert_eq!(remainder(stream.as_bytes()), Some((0, 17)), "{stream}");
        }
    }

    #[test]
    fn a_body_is_any_bytes() {
        let mut stream = head("00001b").into_bytes();
        stream.extend([0, 0xFF, b'{', b'\n']);
        stream.extend(b"-AAA");
        let told = vec![(0, 27, 0, Json), (27, 4, 0, Text)];
        assert_eq!(rows(&stream), (told, None));
    }

    #[test]
    fn what_a_stream_may_not_start_with() {
        assert_eq!(remainder(b"MAAB"), Some((0, 17)));
        assert_eq!(remainder(b"\n"), Some((0, 17)));
        assert_eq!(rows(b"-AAA\n-AAA"), (vec![(0, 4, 0, Text)], Some((4, 17))));
        assert_eq!(remainder(&[0xF7, 0, 0]), Some((0, 17)));
        assert_eq!(remainder(&[0xFC, 0, 0]), Some((0, 17)));
        assert_eq!(rows(&[0xF8, 0, 0]), (vec![(0, 3, 0, Binary)], None));
    }

    #[test]
    fn framing_of_cesr_is_as_everywhere() {
        for (stream, number) in [
            ("-A!A", 5),
            ("-A+A", 19),
            ("-AA", 4),
            ("-!", 4),
            ("-0AA", 6),
            ("-_AAABAA", 7),
            ("-AAB", 4),
            ("--AA", 4),
        ] {
            assert_eq!(remainder(stream.as_bytes()), Some((0, number)), "{stream}");
        }
        // `-0AA` is 111110 110100 000000 000000; `-_AA` `ABAA` FB F0 00 00 10 00.
        assert_eq!(remainder(&[0xFB, 0x40, 0]), Some((0, 6)));
        assert_eq!(remainder(&[0xFB, 0xF0, 0, 0, 0x10, 0]), Some((0, 7)));
        assert_eq!(rows(b"-_AAACAA"), (vec![(0, 8, 0, Text)], None));
    }

    #[test]
    fn what_stands_in_a_group_has_its_form() {
        // A brace within a group is a stranger, or in binary anything.
        let stream = b"-AAB{\"v\"-AAA";
        let told = vec![(0, 8, 5, Text), (8, 4, 0, Text)];
        assert_eq!(rows(stream), (told, None));
        // At an offset that is a multiple of neither 4 nor 3.
        let mut stream = head("000018").into_bytes();
        stream.extend(b"}-AABMQAA");
        let report = report(&stream).unwrap();
        let RefusalRow { place, number, .. } = report.refusals[0];
        assert_eq!((number, place), (8, 28));
    }

    #[test]
    fn one_then_three() {
        let long = vec![b'-'; 4_194_305];
        let refused = write_report(&long, &mut []);
        assert_eq!(refused, Err(Refusal::new(1, 0)));
        let refused = write_report(&long[..4_194_304], &mut []);
        assert_eq!(refused, Err(Refusal::new(3, 0)));
        assert_eq!(write_report(b"", &mut [9; 17]), Ok(12));
        assert_eq!(write_report(b"", &mut [9; 16]), Err(Refusal::new(3, 0)));
    }

    #[test]
    fn rows_of_ten_bytes_and_their_room() {
        let stream = head("000017");
        let mut out = [9; 37];
        let refused = write_report(stream.as_bytes(), &mut out[..35]);
        assert_eq!(refused, Err(Refusal::new(3, 0)));
        assert_eq!(out, [9; 37]);
        assert_eq!(write_report(stream.as_bytes(), &mut out[..36]), Ok(22));
        // Offset, size, verdict, and 2 for JSON.
        assert_eq!(out[..14], [0, 0, 0, 1, 0, 0, 0, 0, 0, 0, 0, 23, 0, 2]);
        assert_eq!(out[14..], [[0; 8].as_slice(), &[9; 15]].concat());
    }

    #[test]
    fn a_binary_item_may_be_longer_than_a_binary_stream() {
        // `--JA` and 1,048,577 units: one more than a binary stream may have.
        let units: usize = 1_048_577;
        let mut stream = vec![0; 6 + 3 * units];
        stream[..3].copy_from_slice(&[0xFB, 0xE2, 0x40]);
        let digits = (units as u32).to_be_bytes();
        stream[3..6].copy_from_slice(&digits[1..]);
        // `1AAK`: D4 00 0A.
        for unit in stream[6..].chunks_exact_mut(3) {
            unit.copy_from_slice(&[0xD4, 0x00, 0x0A]);
        }
        let told = vec![(0, stream.len(), 0, Binary)];
        assert_eq!(rows(&stream), (told, None));
    }
}
