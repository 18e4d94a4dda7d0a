//! The report: items, refusals, remainder.

use crate::convert::lend;
use crate::form::Form;
use crate::frame::frame_top_level;
use crate::judge::judge;
use crate::refusal::{Refusal, ROOM};

/// A framed top-level item; verdict 0 means accepted.
#[derive(Clone, Copy, Debug, PartialEq, Eq)]
pub struct ItemRow {
    pub offset: usize,
    pub size: usize,
    pub verdict: u8,
}

/// The refusal of the item with this index, counted from 0.
#[derive(Clone, Copy, Debug, PartialEq, Eq)]
pub struct RefusalRow {
    pub index: usize,
    pub number: u8,
    pub place: usize,
}

/// Where the items end before the stream does, and why. The offset is the
/// start of the item that could not be framed, for 5 and 19 too (D43).
#[derive(Clone, Copy, Debug, PartialEq, Eq)]
pub struct Remainder {
    pub offset: usize,
    pub number: u8,
}

#[derive(Clone, Debug, Default, PartialEq, Eq)]
pub struct Report {
    pub items: Vec<ItemRow>,
    pub refusals: Vec<RefusalRow>,
    pub remainder: Option<Remainder>,
}

/// The report in its structured form: 1, else the rows.
pub fn report(stream: &[u8], form: Form) -> Result<Report, Refusal> {
    form.check_length(stream)?;
    let mut report = Report::default();
    let mut offset = 0;
    while offset < stream.len() {
        let framed = match frame_top_level(stream, form, offset) {
            Ok(framed) => framed,
            Err(Refusal { number, .. }) => {
                report.remainder = Some(Remainder { offset, number });
                break;
            }
        };
        let verdict = judge(stream, form, &framed, 0);
        report.take(framed.offset, framed.size, verdict);
        offset = framed.end();
    }
    Ok(report)
}

/// The report's bytes into a lent buffer: 1, then 3 exactly if the room is
/// below 17 + 18 x items, else the length written.
pub fn write_report(stream: &[u8], form: Form, out: &mut [u8]) -> Result<usize, Refusal> {
    let report = report(stream, form)?;
    if out.len() < report.room() {
        return Err(Refusal::new(ROOM, 0));
    }
    lend(&report.bytes(), out)
}

impl Report {
    fn take(&mut self, offset: usize, size: usize, verdict: Result<(), Refusal>) {
        let index = self.items.len();
        let number = match verdict {
            Ok(()) => 0,
            Err(refused) => {
                let Refusal { number, place } = refused;
                self.refusals.push(RefusalRow {
                    index,
                    number,
                    place,
                });
                number
            }
        };
        self.items.push(ItemRow {
            offset,
            size,
            verdict: number,
        });
    }

    /// The room that is asked: by items only, though fewer bytes may be
    /// written (D46).
    pub fn room(&self) -> usize {
        17 + 18 * self.items.len()
    }

    /// Three sections, each after its count, all numbers big-endian.
    pub fn bytes(&self) -> Vec<u8> {
        let mut bytes = Vec::new();
        put4(&mut bytes, self.items.len());
        bytes.extend(self.item_bytes(0));
        put4(&mut bytes, self.refusals.len());
        bytes.extend(self.refusal_bytes(0));
        put4(&mut bytes, usize::from(self.remainder.is_some()));
        bytes.extend(self.remainder_bytes());
        bytes
    }

    /// The rows of items from this index on.
    pub fn item_bytes(&self, from: usize) -> Vec<u8> {
        let mut bytes = Vec::new();
        for row in &self.items[from..] {
            put4(&mut bytes, row.offset);
            put4(&mut bytes, row.size);
            bytes.push(row.verdict);
        }
        bytes
    }

    /// The rows of refusals from this one on.
    pub fn refusal_bytes(&self, from: usize) -> Vec<u8> {
        let mut bytes = Vec::new();
        for row in &self.refusals[from..] {
            put4(&mut bytes, row.index);
            bytes.push(row.number);
            put4(&mut bytes, row.place);
        }
        bytes
    }

    /// The remainder's row, or nothing.
    pub fn remainder_bytes(&self) -> Vec<u8> {
        let mut bytes = Vec::new();
        if let Some(row) = self.remainder {
            put4(&mut bytes, row.offset);
            bytes.push(row.number);
        }
        bytes
    }
}

/// Four bytes, big-endian. Offsets are at most 4,194,304, so none is cut.
pub(crate) fn put4(bytes: &mut Vec<u8>, number: usize) {
    bytes.extend((number as u32).to_be_bytes());
}

#[cfg(test)]
mod tests {
    use super::*;

    fn item(offset: usize, size: usize, verdict: u8) -> ItemRow {
        ItemRow {
            offset,
            size,
            verdict,
        }
    }

    fn remainder(offset: usize, number: u8) -> Option<Remainder> {
        Some(Remainder { offset, number })
    }

    #[test]
    fn the_empty_stream() {
        for form in [Form::Text, Form::Binary] {
            let mut out = [9; 20];
            assert_eq!(write_report(b"", form, &mut out), Ok(12));
            assert_eq!(out[..12], [0; 12]);
            assert_eq!(out[12..], [9; 8]);
            assert_eq!(write_report(b"", form, &mut [0; 17]), Ok(12));
            let refused = write_report(b"", form, &mut [0; 16]);
            assert_eq!(refused, Err(Refusal::new(3, 0)));
        }
    }

    #[test]
    fn the_remainder_starts_at_the_item_not_at_the_character() {
        // D43.
        let report = report(b"MAABMA!!", Form::Text).unwrap();
        assert_eq!(report.items, [item(0, 4, 0)]);
        assert_eq!(report.remainder, remainder(4, 5));
        assert!(report.refusals.is_empty());
    }

    #[test]
    fn the_first_bad_character_is_of_either_kind() {
        // 02 j, in a remainder and in a verdict.
        for (stream, number) in [("MAABMA!+", 5), ("MAABMA+!", 19), ("MAABMAA=", 19)] {
            let report = report(stream.as_bytes(), Form::Text).unwrap();
            assert_eq!(report.remainder, remainder(4, number));
        }
        let report = report(b"0HAA+!AA0HAA!+AA", Form::Text).unwrap();
        assert_eq!(report.items, [item(0, 8, 19), item(8, 8, 5)]);
        let places: Vec<_> = report
            .refusals
            .iter()
            .map(|r| (r.number, r.place))
            .collect();
        assert_eq!(places, [(19, 4), (5, 12)]);
    }

    #[test]
    fn a_partial_last_unit_is_remainder_four() {
        // D45.
        let tail = report(b"MAAB\n", Form::Text).unwrap();
        assert_eq!(tail.remainder, remainder(4, 4));
        let middle = report(b"MAAB\nMAAB", Form::Text).unwrap();
        assert_eq!(middle.remainder, remainder(4, 5));
        let binary = report(&[0x30, 0, 1, 0x30], Form::Binary).unwrap();
        assert_eq!(binary.remainder, remainder(3, 4));
    }

    #[test]
    fn a_refused_inner_item_does_not_end_the_report() {
        // D44, with the inner 6, 5 and 7.
        let stream = b"-AAB_AAA-AABMA!A-AAC-_AAABAAMAAB";
        let report = report(stream, Form::Text).unwrap();
        let rows = [
            item(0, 8, 6),
            item(8, 8, 5),
            item(16, 12, 7),
            item(28, 4, 0),
        ];
        assert_eq!(report.items, rows);
        let places: Vec<_> = report.refusals.iter().map(|r| (r.index, r.place)).collect();
        assert_eq!(places, [(0, 4), (1, 14), (2, 20)]);
        assert_eq!(report.remainder, None);
    }

    #[test]
    fn refused_whole_for_length() {
        let long = vec![b'A'; 4_194_305];
        let refused = write_report(&long, Form::Text, &mut []);
        assert_eq!(refused, Err(Refusal::new(1, 0)));
        let refused = write_report(&long[..3_145_729], Form::Binary, &mut []);
        assert_eq!(refused, Err(Refusal::new(1, 0)));
    }

    #[test]
    fn three_writes_nothing() {
        let mut out = [9; 34];
        let refused = write_report(b"MAAB", Form::Text, &mut out);
        assert_eq!(refused, Err(Refusal::new(3, 0)));
        assert_eq!(out, [9; 34]);
        // 17 + 18 = 35 is enough; written are 4 + 9 + 4 + 4.
        assert_eq!(write_report(b"MAAB", Form::Text, &mut [0; 35]), Ok(21));
    }
}
