//! The report of a mixed stream (02 d): text, binary and JSON items by turns.
//!
//! Each item is looked at from its own start, and a JSON item's header is all that
//! is read of it. The search for strangers goes on from a text's start to the next
//! one wherever that stands, so that texts behind one another are searched once.

use crate::alphabet::{self, first_stranger};
use crate::judge::Around;
use crate::report::{four, judge, section, top_level};
use crate::{Refusal, TEXT_LIMIT};

/// Offset, size, verdict, form.
type ItemRow = [u8; 10];
/// Index, number, place.
type RefusalRow = [u8; 9];

/// The report in a buffer of its own: 1, else its bytes.
pub fn report_mixed(stream: &[u8]) -> Result<Vec<u8>, Refusal> {
    let rows = Rows::of(stream)?;
    let mut bytes = vec![0; rows.length()];
    rows.write(&mut bytes);
    Ok(bytes)
}

/// The report into a lent buffer: 1, then 3 exactly if the room is below
/// 17 + 19 x items, else the length written.
pub fn write_report_mixed(stream: &[u8], out: &mut [u8]) -> Result<usize, Refusal> {
    let rows = Rows::of(stream)?;
    if out.len() < 17 + 19 * rows.items.len() {
        return Err(Refusal::new(3, 0));
    }
    rows.write(out);
    Ok(rows.length())
}

#[derive(Default)]
struct Rows {
    items: Vec<ItemRow>,
    refusals: Vec<RefusalRow>,
    remainder: Option<(usize, u8)>,
}

/// An item's size in bytes, and number and place of its refusal, the place from
/// its start.
struct Judged {
    size: usize,
    refused: Option<(u8, usize)>,
}

impl Rows {
    fn of(stream: &[u8]) -> Result<Rows, Refusal> {
        if stream.len() > TEXT_LIMIT {
            return Err(Refusal::new(1, 0));
        }
        let mut rows = Rows::default();
        let (mut texts, mut binaries) = (Vec::new(), Vec::new());
        // The first stranger from a text's start on.
        let mut strange = None;
        let mut at = 0;
        while let Some(first) = stream.get(at) {
            let left = &stream[at..];
            let (form, found) = match first {
                b'-' => {
                    let place = match strange {
                        Some(known) if known >= at => known,
                        _ => first_stranger(stream, at).unwrap_or(usize::MAX),
                    };
                    strange = Some(place);
                    (0, text(left, place - at, &mut texts))
                }
                0xF8..=0xFB => (1, binary(left, &mut binaries)),
                b'{' => (2, json(left)),
                _ => (0, Err(17)),
            };
            match found {
                Ok(item) => {
                    rows.take(at, form, &item);
                    at += item.size;
                }
                Err(number) => {
                    rows.remainder = Some((at, number));
                    break;
                }
            }
        }
        Ok(rows)
    }

    #[inline(always)]
    fn take(&mut self, at: usize, form: u8, item: &Judged) {
        let ([a, b, c, d], [e, f, g, h]) = (four(at), four(item.size));
        let verdict = item.refused.map_or(0, |(number, _)| number);
        if let Some((number, place)) = item.refused {
            let ([i, j, k, l], [m, n, o, p]) = (four(self.items.len()), four(at + place));
            self.refusals.push([i, j, k, l, number, m, n, o, p]);
        }
        self.items.push([a, b, c, d, e, f, g, h, verdict, form]);
    }

    fn length(&self) -> usize {
        let remainder = if self.remainder.is_some() { 5 } else { 0 };
        12 + 10 * self.items.len() + 9 * self.refusals.len() + remainder
    }

    fn write(&self, out: &mut [u8]) {
        let out = section(out, self.items.len(), self.items.as_flattened());
        let out = section(out, self.refusals.len(), self.refusals.as_flattened());
        match self.remainder {
            None => section(out, 0, &[]),
            Some((offset, number)) => {
                let [a, b, c, d] = four(offset);
                section(out, 1, &[a, b, c, d, number])
            }
        };
    }
}

fn json(left: &[u8]) -> Result<Judged, u8> {
    let Some(header) = left.first_chunk::<23>() else {
        return Err(4);
    };
    let hex = |byte: &u8| matches!(byte, b'0'..=b'9' | b'a'..=b'f');
    let well_made = header.starts_with(br#"{"v":""#)
        && header[6..10].iter().all(u8::is_ascii_uppercase)
        && header[10..12].iter().all(hex)
        && header[12..16] == *b"JSON"
        && header[16..22].iter().all(hex)
        && header[22] == b'_';
    // The low four bits of a digit, and nine more of a letter.
    let value = |byte: u8| usize::from(byte & 15) + 9 * usize::from(byte >> 6);
    let size = header[16..22].iter().fold(0, |n, d| n << 4 | value(*d));
    match size {
        23.. if well_made && size <= left.len() => Ok(Judged {
            size,
            refused: None,
        }),
        23.. if well_made => Err(4),
        _ => Err(17),
    }
}

fn binary<'s>(left: &'s [u8], open: &mut Vec<Around<'s, [u8; 3]>>) -> Result<Judged, u8> {
    let (units, _) = left.as_chunks::<3>();
    if units.is_empty() {
        return Err(4);
    }
    let item = top_level(units, usize::MAX)?;
    let verdict = judge::<_, false>(&units[..item.size], 0, &item, usize::MAX, open);
    Ok(Judged {
        size: 3 * item.size,
        refused: verdict.err().map(|by| (by.number, 3 * by.place)),
    })
}

/// `strange` is where the first stranger stands, from the item's start.
fn text<'s>(
    left: &'s [u8],
    strange: usize,
    open: &mut Vec<Around<'s, [u8; 4]>>,
) -> Result<Judged, u8> {
    let (units, _) = left.as_chunks::<4>();
    if units.is_empty() {
        return Err(4);
    }
    let told = |number: u8| match (number, left.get(strange)) {
        (5, Some(stranger)) => alphabet::number(*stranger),
        _ => number,
    };
    let bad = strange / 4;
    let item = top_level(units, bad).map_err(told)?;
    let (whole, size) = (&units[..item.size], 4 * item.size);
    let verdict = match strange < size {
        true => judge::<_, true>(whole, 0, &item, bad, open),
        false => judge::<_, false>(whole, 0, &item, bad, open),
    };
    let refused = verdict.err().map(|by| match by.number {
        5 => (told(5), strange),
        number => (number, 4 * by.place),
    });
    Ok(Judged { size, refused })
}
