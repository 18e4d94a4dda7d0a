//! The bytes at a place for the page: units that stay whole where the line is
//! broken, the item underlined, the place in a box.

use crate::excerpt;
use cesr::Form;
use std::io::{self, Write};
use std::ops::Range;

/// Units that are shown: eighty characters, or sixty bytes.
const UNITS: usize = 20;

/// The bytes of `what`, an item or the remainder; nothing for a place outside
/// the stream.
pub fn written(
    out: &mut dyn Write,
    form: Form,
    stream: &[u8],
    item: Range<usize>,
    place: usize,
    what: &str,
) -> io::Result<()> {
    let (unit, width) = (form.unit(), form.unit().saturating_mul(UNITS));
    if stream.get(place).is_none() {
        return Ok(());
    }
    let from = excerpt::window(form, item.start.min(place), place, width);
    let shown = stream.get(from..).unwrap_or_default();
    let (before, after) = (from > 0, shown.len() > width);
    let part = match form {
        Form::Text => "Characters",
        Form::Binary => "Bytes",
    };
    write!(
        out,
        "<p class=\"of\">{part} from {from} on. Underlined: {what}. "
    )?;
    write!(out, "In a box: the place.</p>\n<p class=\"bytes {form}\">")?;
    if before {
        write!(out, "<span class=\"cut\">\u{2026}</span>")?;
    }
    for (index, four) in shown.chunks(unit).take(UNITS).enumerate() {
        let start = from.saturating_add(index.saturating_mul(unit));
        write!(
            out,
            "<span class=\"unit\">{}</span>",
            one(form, four, start, &item, place)
        )?;
    }
    if after {
        write!(out, "<span class=\"cut\">\u{2026}</span>")?;
    }
    writeln!(out, "</p>")
}

/// A unit, in runs of what stands before the item, in it and at the place.
fn one(form: Form, unit: &[u8], start: usize, item: &Range<usize>, place: usize) -> String {
    let (mut shown, mut open) = (String::new(), "");
    for (byte, at) in unit.iter().zip(start..) {
        let tag = match (at == place, item.contains(&at)) {
            (true, _) => "mark",
            (false, true) => "u",
            (false, false) => "i",
        };
        if tag != open {
            if !open.is_empty() {
                shown.push_str(&format!("</{open}>"));
            }
            shown.push_str(&format!("<{tag}>"));
            open = tag;
        }
        shown.push_str(&spelt(form, *byte));
    }
    format!("{shown}</{open}>")
}

fn spelt(form: Form, byte: u8) -> String {
    match (form, byte) {
        (Form::Binary, _) => format!("{byte:02X}"),
        (Form::Text, b'&') => "&amp;".to_string(),
        (Form::Text, b'<') => "&lt;".to_string(),
        (Form::Text, b'>') => "&gt;".to_string(),
        (Form::Text, b' ') => "\u{2423}".to_string(),
        (Form::Text, 0x21..=0x7E) => char::from(byte).to_string(),
        (Form::Text, _) => "\u{00B7}".to_string(),
    }
}
