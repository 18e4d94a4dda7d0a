//! The bytes of a stream at a place, with a caret.

use cesr::Form;
use std::ops::Range;

/// Characters of a text on a line, and bytes of a binary.
const TEXT: usize = 60;
const BINARY: usize = 20;

/// Two lines: the bytes from the item's start on, or from shortly before the
/// place; under them `~` along the item and a caret at the place. None for a
/// place outside the stream.
pub fn at(form: Form, stream: &[u8], item: Range<usize>, place: usize) -> Option<String> {
    stream.get(place)?;
    let width = match form {
        Form::Text => TEXT,
        Form::Binary => BINARY,
    };
    let from = window(form, item.start.min(place), place, width);
    let part = stream.get(from..)?.iter().take(width);
    let shown: String = match form {
        Form::Text => part.map(|byte| printable(*byte)).collect(),
        Form::Binary => part.map(|byte| format!("{byte:02X} ")).collect(),
    };
    let marked = from..item.end.max(place.saturating_add(1));
    let marks: String = marked
        .take(width)
        .map(|at| mark(form, at == place, item.contains(&at)))
        .collect();
    let (shown, marks) = (shown.trim_end(), marks.trim_end());
    Some(format!("{from:>8}  {shown}\n{:10}{marks}\n", ""))
}

/// The item's start if the place is then in sight; else a whole number of
/// units behind it.
pub fn window(form: Form, start: usize, place: usize, width: usize) -> usize {
    let behind = place.saturating_sub(start);
    if behind < width.saturating_sub(form.unit()) {
        return start;
    }
    let skipped = behind.saturating_sub(width / 2);
    let aligned = skipped.saturating_sub(skipped.checked_rem(form.unit()).unwrap_or(0));
    start.saturating_add(aligned)
}

fn printable(byte: u8) -> char {
    match byte {
        0x20..=0x7E => char::from(byte),
        _ => '.',
    }
}

fn mark(form: Form, is_place: bool, is_item: bool) -> &'static str {
    match (form, is_place, is_item) {
        (Form::Text, true, _) => "^",
        (Form::Text, _, true) => "~",
        (Form::Text, _, _) => " ",
        (Form::Binary, true, _) => "^^ ",
        (Form::Binary, _, true) => "~~ ",
        (Form::Binary, _, _) => "   ",
    }
}
