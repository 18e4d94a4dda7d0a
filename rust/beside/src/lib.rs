//! The oracle behind the calls of the proved library: the same parameters,
//! numbers and buffers, so that a test asks both the same and compares.
//!
//! Nothing is judged here; what the oracle says is only put into the numbers
//! of `include/cesr.h`.

#![forbid(unsafe_code)]

mod pieces;
mod walk;

use oracle::indexed::{self, IndexedItem};
use oracle::primitive::{self, Named};
use oracle::registry::Indexed as Row;
use oracle::report::write_report;
use oracle::{convert, group, mixed, second, Form};
pub use pieces::{fits_binary, fits_text, start_binary, start_text, Fed};
use proved::{Counts, Indexed, IndexedInfo, Info, Primitive, Refusal, Tag};
pub use walk::{walk_binary, walk_on_binary, walk_on_text, walk_text};

/// A refusal of the oracle as one of the library.
fn refused(refusal: oracle::Refusal) -> Refusal {
    Refusal {
        number: refusal.number,
        place: refusal.place,
    }
}

pub fn to_binary(text: &[u8], out: &mut [u8]) -> Result<usize, Refusal> {
    convert::to_binary(text, out).map_err(refused)
}

pub fn to_text(binary: &[u8], out: &mut [u8]) -> Result<usize, Refusal> {
    convert::to_text(binary, out).map_err(refused)
}

pub fn report_text(text: &[u8], out: &mut [u8]) -> Result<usize, Refusal> {
    write_report(text, Form::Text, out).map_err(refused)
}

pub fn report_binary(binary: &[u8], out: &mut [u8]) -> Result<usize, Refusal> {
    write_report(binary, Form::Binary, out).map_err(refused)
}

pub fn report_mixed(stream: &[u8], out: &mut [u8]) -> Result<usize, Refusal> {
    mixed::write_report(stream, out).map_err(refused)
}

pub fn second_text(text: &[u8], out: &mut [u8]) -> Result<usize, Refusal> {
    second::write_report(text, Form::Text, &mut [], out).map_err(refused)
}

pub fn second_binary(binary: &[u8], work: &mut [u8], out: &mut [u8]) -> Result<usize, Refusal> {
    second::write_report(binary, Form::Binary, work, out).map_err(refused)
}

pub fn read_text(
    text: &[u8],
    at: usize,
    out: &mut [u8],
    tag: &mut Tag,
    info: &mut Info,
) -> Result<usize, Refusal> {
    let found = primitive::read_text(text, at, out).map_err(refused)?;
    Ok(told(&found, Form::Text, tag, info))
}

/// The oracle hands the raw value back as a part of the stream; the library
/// says where it lies. A part that lies elsewhere is a fault of the oracle.
pub fn read_binary(
    binary: &[u8],
    at: usize,
    out: &mut [u8],
    tag: &mut Tag,
    info: &mut Info,
) -> Result<usize, Refusal> {
    let (found, part) = primitive::read_binary(binary, at, out).map_err(refused)?;
    let length = told(&found, Form::Binary, tag, info);
    let start = at + info[proved::INFO_START];
    assert!(std::ptr::eq(part, &binary[start..start + found.raw]));
    Ok(length)
}

/// What a reader tells of a primitive, and the length of its value.
fn told(found: &primitive::Primitive, form: Form, tag: &mut Tag, info: &mut Info) -> usize {
    let (chars, letter, _) = walk::code(found.code);
    let units = found.size / form.unit();
    let start = 3 * units - found.raw;
    let (raw, tags, text) = (found.raw, found.tag.number, found.text);
    *tag = found.tag.characters;
    *info = [chars, letter, units, start, raw, tags, text];
    raw + text
}

pub fn write_text(item: &Primitive, out: &mut [u8]) -> Result<usize, Refusal> {
    write(item, Form::Text, out)
}

pub fn write_binary(item: &Primitive, out: &mut [u8]) -> Result<usize, Refusal> {
    write(item, Form::Binary, out)
}

fn write(item: &Primitive, form: Form, out: &mut [u8]) -> Result<usize, Refusal> {
    let four = [b'1', b'A', b'A', item.letter];
    let two = [b'0', item.letter];
    let named = match item.chars {
        1 => Named::Fixed(&four[3..]),
        2 => Named::Fixed(&two),
        4 => Named::Fixed(&four),
        5 | 6 => Named::Variable {
            letter: item.letter,
            large: item.chars == 6,
        },
        _ => Named::Fixed(&[]),
    };
    let tag = primitive::Tag {
        number: item.tags,
        characters: item.tag,
    };
    primitive::write(named, &tag, item.raw, form, out).map_err(refused)
}

pub fn read_indexed_text(
    text: &[u8],
    at: usize,
    out: &mut [u8],
    info: &mut IndexedInfo,
) -> Result<usize, Refusal> {
    let found = indexed::read_text(text, at, out).map_err(refused)?;
    *info = told_indexed(&found, Form::Text);
    Ok(found.raw)
}

pub fn read_indexed_binary(
    binary: &[u8],
    at: usize,
    info: &mut IndexedInfo,
) -> Result<usize, Refusal> {
    let (found, part) = indexed::read_binary(binary, at).map_err(refused)?;
    *info = told_indexed(&found, Form::Binary);
    let start = at + info[proved::INDEXED_START];
    assert!(std::ptr::eq(part, &binary[start..start + found.raw]));
    Ok(found.raw)
}

/// Selector, 0 where the letter stands alone, and letter.
fn indexed_code(row: &Row) -> (u8, u8) {
    match *row.code.as_bytes() {
        [selector, letter] => (selector, letter),
        _ => (0, row.code.as_bytes()[0]),
    }
}

fn told_indexed(found: &IndexedItem, form: Form) -> IndexedInfo {
    let (selector, letter) = indexed_code(found.row);
    let units = found.size / form.unit();
    let (index, ondex) = (found.index as usize, found.ondex as usize);
    let start = 3 * units - found.raw;
    let code = [selector, letter].map(usize::from);
    [code[0], code[1], units, start, found.raw, index, ondex]
}

pub fn write_indexed_text(item: &Indexed, out: &mut [u8]) -> Result<usize, Refusal> {
    write_indexed(item, Form::Text, out)
}

pub fn write_indexed_binary(item: &Indexed, out: &mut [u8]) -> Result<usize, Refusal> {
    write_indexed(item, Form::Binary, out)
}

fn write_indexed(item: &Indexed, form: Form, out: &mut [u8]) -> Result<usize, Refusal> {
    let both = [item.selector, item.letter];
    let code = if item.selector == 0 {
        &both[1..]
    } else {
        &both[..]
    };
    let (index, ondex) = (item.index as u64, item.ondex as u64);
    indexed::write(code, index, ondex, item.raw, form, out).map_err(refused)
}

pub fn group_text(letter: u8, length: usize, buffer: &mut [u8]) -> Result<usize, Refusal> {
    group::write(letter, Form::Text, length, buffer).map_err(refused)
}

pub fn group_binary(letter: u8, length: usize, buffer: &mut [u8]) -> Result<usize, Refusal> {
    group::write(letter, Form::Binary, length, buffer).map_err(refused)
}

pub fn compare(expected: &[u8], report: &[u8], counts: &mut Counts) -> Result<(), Refusal> {
    let told = oracle::compare::compare(expected, report);
    let agree = usize::from(told.remainders_agree);
    *counts = [
        told.passed,
        told.failed,
        told.not_reached,
        told.beyond,
        agree,
    ];
    match told.number {
        0 => Ok(()),
        number => Err(Refusal {
            number,
            place: told.place,
        }),
    }
}

pub fn passed(report: &[u8]) -> Result<bool, Refusal> {
    oracle::compare::passed(report).ok_or(Refusal {
        number: 20,
        place: 0,
    })
}
