//! Demands 2 and 3, and 02 j, as properties of the library alone.

use crate::judges::{same, Check};
use streams::{Form, Random};

/// A report's numbers: items (offset, size, verdict), refusals (index, number,
/// place), remainder (offset, number).
#[derive(Clone, Debug, Default, PartialEq, Eq)]
pub struct Rows {
    pub items: Vec<[usize; 3]>,
    pub refusals: Vec<[usize; 3]>,
    pub remainder: Vec<[usize; 2]>,
}

/// The library's report with room enough, taken apart.
pub fn rows(stream: &[u8], form: Form) -> Rows {
    let mut out = vec![0; 17 + 18 * (stream.len() / form.unit())];
    let length = match form {
        Form::Text => proved::report_text(stream, &mut out),
        Form::Binary => proved::report_binary(stream, &mut out),
    };
    let mut rest = &out[..length.expect("a report")];
    let found = Rows {
        items: section(&mut rest, [4, 4, 1]),
        refusals: section(&mut rest, [4, 1, 4]),
        remainder: section(&mut rest, [4, 1]),
    };
    assert!(rest.is_empty(), "{rest:02X?} left over");
    found
}

pub fn section<const N: usize>(rest: &mut &[u8], widths: [usize; N]) -> Vec<[usize; N]> {
    let count = number(rest, 4);
    let row = |_| widths.map(|width| number(rest, width));
    (0..count).map(row).collect()
}

fn number(rest: &mut &[u8], width: usize) -> usize {
    let (bytes, left) = rest.split_at(width);
    *rest = left;
    bytes.iter().fold(0, |n, byte| n << 8 | usize::from(*byte))
}

/// Demand 2: a binary of whole units, its text, and the two reports in the
/// ratio of three to four.
pub fn converted(binary: &[u8]) -> Check {
    let binary = &binary[..binary.len() / 3 * 3];
    let mut text = vec![0; binary.len() / 3 * 4];
    let mut back = vec![0; binary.len()];
    same(
        "to text",
        proved::to_text(binary, &mut text),
        Ok(text.len()),
    )?;
    same(
        "back",
        proved::to_binary(&text, &mut back),
        Ok(binary.len()),
    )?;
    same("back", &back[..], binary)?;
    let by = |n: usize| n / 3 * 4;
    let mut scaled = rows(binary, Form::Binary);
    for row in &mut scaled.items {
        *row = [by(row[0]), by(row[1]), row[2]];
    }
    for row in &mut scaled.refusals {
        row[2] = by(row[2]);
    }
    for row in &mut scaled.remainder {
        row[0] = by(row[0]);
    }
    same("reports in ratio", rows(&text, Form::Text), scaled)
}

/// Demand 3: bytes behind top-level headers are changed; both reports have the
/// same items and remainder, and each item is judged as by itself.
pub fn damaged(stream: &[u8], form: Form, seed: u64) -> Check {
    let mut random = Random::new(seed);
    let before = rows(stream, form);
    let mut changed = stream.to_vec();
    for [offset, size, _] in &before.items {
        let header = offset + header(stream, form, *offset);
        for _ in 0..random.below(3) {
            if header < offset + size {
                let place = header + random.below(offset + size - header);
                changed[place] = random.byte();
            }
        }
    }
    let after = rows(&changed, form);
    let framed = |rows: &Rows| -> Vec<[usize; 2]> {
        let items = rows.items.iter();
        items.map(|row| [row[0], row[1]]).collect()
    };
    same("items", framed(&after), framed(&before))?;
    same("remainder", &after.remainder, &before.remainder)?;
    each_by_itself(stream, form, &before)?;
    each_by_itself(&changed, form, &after)
}

/// 02 j: with `!` for each `+`, `/`, `=` of a text the report is the same but
/// that its 19s are 5s, and 19 is told where one of the three stands.
pub fn masked(text: &[u8]) -> Check {
    let mask = |c: &u8| if b"+/=".contains(c) { b'!' } else { *c };
    let plain: Vec<u8> = text.iter().map(mask).collect();
    let mut told = rows(text, Form::Text);
    for [_, number, place] in &told.refusals {
        let ordinary = b"+/=".contains(&text[*place]);
        let right = *number == 19 && ordinary || *number != 19 && !(*number == 5 && ordinary);
        same("19 by its character", right, true)?;
    }
    let five = |number: &mut usize| *number = if *number == 19 { 5 } else { *number };
    told.items.iter_mut().for_each(|row| five(&mut row[2]));
    told.refusals.iter_mut().for_each(|row| five(&mut row[1]));
    told.remainder.iter_mut().for_each(|row| five(&mut row[1]));
    same("with ! for + / =", rows(&plain, Form::Text), told)
}

/// The header's length: two units for `7` `8` `9`, `--` and `-_`.
pub fn header(stream: &[u8], form: Form, offset: usize) -> usize {
    let bits = form.bits(stream, offset);
    let two = match bits >> 18 {
        59..=61 => true,
        62 => bits >> 12 & 63 >= 62,
        _ => false,
    };
    form.unit() * (1 + usize::from(two))
}

fn each_by_itself(stream: &[u8], form: Form, whole: &Rows) -> Check {
    let mut refusals = Vec::new();
    for (index, [offset, size, verdict]) in whole.items.iter().enumerate() {
        let own = rows(&stream[*offset..offset + size], form);
        same("by itself", own.items, vec![[0, *size, *verdict]])
            .map_err(|why| format!("item {index} {why}"))?;
        same("by itself", own.remainder, vec![])?;
        for [_, number, place] in own.refusals {
            refusals.push([index, number, place + offset]);
        }
    }
    same("refusals", &refusals, &whole.refusals)
}
