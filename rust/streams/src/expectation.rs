//! Expectation files and reports: right ones, ones that differ a little, and
//! ones that are not well made in each way that 02 names.

use crate::random::Random;

/// Bytes of a row: expected verdicts and a remainder's number; items, refusals
/// and a remainder.
pub const FILE: [usize; 2] = [1, 1];
pub const REPORT: [usize; 3] = [9, 9, 5];

/// A section's count and its bytes.
fn section(bytes: &mut Vec<u8>, count: usize, rows: &[u8]) {
    bytes.extend((count as u32).to_be_bytes());
    bytes.extend(rows);
}

/// An expectation file.
pub fn file(verdicts: &[u8], remainder: &[u8]) -> Vec<u8> {
    let mut bytes = Vec::new();
    section(&mut bytes, verdicts.len(), verdicts);
    section(&mut bytes, remainder.len(), remainder);
    bytes
}

/// A report with these verdicts and remainder's number. Offsets, sizes and the
/// refusals are anything: nobody compares them.
pub fn report(random: &mut Random, verdicts: &[u8], remainder: &[u8]) -> Vec<u8> {
    let (mut bytes, refusals) = (Vec::new(), random.below(4));
    let items = rows(random, REPORT[0], verdicts);
    section(&mut bytes, verdicts.len(), &items);
    let others = random.bytes(REPORT[1] * refusals);
    section(&mut bytes, refusals, &others);
    let last = rows(random, REPORT[2], remainder);
    section(&mut bytes, remainder.len(), &last);
    bytes
}

/// Rows of so many bytes with these last.
fn rows(random: &mut Random, width: usize, last: &[u8]) -> Vec<u8> {
    let row = |byte: &u8| [random.bytes(width - 1), vec![*byte]].concat();
    last.iter().flat_map(row).collect()
}

/// Verdicts as reports have them, mostly.
pub fn verdicts(random: &mut Random, most: usize) -> Vec<u8> {
    let verdict = |random: &mut Random| match random.below(8) {
        0 => random.byte(),
        1..=3 => 4 + random.below(8) as u8,
        _ => 0,
    };
    let length = random.below(most + 1);
    (0..length).map(|_| verdict(random)).collect()
}

/// One verdict another, one more, one less, or all as they were.
pub fn varied(random: &mut Random, verdicts: &[u8]) -> Vec<u8> {
    let mut varied = verdicts.to_vec();
    match (random.below(4), varied.len()) {
        (0, 1..) => {
            let place = random.below(varied.len());
            varied[place] = varied[place].wrapping_add(1 + random.below(255) as u8);
        }
        (1, 1..) => varied.truncate(random.below(verdicts.len())),
        (2, _) => varied.extend([0; 3].iter().take(1 + random.below(3))),
        _ => {}
    }
    varied
}

/// Where the counts stand, by the counts before them, as far as bytes go.
fn counts(bytes: &[u8], widths: &[usize]) -> Vec<usize> {
    let (mut at, mut found) = (0, Vec::new());
    for width in widths {
        let Some(&[a, b, c, d]) = bytes.get(at..at + 4) else {
            break;
        };
        found.push(at);
        at += 4 + width * u32::from_be_bytes([a, b, c, d]) as usize;
    }
    found
}

/// The bytes not well made: cut anywhere, something left over, a count that is
/// not its section's, two remainders, rows a byte wider, one byte another.
pub fn spoilt(random: &mut Random, widths: &[usize], bytes: &[u8]) -> Vec<u8> {
    let mut made = bytes.to_vec();
    let places = counts(bytes, widths);
    match random.below(6) {
        0 => made.truncate(random.below(bytes.len())),
        1 => {
            let left = 1 + random.below(9);
            made.extend(random.bytes(left));
        }
        2 if !places.is_empty() => {
            let at = *random.pick(&places);
            let byte = at + 3 * random.below(2);
            made[byte] = made[byte].wrapping_add(*random.pick(&[1, 255, 16, 128]));
        }
        3 if places.len() == widths.len() => {
            let (at, width) = (places[widths.len() - 1], widths[widths.len() - 1]);
            made.truncate(at);
            let rows = random.bytes(2 * width);
            section(&mut made, 2, &rows);
        }
        4 => {
            let count = 1 + random.below(12);
            let rows = random.bytes((widths[0] + 1) * count);
            made.clear();
            section(&mut made, count, &rows);
            widths[1..].iter().for_each(|_| made.extend([0; 4]));
        }
        _ => {
            let place = random.below(bytes.len());
            if let Some(byte) = made.get_mut(place) {
                *byte = random.byte();
            }
        }
    }
    made
}
