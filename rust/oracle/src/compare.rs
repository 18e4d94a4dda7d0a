//! 02, request n: expected verdicts compared with a report.
//!
//! Written from that paragraph alone. Both files are taken apart from the
//! front, section by section, and each case is looked up by its index.

use crate::refusal::MALFORMED;

/// What is answered: number and place, the three numbers that sum to the
/// number expected, the items beyond it, and the remainders.
#[derive(Clone, Copy, Debug, Default, PartialEq, Eq)]
pub struct Comparison {
    pub number: u8,
    pub place: usize,
    pub passed: usize,
    pub failed: usize,
    pub not_reached: usize,
    pub beyond: usize,
    pub remainders_agree: bool,
}

/// What a file says: verdicts by index, and a remainder's number.
#[derive(Debug)]
struct Said {
    verdicts: Vec<u8>,
    remainder: Option<u8>,
}

/// "Compare it with a report and answer passed, failed and not reached."
pub fn compare(file: &[u8], report: &[u8]) -> Comparison {
    match (expectation(file), reported(report)) {
        (Some(wanted), Some(found)) => answer(&wanted, &found),
        // "refused with new number 20, place 0; all counts are 0 and the
        // remainders are answered as not agreeing"
        _ => Comparison {
            number: MALFORMED,
            ..Comparison::default()
        },
    }
}

fn answer(wanted: &Said, found: &Said) -> Comparison {
    let mut answer = Comparison::default();
    for (index, verdict) in wanted.verdicts.iter().enumerate() {
        match found.verdicts.get(index) {
            // "exactly when an item with its index exists and has that verdict"
            Some(other) if other == verdict => answer.passed += 1,
            // "it failed when the item exists with another"
            Some(_) => answer.failed += 1,
            // "it is not reached otherwise"
            None => answer.not_reached += 1,
        }
    }
    // "items beyond it are given as a fourth number"
    answer.beyond = found.verdicts.iter().skip(wanted.verdicts.len()).count();
    // "both are absent or both have the same number"
    answer.remainders_agree = wanted.remainder == found.remainder;
    answer
}

/// Does a report say that every byte of its stream lies in an accepted item,
/// and that there is one? Nothing for what is no report.
///
/// In a stream's own report the items follow one another from its start, and
/// what they leave is the remainder: so it has an item, none is refused, and
/// there is no remainder.
pub fn passed(report: &[u8]) -> Option<bool> {
    let mut rest = report;
    let items = section(&mut rest, 9)?;
    let refusals = section(&mut rest, 9)?;
    let remainders = section(&mut rest, 5)?;
    let none = refusals.is_empty() && remainders.is_empty() && !items.is_empty();
    let said = said(items, remainders, rest)?;
    Some(none && said.verdicts.iter().all(|verdict| *verdict == 0))
}

/// "two sections in fixed order": verdicts of a byte, then a remainder's number
/// if one is expected.
fn expectation(file: &[u8]) -> Option<Said> {
    let mut rest = file;
    let verdicts = section(&mut rest, 1)?;
    let remainders = section(&mut rest, 1)?;
    said(verdicts, remainders, rest)
}

/// 01's report: items (offset 4 bytes, size 4, verdict 1), refusals (9 bytes),
/// remainder (offset 4, number 1).
fn reported(report: &[u8]) -> Option<Said> {
    let mut rest = report;
    let items = section(&mut rest, 9)?;
    section(&mut rest, 9)?;
    let remainders = section(&mut rest, 5)?;
    said(items, remainders, rest)
}

/// The last byte of each row; nothing for "a remainder count above 1, or bytes
/// left over".
fn said(items: Vec<&[u8]>, remainders: Vec<&[u8]>, rest: &[u8]) -> Option<Said> {
    if remainders.len() > 1 || !rest.is_empty() {
        return None;
    }
    let last = |row: &&[u8]| row.last().copied();
    Some(Said {
        verdicts: items.iter().filter_map(last).collect(),
        remainder: remainders.first().and_then(last),
    })
}

/// The rows of the section in front; nothing for "a missing count, a section
/// shorter than its count says".
fn section<'a>(rest: &mut &'a [u8], width: usize) -> Option<Vec<&'a [u8]>> {
    let (count, behind) = rest.split_first_chunk::<4>()?;
    let size = u32::from_be_bytes(*count) as usize * width;
    let (rows, behind) = behind.split_at_checked(size)?;
    *rest = behind;
    Some(rows.chunks(width).collect())
}

#[cfg(test)]
mod tests {
    use super::*;
    use crate::report::report;
    use crate::Form;

    fn file(verdicts: &[u8], remainder: &[u8]) -> Vec<u8> {
        let mut bytes = (verdicts.len() as u32).to_be_bytes().to_vec();
        bytes.extend(verdicts);
        bytes.extend((remainder.len() as u32).to_be_bytes());
        bytes.extend(remainder);
        bytes
    }

    fn numbers(answer: Comparison) -> (u8, [usize; 4], bool) {
        let Comparison {
            number,
            place,
            passed,
            failed,
            not_reached,
            beyond,
            remainders_agree,
        } = answer;
        assert_eq!(place, 0);
        let counts = [passed, failed, not_reached, beyond];
        (number, counts, remainders_agree)
    }

    /// Two items, the first refused 4, and no remainder.
    fn told() -> Vec<u8> {
        report(b"-AAB0AAAMAAB", Form::Text).unwrap().bytes()
    }

    #[test]
    fn cases_by_their_index() {
        for (verdicts, remainder, counts, agree) in [
            (&[4, 0][..], &[][..], [2, 0, 0, 0], true),
            (&[0, 0], &[], [1, 1, 0, 0], true),
            (&[0, 4], &[], [0, 2, 0, 0], true),
            (&[4], &[], [1, 0, 0, 1], true),
            (&[], &[], [0, 0, 0, 2], true),
            (&[4, 0, 0], &[], [2, 0, 1, 0], true),
            (&[4, 0, 4, 0, 9], &[], [2, 0, 3, 0], true),
            (&[4, 0], &[4], [2, 0, 0, 0], false),
        ] {
            let answer = compare(&file(verdicts, remainder), &told());
            assert_eq!(numbers(answer), (0, counts, agree), "{verdicts:?}");
        }
    }

    #[test]
    fn remainders_on_their_own() {
        let told = report(b"MAAB-AACMAAB", Form::Text).unwrap().bytes();
        for (remainder, agree) in [(&[4][..], true), (&[5], false), (&[], false)] {
            let answer = compare(&file(&[0], remainder), &told);
            assert_eq!(numbers(answer), (0, [1, 0, 0, 0], agree));
        }
    }

    #[test]
    fn twenty() {
        let (right, told) = (file(&[4, 0], &[4]), told());
        let refused = (20, [0; 4], false);
        let mut wrong = vec![file(&[4, 0], &[4, 4])];
        wrong.extend((0..right.len()).map(|length| right[..length].to_vec()));
        wrong.push([&right[..], &[0]].concat());
        for file in wrong {
            assert_eq!(numbers(compare(&file, &told)), refused, "{file:?}");
        }
        let mut wrong = vec![[&told[..35], &[0, 0, 0, 2], &[0; 10]].concat()];
        wrong.extend((0..told.len()).map(|length| told[..length].to_vec()));
        wrong.push([&told[..], &[0]].concat());
        for report in wrong {
            assert_eq!(numbers(compare(&right, &report)), refused, "{report:?}");
        }
    }
}
