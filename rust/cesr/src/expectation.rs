//! Expected verdicts, and what came of them.

use crate::{Refusal, Report, Verdict};
use alloc::vec::Vec;

/// The verdicts that are expected of a stream's items, in order, and of its
/// remainder: what an expectation file says.
///
/// ```
/// use cesr::{compare, judge, Expectation, Form};
/// // The first item is to be refused 8, the second accepted.
/// let expected = Expectation { verdicts: vec![8, 0], remainder: None };
/// assert_eq!(expected.to_bytes(), [0, 0, 0, 2, 8, 0, 0, 0, 0, 0]);
///
/// let report = judge(Form::Text, b"MQAAMAAB")?;
/// assert_eq!(Expectation::of(&report), expected);
/// let found = compare(&expected.to_bytes(), report.as_bytes())?;
/// assert!(found.is_as_expected());
/// # Ok::<(), cesr::Refusal>(())
/// ```
#[derive(Clone, Debug, Default, PartialEq, Eq)]
pub struct Expectation {
    /// For each item 0 for accepted, else the number of its refusal.
    pub verdicts: Vec<u8>,
    /// The number of the remainder, if one is expected.
    pub remainder: Option<u8>,
}

impl Expectation {
    /// A report's own verdicts.
    pub fn of(report: &Report) -> Expectation {
        let byte = |verdict: Verdict| verdict.number().map_or(0, |number| number.get());
        Expectation {
            verdicts: report.items().map(|item| byte(item.verdict)).collect(),
            remainder: report.remainder().map(|rest| rest.number.get()),
        }
    }

    /// The expectation file: two sections, each after its count in 4 bytes.
    pub fn to_bytes(&self) -> Vec<u8> {
        let mut bytes = Vec::new();
        for section in [&self.verdicts[..], self.remainder.as_slice()] {
            // A count past its four bytes is none that a file can have: 20.
            let count = u32::try_from(section.len()).unwrap_or(u32::MAX);
            bytes.extend(count.to_be_bytes());
            bytes.extend(section);
        }
        bytes
    }
}

/// What a comparison says. The first three sum to the number expected.
#[must_use = "a comparison may say that something failed"]
#[derive(Clone, Copy, Debug, PartialEq, Eq)]
pub struct Comparison {
    /// Cases whose item exists and has the verdict that is expected.
    pub passed: usize,
    /// Cases whose item exists with another verdict.
    pub failed: usize,
    /// Cases without an item.
    pub not_reached: usize,
    /// Items beyond the number expected.
    pub beyond: usize,
    /// Are both remainders absent, or have both the same number?
    pub remainders_agree: bool,
}

impl Comparison {
    /// Is every item there, none beyond, each with its verdict, and do the
    /// remainders agree? Of nothing expected and nothing there it is true too.
    pub fn is_as_expected(&self) -> bool {
        let others = [self.failed, self.not_reached, self.beyond];
        others == [0; 3] && self.remainders_agree
    }

    /// The number of verdicts that were expected.
    pub fn expected(&self) -> usize {
        let items = self.passed.saturating_add(self.failed);
        items.saturating_add(self.not_reached)
    }
}

/// An expectation file compared with a report.
///
/// # Errors
///
/// 20 where one of them is not well made.
///
/// ```
/// use cesr::{compare, Number};
/// // One accepted item is expected; of the empty stream's report it is not
/// // reached, and so it has not passed.
/// let found = compare(&[0, 0, 0, 1, 0, 0, 0, 0, 0], &[0; 12])?;
/// assert_eq!((found.passed, found.not_reached), (0, 1));
/// assert!(!found.is_as_expected());
/// assert_eq!(compare(&[0; 9], &[0; 12]).unwrap_err().number, Number::Malformed);
/// # Ok::<(), cesr::Refusal>(())
/// ```
pub fn compare(expected: &[u8], report: &[u8]) -> Result<Comparison, Refusal> {
    let mut counts = [0; 5];
    proved::compare(expected, report, &mut counts)?;
    let [passed, failed, not_reached, beyond, agree] = counts;
    Ok(Comparison {
        passed,
        failed,
        not_reached,
        beyond,
        remainders_agree: agree == 1,
    })
}
