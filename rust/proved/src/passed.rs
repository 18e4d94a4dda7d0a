//! Whether a stream passed, by its report.

use crate::{declared, Refusal};

/// Does the report say that every byte of its stream lies in an accepted item,
/// and that there is one? 20 at 0 for bytes that are no report.
pub fn passed(report: &[u8]) -> Result<bool, Refusal> {
    let mut passed = 0;
    // SAFETY: the slice is valid for its length and only read; the answer is a
    // place of its own.
    let number = unsafe { declared::cesr_passed(report.as_ptr(), report.len(), &mut passed) };
    match number {
        0 => Ok(passed == 1),
        _ => Err(Refusal { number, place: 0 }),
    }
}
