//! Expected verdicts compared with a report.

use crate::{declared, Refusal};

/// Passed, failed, not reached, beyond, and 1 where the remainders agree.
pub type Counts = [usize; 5];

/// An expectation file compared with a report: 20 at 0, and then all counts
/// are 0.
pub fn compare(expected: &[u8], report: &[u8], counts: &mut Counts) -> Result<(), Refusal> {
    // SAFETY: both slices are valid for their lengths and only read; the counts
    // are a place of their own, of the length that the library writes.
    let number = unsafe {
        declared::cesr_compare(
            expected.as_ptr(),
            expected.len(),
            report.as_ptr(),
            report.len(),
            counts,
        )
    };
    match number {
        0 => Ok(()),
        _ => Err(Refusal { number, place: 0 }),
    }
}
