//! The report by the second engine.

use crate::{answered, declared, lent, Refusal};

/// The report of a text: 1, 3, else its length.
pub fn second_text(text: &[u8], out: &mut [u8]) -> Result<usize, Refusal> {
    lent(declared::cesr_second_text, text, out)
}

/// The report of a binary: 1, 3 for working room of less than 4 characters for
/// each whole triplet, 3, else its length. But for 1 and the first 3 the working
/// room begins with the text of these triplets.
pub fn second_binary(binary: &[u8], work: &mut [u8], out: &mut [u8]) -> Result<usize, Refusal> {
    let mut answer = 0;
    // SAFETY: the three slices are valid for their lengths and do not overlap,
    // and the answer is a place of its own.
    let number = unsafe {
        declared::cesr_second_binary(
            binary.as_ptr(),
            binary.len(),
            work.as_mut_ptr(),
            work.len(),
            out.as_mut_ptr(),
            out.len(),
            &mut answer,
        )
    };
    answered(number, answer)
}
