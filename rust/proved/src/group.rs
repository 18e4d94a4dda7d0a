//! Groups written around items.

use crate::{answered, declared, Refusal};

/// Puts the header of a group of this letter in front of the first `length`
/// characters of the buffer, which move behind it: 3, 1, 6, 2, what a walk of
/// them as the group's contents refuses, 3, else the size of the group.
pub fn group_text(letter: u8, length: usize, buffer: &mut [u8]) -> Result<usize, Refusal> {
    group(declared::cesr_group_text, letter, length, buffer)
}

/// The same of bytes.
pub fn group_binary(letter: u8, length: usize, buffer: &mut [u8]) -> Result<usize, Refusal> {
    group(declared::cesr_group_binary, letter, length, buffer)
}

fn group(
    call: declared::Group,
    letter: u8,
    length: usize,
    buffer: &mut [u8],
) -> Result<usize, Refusal> {
    let mut answer = 0;
    // SAFETY: the buffer is valid for its length, and the answer is a place of
    // its own. The stated length of the body may be any.
    let number = unsafe {
        call(
            letter,
            length,
            buffer.as_mut_ptr(),
            buffer.len(),
            &mut answer,
        )
    };
    answered(number, answer)
}
