//! The fuzz target: an input names a call, its form and room, and holds the
//! stream. The proved library and the oracle answer it; numbers, places and
//! every byte of every buffer must be the same, or the process aborts.
//!
//! What the proved library is lent lies against pages that nobody may touch,
//! so a byte read or written too far ends the process too. `run.sh` links the
//! target with libFuzzer; `tests/replay.rs` runs the kept inputs without it.

mod calls;
pub mod corpus;
mod fence;
pub mod input;
mod long;
#[cfg(feature = "libfuzzer")]
mod mutate;
mod pieces;
pub mod seeds;

pub use calls::one;

/// What libFuzzer calls.
///
/// # Safety
///
/// `data` is valid for `size` bytes.
#[no_mangle]
pub unsafe extern "C" fn LLVMFuzzerTestOneInput(data: *const u8, size: usize) -> i32 {
    // SAFETY: by the contract. An empty input may come with a null pointer.
    let input = match size {
        0 => &[],
        _ => unsafe { std::slice::from_raw_parts(data, size) },
    };
    one(input);
    0
}
