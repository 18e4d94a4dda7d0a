//! Memory between two pages that nobody may touch. A part of it ends just
//! before the one or starts just behind the other, so that a byte too far is
//! a fault of the process, also in code that no sanitizer has seen.

use std::ffi::c_void;

const PAGE: usize = 4096;

/// Longer than any input makes a buffer.
pub const LONGEST: usize = 64 * PAGE;

const PROT_NONE: i32 = 0;
const PROT_READ_WRITE: i32 = 3;
const MAP_PRIVATE_ANONYMOUS: i32 = 0x22;

extern "C" {
    fn mmap(
        at: *mut c_void,
        size: usize,
        prot: i32,
        flags: i32,
        file: i32,
        from: i64,
    ) -> *mut c_void;
    fn mprotect(at: *mut c_void, size: usize, prot: i32) -> i32;
}

/// Which of the two pages a part lies against.
#[derive(Clone, Copy, Debug, PartialEq, Eq)]
pub enum Edge {
    Start,
    End,
}

/// The pages stay mapped as long as the process lives.
pub struct Fence(*mut u8);

impl Fence {
    pub fn new() -> Fence {
        // SAFETY: a new mapping of its own; the pages in the middle are opened.
        let inner = unsafe {
            let whole = mmap(
                std::ptr::null_mut(),
                LONGEST + 2 * PAGE,
                PROT_NONE,
                MAP_PRIVATE_ANONYMOUS,
                -1,
                0,
            );
            assert!(whole as isize != -1, "no memory");
            let inner = whole.cast::<u8>().add(PAGE);
            assert_eq!(mprotect(inner.cast(), LONGEST, PROT_READ_WRITE), 0);
            inner
        };
        Fence(inner)
    }

    /// So many bytes against an edge, all of them holding `held`.
    pub fn lend(&mut self, edge: Edge, length: usize, held: u8) -> &mut [u8] {
        assert!(length <= LONGEST);
        let from = match edge {
            Edge::Start => 0,
            Edge::End => LONGEST - length,
        };
        // SAFETY: the part lies within the open pages, which live as long as
        // the process and belong to this value alone, borrowed by the caller.
        let part = unsafe { std::slice::from_raw_parts_mut(self.0.add(from), length) };
        part.fill(held);
        part
    }

    /// Numbers against an edge.
    pub fn numbers<const N: usize>(&mut self, edge: Edge, numbers: [usize; N]) -> &mut [usize; N] {
        let part = self.lend(edge, size_of::<[usize; N]>(), 0);
        let at = part.as_mut_ptr().cast::<[usize; N]>();
        // SAFETY: the part has the array's size and is borrowed; both edges
        // are multiples of a page and the size one of a number's, so it is
        // aligned.
        unsafe {
            at.write(numbers);
            &mut *at
        }
    }
}

#[cfg(test)]
mod tests {
    use super::*;

    #[test]
    fn parts_lie_against_the_edges() {
        let mut fence = Fence::new();
        let start = fence.lend(Edge::Start, 7, 0xAA).as_ptr() as usize;
        let end = fence.lend(Edge::End, 7, 0xAA).as_ptr() as usize;
        assert_eq!((start % PAGE, (end + 7) % PAGE), (0, 0));
        assert_eq!(fence.lend(Edge::End, 0, 0), &[0u8; 0]);
        assert_eq!(fence.lend(Edge::Start, LONGEST, 5), vec![5; LONGEST]);
        assert_eq!(fence.numbers(Edge::End, [1, 2, 3]), &[1, 2, 3]);
    }
}
