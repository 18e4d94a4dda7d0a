//! The calls as the archive has them; `include/cesr.h` says what each does.

use crate::{Counts, IndexedInfo, Info, Item, Pieces, State, Tag};

/// Stream, its length, buffer, its length, and where the answer goes: the
/// length written if 0 is returned, else the place that goes with the number.
pub type Call = unsafe extern "C" fn(*const u8, usize, *mut u8, usize, *mut usize) -> u8;

/// Stream, its length, offset, buffer, its length, tag, info and answer.
pub type Read = unsafe extern "C" fn(
    *const u8,
    usize,
    usize,
    *mut u8,
    usize,
    *mut Tag,
    *mut Info,
    *mut usize,
) -> u8;

/// Code, tag characters and their number, raw value or text, buffer and answer.
pub type Write = unsafe extern "C" fn(
    u8,
    u8,
    *const Tag,
    usize,
    *const u8,
    usize,
    *mut u8,
    usize,
    *mut usize,
) -> u8;

/// Selector, letter, index, ondex, raw value, buffer and answer.
pub type WriteIndexed =
    unsafe extern "C" fn(u8, u8, usize, usize, *const u8, usize, *mut u8, usize, *mut usize) -> u8;

/// Letter, the body's length, the buffer that it lies in, and answer.
pub type Group = unsafe extern "C" fn(u8, usize, *mut u8, usize, *mut usize) -> u8;

/// Stream, its length, state, item and answer.
pub type Walk = unsafe extern "C" fn(*const u8, usize, *mut State, *mut Item, *mut usize) -> u8;

/// Stream, its length, state, budget, items taken and answer.
pub type WalkOn =
    unsafe extern "C" fn(*const u8, usize, *mut State, usize, *mut usize, *mut usize) -> u8;

/// State, piece, buffers of item rows and of refusal rows, and the lengths
/// written of both.
pub type Feed = unsafe extern "C" fn(
    *mut Pieces,
    *const u8,
    usize,
    *mut u8,
    usize,
    *mut u8,
    usize,
    *mut [usize; 2],
) -> u8;

/// State, buffer of the remainder's row, and answer.
pub type End = unsafe extern "C" fn(*mut Pieces, *mut u8, usize, *mut usize) -> u8;

extern "C" {
    pub fn cesr_text_to_binary(
        source: *const u8,
        length: usize,
        out: *mut u8,
        room: usize,
        answer: *mut usize,
    ) -> u8;
    pub fn cesr_binary_to_text(
        source: *const u8,
        length: usize,
        out: *mut u8,
        room: usize,
        answer: *mut usize,
    ) -> u8;
    pub fn cesr_report_text(
        stream: *const u8,
        length: usize,
        out: *mut u8,
        room: usize,
        answer: *mut usize,
    ) -> u8;
    pub fn cesr_report_binary(
        stream: *const u8,
        length: usize,
        out: *mut u8,
        room: usize,
        answer: *mut usize,
    ) -> u8;
    pub fn cesr_report_mixed(
        stream: *const u8,
        length: usize,
        out: *mut u8,
        room: usize,
        answer: *mut usize,
    ) -> u8;
    pub fn cesr_second_text(
        stream: *const u8,
        length: usize,
        out: *mut u8,
        room: usize,
        answer: *mut usize,
    ) -> u8;
    pub fn cesr_second_binary(
        stream: *const u8,
        length: usize,
        work: *mut u8,
        work_room: usize,
        out: *mut u8,
        room: usize,
        answer: *mut usize,
    ) -> u8;
    pub fn cesr_read_text(
        stream: *const u8,
        length: usize,
        at: usize,
        out: *mut u8,
        room: usize,
        tag: *mut Tag,
        info: *mut Info,
        answer: *mut usize,
    ) -> u8;
    pub fn cesr_read_binary(
        stream: *const u8,
        length: usize,
        at: usize,
        out: *mut u8,
        room: usize,
        tag: *mut Tag,
        info: *mut Info,
        answer: *mut usize,
    ) -> u8;
    pub fn cesr_write_text(
        chars: u8,
        letter: u8,
        tag: *const Tag,
        tags: usize,
        raw: *const u8,
        length: usize,
        out: *mut u8,
        room: usize,
        answer: *mut usize,
    ) -> u8;
    pub fn cesr_write_binary(
        chars: u8,
        letter: u8,
        tag: *const Tag,
        tags: usize,
        raw: *const u8,
        length: usize,
        out: *mut u8,
        room: usize,
        answer: *mut usize,
    ) -> u8;
    pub fn cesr_read_indexed_text(
        stream: *const u8,
        length: usize,
        at: usize,
        out: *mut u8,
        room: usize,
        info: *mut IndexedInfo,
        answer: *mut usize,
    ) -> u8;
    pub fn cesr_read_indexed_binary(
        stream: *const u8,
        length: usize,
        at: usize,
        info: *mut IndexedInfo,
        answer: *mut usize,
    ) -> u8;
    pub fn cesr_write_indexed_text(
        selector: u8,
        letter: u8,
        index: usize,
        ondex: usize,
        raw: *const u8,
        length: usize,
        out: *mut u8,
        room: usize,
        answer: *mut usize,
    ) -> u8;
    pub fn cesr_write_indexed_binary(
        selector: u8,
        letter: u8,
        index: usize,
        ondex: usize,
        raw: *const u8,
        length: usize,
        out: *mut u8,
        room: usize,
        answer: *mut usize,
    ) -> u8;
    pub fn cesr_group_text(
        letter: u8,
        length: usize,
        buffer: *mut u8,
        room: usize,
        answer: *mut usize,
    ) -> u8;
    pub fn cesr_group_binary(
        letter: u8,
        length: usize,
        buffer: *mut u8,
        room: usize,
        answer: *mut usize,
    ) -> u8;
    pub fn cesr_walk_text(
        stream: *const u8,
        length: usize,
        state: *mut State,
        item: *mut Item,
        answer: *mut usize,
    ) -> u8;
    pub fn cesr_walk_binary(
        stream: *const u8,
        length: usize,
        state: *mut State,
        item: *mut Item,
        answer: *mut usize,
    ) -> u8;
    pub fn cesr_walk_on_text(
        stream: *const u8,
        length: usize,
        state: *mut State,
        budget: usize,
        items: *mut usize,
        answer: *mut usize,
    ) -> u8;
    pub fn cesr_walk_on_binary(
        stream: *const u8,
        length: usize,
        state: *mut State,
        budget: usize,
        items: *mut usize,
        answer: *mut usize,
    ) -> u8;
    pub fn cesr_compare(
        expected: *const u8,
        expected_length: usize,
        report: *const u8,
        report_length: usize,
        answer: *mut Counts,
    ) -> u8;
    pub fn cesr_passed(report: *const u8, length: usize, passed: *mut usize) -> u8;
    pub fn cesr_feed_text(
        state: *mut Pieces,
        piece: *const u8,
        length: usize,
        items: *mut u8,
        items_room: usize,
        refusals: *mut u8,
        refusals_room: usize,
        given: *mut [usize; 2],
    ) -> u8;
    pub fn cesr_feed_binary(
        state: *mut Pieces,
        piece: *const u8,
        length: usize,
        items: *mut u8,
        items_room: usize,
        refusals: *mut u8,
        refusals_room: usize,
        given: *mut [usize; 2],
    ) -> u8;
    pub fn cesr_end_text(state: *mut Pieces, out: *mut u8, room: usize, answer: *mut usize) -> u8;
    pub fn cesr_end_binary(state: *mut Pieces, out: *mut u8, room: usize, answer: *mut usize)
        -> u8;
}
