//! How much memory a stream in pieces asks for, counted by an allocator.

use cesr::{Form, Live, Pieces};
use std::alloc::{GlobalAlloc, Layout, System};
use std::cell::Cell;

/// The system's, which counts what each thread asks for: what runs the tests has
/// a thread of its own.
struct Counting;

thread_local! {
    static ASKED: Cell<usize> = const { Cell::new(0) };
}

// SAFETY: all is the system's own.
unsafe impl GlobalAlloc for Counting {
    unsafe fn alloc(&self, layout: Layout) -> *mut u8 {
        ASKED.with(|times| times.set(times.get() + 1));
        System.alloc(layout)
    }

    unsafe fn dealloc(&self, at: *mut u8, layout: Layout) {
        System.dealloc(at, layout);
    }
}

#[global_allocator]
static COUNTING: Counting = Counting;

/// How often memory was asked for meanwhile.
fn asked<T>(during: impl FnOnce() -> T) -> (T, usize) {
    let before = ASKED.get();
    let made = during();
    (made, ASKED.get() - before)
}

#[test]
fn what_pieces_ask_for() {
    an_item_of_the_limit();
    reserved();
}

/// Byte by byte: the state alone, and a row at its end.
fn an_item_of_the_limit() {
    let (unit, units) = (b"1AAK", (1 << 20) - 2);
    let head = [&b"--JA"[..], b"D__-"].concat();
    let (taken, times) = asked(|| {
        let mut pieces = Pieces::new(Form::Text);
        let mut row = [0; 9];
        let stream = head.iter().chain(unit.iter().cycle().take(4 * units));
        let mut items = 0;
        for byte in stream {
            let told = pieces.feed_into(&[*byte], &mut row, &mut []);
            items += told.expect("room enough").items().len();
        }
        (pieces.taken(), items, pieces.end())
    });
    assert_eq!(taken, (Form::Text.limit(), 1, Ok(None)));
    assert_eq!(times, 0);
}

/// What was asked for beforehand is enough for the pieces and for the report.
fn reserved() {
    let piece = b"MAABMQAA".repeat(500);
    let mut live = Live::new(Form::Text);
    for _ in 0..20 {
        live.try_reserve(piece.len()).expect("memory");
        let (told, times) = asked(|| live.feed(&piece).map(|told| told.items().len()));
        assert_eq!((told, times), (Ok(1000), 0));
    }
    let (report, times) = asked(|| live.end());
    let length = report.map(|report| report.as_bytes().len());
    assert_eq!((length, times), (Ok(12 + 9 * 20_000 + 9 * 10_000), 0));
}
