//! A program without `std` over the crate `cesr`: its own allocator and panic handler, so that a crate below it that took `std` in would not
//! link. Exits with 0 if streams are judged, converted, walked and written as they should be.
#![no_std]
#![no_main]

extern crate alloc;

use alloc::string::ToString;
use cesr::{judge, read, to_binary, write, Code, Form, Number, Walk};
use core::alloc::{GlobalAlloc, Layout};

struct System;

#[link(name = "c")]
extern "C" {
    fn aligned_alloc(alignment: usize, size: usize) -> *mut u8;
    fn free(at: *mut u8);
    fn abort() -> !;
}

// SAFETY: memory of C's own allocator, aligned as asked and given back to it.
unsafe impl GlobalAlloc for System {
    unsafe fn alloc(&self, asked: Layout) -> *mut u8 {
        aligned_alloc(asked.align().max(16), asked.size().next_multiple_of(asked.align().max(16)))
    }

    unsafe fn dealloc(&self, at: *mut u8, _: Layout) {
        free(at)
    }
}

#[global_allocator]
static SYSTEM: System = System;

#[panic_handler]
fn panicked(_: &core::panic::PanicInfo) -> ! {
    unsafe { abort() }
}

fn holds() -> Result<bool, cesr::Refusal> {
    let report = judge(Form::Text, b"MAABMQAA")?;
    let refused = report.refusals().next().map(|row| row.refusal.number);
    let codes = Walk::new(Form::Text, b"-AABMAAB").flatten();
    Ok(!report.passed()
        && refused == Some(Number::NotZero)
        && report.to_string() == "2 items, 1 accepted, 1 refused, no remainder"
        && judge(Form::Text, b"MAAB")?.passed()
        && to_binary(b"1AAM")? == [0xD4, 0x00, 0x0C]
        && write(Form::Text, Code::fixed(1, b'M'), b"", &[0, 1])? == b"MAAB"
        && read(Form::Text, b"MAAB", 0)?.raw() == [0, 1]
        && codes.map(|step| step.head.to_string()).eq(["-A", "M"]))
}

/// These two are asked for by `alloc` as it comes built, and never called: a
/// panic aborts.
#[no_mangle]
pub extern "C" fn rust_eh_personality() {}

#[no_mangle]
pub extern "C" fn _Unwind_Resume() -> ! {
    unsafe { abort() }
}

#[no_mangle]
pub extern "C" fn main() -> i32 {
    i32::from(holds() != Ok(true))
}
