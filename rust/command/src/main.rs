//! The command `cesr`: judges, converts, shows, compares and writes CESR
//! streams.
//!
//! Thin over the crate of the same name: what is said of a stream comes from
//! the proved library, and what stands here reads, prints and counts.

#![deny(unsafe_code)]
#![deny(
    clippy::arithmetic_side_effects,
    clippy::expect_used,
    clippy::indexing_slicing,
    clippy::panic,
    clippy::print_stderr,
    clippy::print_stdout,
    clippy::unwrap_used
)]
#![cfg_attr(test, allow(clippy::expect_used, clippy::indexing_slicing))]

mod arguments;
mod closed;
mod compare;
mod convert;
mod engine;
mod excerpt;
mod expect;
mod expected;
mod group;
mod help;
mod hint;
mod html;
mod inner;
mod input;
mod json;
mod json_head;
mod judge;
mod judged;
mod junit;
mod kind;
mod listing;
mod live;
mod manifest;
mod markup;
mod memory;
mod name;
mod outcome;
mod pages;
mod part;
mod place;
mod readable;
mod replace;
mod sarif;
mod sha256;
mod show;
mod standing;
mod terminal;
mod total;
mod watch;
mod words;
mod write;

use arguments::Task;
use standing::Standing;
use std::io::{self, Write};
use std::process::ExitCode;

fn main() -> ExitCode {
    let standing = match arguments::parse(std::env::args_os().skip(1)) {
        Ok(task) => done(task),
        Err(usage) => {
            complain(&format!("{usage}\nTry 'cesr --help'."));
            Standing::Error
        }
    };
    standing.exit()
}

/// Does the task. What can't be written is an error whatever was found.
fn done(task: Task) -> Standing {
    if closed::at_start() {
        complain("standard output: closed");
        return Standing::Error;
    }
    let mut out = io::BufWriter::with_capacity(1 << 16, io::stdout().lock());
    let standing = match task {
        Task::Judge(task) => judge::run(&task, &mut out),
        Task::Convert(task) => convert::run(&task, &mut out),
        Task::Show(task) => show::run(&task, &mut out),
        Task::Manifest(task) => listing::run(&task, &mut out),
        Task::Group(task) => group::run(&task, &mut out),
        Task::Write(task) => write::run(&task, &mut out),
        Task::Compare(task) => compare::run(&task, &mut out),
        Task::Expect(task) => expect::run(&task, &mut out),
        Task::Say(text, standing) => out.write_all(text.as_bytes()).map(|()| standing),
    };
    let written = standing.and_then(|standing| out.flush().map(|()| standing));
    match written {
        Ok(standing) => standing,
        Err(error) => {
            complain(&format!("standard output: {}", words::of_error(&error)));
            // What is left in the buffer is not tried again.
            let _ = out.into_parts();
            Standing::Error
        }
    }
}

/// Says what went wrong on standard error.
fn complain(message: &str) {
    say(&format!("cesr: {message}\n"));
}

/// Standard error in one write, so that neither calls side by side nor what
/// somebody types come between; if it fails, the exit status still tells.
fn say(text: &str) {
    let _ = io::stderr().write_all(text.as_bytes());
}
