//! Numbers with their nouns, and errors in plain words.

use crate::kind::Kind;
use std::io;

/// `1 item`, `2 items`.
pub fn counted(number: usize, noun: &str) -> String {
    match number {
        1 => format!("1 {noun}"),
        _ => format!("{number} {noun}s"),
    }
}

/// `1 character`, `12 bytes`.
pub fn measured(form: impl Into<Kind>, number: usize) -> String {
    counted(number, form.into().measure())
}

/// The system's words without its number.
pub fn of_error(error: &io::Error) -> String {
    let words = error.to_string();
    match words.find(" (os error") {
        Some(end) => words.get(..end).unwrap_or(&words).to_string(),
        None => words,
    }
}
