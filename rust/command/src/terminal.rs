//! What only a terminal gets: colours, and the progress of long work.

use crate::{complain, say};
use std::env;
use std::io::{self, IsTerminal};
use std::time::{Duration, Instant};

/// Work this long is shown.
const LONG: Duration = Duration::from_secs(1);
/// And not more often than this.
const PAUSE: Duration = Duration::from_millis(100);

/// A terminal that takes no escape sequences.
fn is_dumb() -> bool {
    env::var_os("TERM").is_none_or(|name| name == "dumb")
}

/// Colours for standard output, or none.
#[derive(Clone, Copy, Debug)]
pub struct Paint {
    on: bool,
}

impl Paint {
    /// Colours at a terminal that has some, unless NO_COLOR is set.
    pub fn told() -> Paint {
        let wanted = env::var_os("NO_COLOR").is_none();
        Paint {
            on: wanted && io::stdout().is_terminal() && !is_dumb(),
        }
    }

    pub const NONE: Paint = Paint { on: false };

    pub fn good(self, text: &str) -> String {
        self.with("32", text)
    }

    pub fn bad(self, text: &str) -> String {
        self.with("1;31", text)
    }

    pub fn doubtful(self, text: &str) -> String {
        self.with("33", text)
    }

    fn with(self, colour: &str, text: &str) -> String {
        match self.on {
            true => format!("\u{1b}[{colour}m{text}\u{1b}[0m"),
            false => text.to_string(),
        }
    }
}

/// One line on standard error that is written over, for work that takes long.
#[derive(Debug)]
pub struct Progress {
    on: bool,
    /// When the next line may come.
    next: Option<Instant>,
    shown: bool,
    /// Does nothing else come to the terminal between two streams?
    stays: bool,
    prefix: String,
}

impl Progress {
    /// Shown at a terminal that takes escape sequences.
    pub fn told() -> Progress {
        Progress::begun(Instant::now(), io::stderr().is_terminal() && !is_dumb())
    }

    /// Never shown.
    pub fn none() -> Progress {
        Progress::begun(Instant::now(), false)
    }

    /// The first line comes after `LONG`, the others after `PAUSE`.
    fn begun(now: Instant, on: bool) -> Progress {
        Progress {
            on,
            next: now.checked_add(LONG),
            shown: false,
            stays: false,
            prefix: String::new(),
        }
    }

    /// Says which stream of how many is at work.
    pub fn at(&mut self, number: usize, of: usize) {
        if of > 1 {
            self.prefix = format!("stream {number} of {of}, ");
        }
    }

    /// Where lines go elsewhere, progress stays from stream to stream.
    pub fn stays(&mut self) {
        self.stays = !io::stdout().is_terminal();
    }

    /// Is the stream typed at a terminal? Says then that it is waited for, and
    /// keeps off the line that somebody types on.
    pub fn waits(&mut self) -> bool {
        let typed = io::stdin().is_terminal();
        if typed {
            self.hush();
            complain("reading standard input to its end");
        }
        typed
    }

    fn hush(&mut self) {
        self.on = false;
    }

    pub fn tick(&mut self, text: impl FnOnce() -> String) {
        if let Some(line) = self.line(Instant::now(), text) {
            say(&line);
        }
    }

    /// The line to write, if it is time for one.
    fn line(&mut self, now: Instant, text: impl FnOnce() -> String) -> Option<String> {
        if !self.on || self.next.is_none_or(|next| now < next) {
            return None;
        }
        self.next = now.checked_add(PAUSE);
        self.shown = true;
        Some(format!("\r\u{1b}[K{}{}", self.prefix, text()))
    }

    /// A stream is read: its line may come to the terminal.
    pub fn pause(&mut self) {
        if !self.stays {
            self.clear();
        }
    }

    /// Clears the line, before anything else is written.
    pub fn clear(&mut self) {
        if self.shown {
            say("\r\u{1b}[K");
            self.shown = false;
        }
    }
}

#[cfg(test)]
mod tests {
    use super::*;

    fn line(progress: &mut Progress, start: Instant, after: u64) -> Option<String> {
        let now = start.checked_add(Duration::from_millis(after));
        progress.line(now.expect("a time"), || format!("{after} ms"))
    }

    /// Short work shows nothing, long work a line after a second and then ten a
    /// second.
    #[test]
    fn progress_by_the_clock() {
        let start = Instant::now();
        let mut progress = Progress::begun(start, true);
        progress.at(2, 3);
        for (after, shown) in [
            (0, false),
            (999, false),
            (1_000, true),
            (1_099, false),
            (1_100, true),
            (5_000, true),
            (5_001, false),
        ] {
            let told = line(&mut progress, start, after);
            let said = format!("\r\u{1b}[Kstream 2 of 3, {after} ms");
            assert_eq!(told, shown.then_some(said), "after {after}");
        }
    }

    /// Elsewhere than at a terminal, and where somebody types, never.
    #[test]
    fn no_progress() {
        let start = Instant::now();
        let mut progress = Progress::begun(start, false);
        assert_eq!(line(&mut progress, start, 9_000), None);
        let mut progress = Progress::begun(start, true);
        progress.hush();
        assert_eq!(line(&mut progress, start, 9_000), None);
    }
}
