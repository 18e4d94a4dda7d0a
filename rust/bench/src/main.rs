//! Times the proved library against ordinary Rust, in one process, and prints
//! the tables: `cargo run --release --offline -p bench`. Words behind it choose the
//! tables with all of them in their title: `-- Mixed '3 MiB'`.
//!
//! The library is the archive that `tools/library` writes.

mod conversion;
mod engines;
mod mixed;
mod pieces;
mod race;
mod reports;
mod table;
mod walks;

/// Sizes that are timed, with their names.
const SIZES: [(&str, usize); 4] = [
    ("64 KiB", 64 << 10),
    ("256 KiB", 256 << 10),
    ("1 MiB", 1 << 20),
    ("3 MiB", 3 << 20),
];

/// A sweep runs every race for a short time, so that a busy moment of the
/// machine is not all that a race sees.
const SWEEPS: usize = 6;

fn main() {
    let mut races = conversion::races();
    races.extend(reports::races());
    races.extend(engines::races());
    races.extend(mixed::races());
    races.extend(walks::races());
    races.extend(pieces::races());
    let words: Vec<String> = std::env::args().skip(1).collect();
    let chosen = |title: &str| words.iter().all(|word| title.contains(word.as_str()));
    races.retain(|race| chosen(&race.title));
    for _ in 0..SWEEPS {
        races.iter_mut().for_each(race::Race::sweep);
    }
    println!("Best of many rounds in {SWEEPS} sweeps. The rounds of a table's contenders are");
    println!("interleaved, and the buffer is written with zeros before each call. Ratios are of");
    println!("times, row to column.");
    races.iter().for_each(table::print);
}
