//! One table: a line for each contender, with its time, its rate, and the ratio
//! of its time to each contender's.

use crate::race::{Race, Rate};

pub fn print(race: &Race) {
    let unit = match race.rate {
        Rate::Bytes(_) => "GB/s",
        Rate::Items(_) => "ns/item",
    };
    println!("\n{}", race.title);
    print!("  {:<12} {:>9} {:>9}", "", "ms", unit);
    let names = race.contenders.iter().map(|contender| contender.name);
    names.for_each(|name| print!(" {name:>12}"));
    println!();
    for (contender, time) in race.contenders.iter().zip(&race.best) {
        let seconds = time.as_secs_f64();
        let rate = match race.rate {
            Rate::Bytes(bytes) => bytes as f64 / seconds / 1e9,
            Rate::Items(items) => seconds * 1e9 / items as f64,
        };
        print!(
            "  {:<12} {:>9.4} {rate:>9.2}",
            contender.name,
            1e3 * seconds
        );
        let ratios = race.best.iter().map(|mark| seconds / mark.as_secs_f64());
        ratios.for_each(|ratio| print!(" {ratio:>12.2}"));
        println!();
    }
}
