//! Expected verdicts compared with reports, by both.

use crate::judges::{by_proved, oracle_form, same, Check};
use streams::expectation::{file, report, spoilt, varied, verdicts, FILE, REPORT};
use streams::{Form, Random};

/// What counts hold before a call.
const BEFORE: proved::Counts = [0xAAAA; 5];

/// One pair before both; the counts come back.
pub fn alike(expected: &[u8], report: &[u8]) -> Result<(u8, proved::Counts), String> {
    let (mut counts, mut told) = (BEFORE, BEFORE);
    let answer = by_proved(proved::compare(expected, report, &mut counts));
    let other = by_proved(beside::compare(expected, report, &mut told));
    same("compare", (answer, counts), (other, told))?;
    let passed = by_proved(proved::passed(report));
    same("passed", passed, by_proved(beside::passed(report)))?;
    Ok((answer.err().map_or(0, |refused| refused.0), counts))
}

/// A pair, and each of the two not well made.
fn around(random: &mut Random, expected: &[u8], report: &[u8]) -> Check {
    alike(expected, report)?;
    alike(&spoilt(random, &FILE, expected), report)?;
    alike(expected, &spoilt(random, &REPORT, report))?;
    let both = (
        spoilt(random, &FILE, expected),
        spoilt(random, &REPORT, report),
    );
    alike(&both.0, &both.1).map(drop)
}

/// A stream's own report with the expectation made of its own verdicts: all
/// passed. Then with one verdict another: one failed. Then with anything near.
pub fn of_stream(stream: &[u8], form: Form, seed: u64) -> Check {
    let Ok(found) = oracle::report::report(stream, oracle_form(form)) else {
        return Ok(());
    };
    let (bytes, mut random) = (found.bytes(), Random::new(seed));
    let own: Vec<u8> = found.items.iter().map(|row| row.verdict).collect();
    let rest: Vec<u8> = found.remainder.iter().map(|row| row.number).collect();
    let all = alike(&file(&own, &rest), &bytes)?;
    same("own", all, (0, [own.len(), 0, 0, 0, 1]))?;
    let accepted = found.items.iter().filter(|row| row.verdict == 0);
    let sizes: usize = accepted.map(|row| row.size).sum();
    let covered = sizes == stream.len() && !stream.is_empty();
    same("every byte", proved::passed(&bytes).ok(), Some(covered))?;
    if !own.is_empty() {
        let mut off = own.clone();
        off[random.below(own.len())] ^= 1 + random.below(255) as u8;
        let one = alike(&file(&off, &rest), &bytes)?;
        same("one off", one, (0, [own.len() - 1, 1, 0, 0, 1]))?;
    }
    let near = file(&varied(&mut random, &own), &rest);
    around(&mut random, &near, &bytes)
}

/// A made-up file with a made-up report.
pub fn any(random: &mut Random) -> Check {
    let most = *random.pick(&[0, 1, 4, 40]);
    let there = verdicts(random, most);
    let wanted = varied(random, &there);
    let remainders: [&[u8]; 4] = [&[], &[4], &[5], &[0]];
    let (left, over) = (*random.pick(&remainders), *random.pick(&remainders));
    let made = report(random, &there, over);
    sums(&file(&wanted, left), &made, wanted.len(), there.len())?;
    around(random, &file(&wanted, left), &made)
}

/// The sums that are claimed.
fn sums(expected: &[u8], report: &[u8], wanted: usize, there: usize) -> Check {
    let (number, [passed, failed, not_reached, beyond, _]) = alike(expected, report)?;
    same("well made", number, 0)?;
    same("expected", passed + failed + not_reached, wanted)?;
    same("items", passed + failed + beyond, there)
}

/// A missing item is never counted as passed, a remainder neither.
#[test]
fn what_is_not_there_has_not_passed() {
    for verdict in 0..=255 {
        for remainder in [&[][..], &[verdict], &[4]] {
            let expected = file(&[verdict; 3], remainder);
            let told = alike(&expected, &[0; 12]).unwrap();
            let agree = usize::from(remainder.is_empty());
            assert_eq!(told, (0, [0, 0, 3, 0, agree]));
        }
    }
}

/// Every beginning of a file and of a report, and one byte more.
#[test]
fn every_length_but_the_right_one_is_twenty() {
    let mut random = Random::new(23);
    let expected = file(&[0, 8, 4], &[6]);
    let found = report(&mut random, &[0, 8], &[6]);
    let refused = (20, [0; 5]);
    for length in 0..expected.len() {
        assert_eq!(alike(&expected[..length], &found), Ok(refused));
    }
    for length in 0..found.len() {
        assert_eq!(alike(&expected, &found[..length]), Ok(refused));
    }
    for more in 0..=255 {
        let longer = [&expected[..], &[more]].concat();
        assert_eq!(alike(&longer, &found), Ok(refused));
        let longer = [&found[..], &[more]].concat();
        assert_eq!(alike(&expected, &longer), Ok(refused));
    }
    assert_eq!(alike(&expected, &found), Ok((0, [2, 0, 1, 0, 1])));
}

/// Counts so high that their sections would pass every memory.
#[test]
fn the_highest_counts() {
    for count in [u32::MAX, u32::MAX / 9, 0x8000_0000, 0x1000_0000] {
        let mut bytes = count.to_be_bytes().to_vec();
        bytes.extend([0; 40]);
        assert_eq!(alike(&bytes, &[0; 12]), Ok((20, [0; 5])));
        assert_eq!(alike(&[0; 8], &bytes), Ok((20, [0; 5])));
    }
}

/// Rows of items a byte wider, as a report of mixed streams has them: by their
/// length alone they are 20, but where their number is 0, 4 or 5 more than a
/// multiple of nine, and even then mostly (D119).
#[test]
fn wider_rows() {
    let mut random = Random::new(24);
    for items in 1..2000_usize {
        let mut bytes = (items as u32).to_be_bytes().to_vec();
        for index in 0..items {
            bytes.extend((4 * index as u32).to_be_bytes());
            bytes.extend([0, 0, 0, 4, 0, 0]);
        }
        let (refusals, rest) = (random.below(items), random.below(2));
        bytes.extend((refusals as u32).to_be_bytes());
        bytes.extend(random.bytes(9 * refusals));
        bytes.extend((rest as u32).to_be_bytes());
        bytes.extend(random.bytes(5 * rest));
        let (number, _) = alike(&[0; 8], &bytes).unwrap();
        assert!(number == 20 || matches!(items % 9, 0 | 4 | 5), "{items}");
    }
}

/// 1,215 items a byte wider with 889 refusals behind them, number 1,093 an
/// accepted group of 4 characters, are a report of 01 with 1,024 refusals: no
/// rule of 02 tells them apart (D119).
#[test]
fn wider_rows_that_are_a_report() {
    let mut bytes = 1215_u32.to_be_bytes().to_vec();
    for index in 0..1215_u32 {
        bytes.extend((4 * index).to_be_bytes());
        bytes.extend([0, 0, 0, 4, 0, 0]);
    }
    bytes.extend(889_u32.to_be_bytes());
    bytes.extend([0; 9 * 889]);
    bytes.extend([0; 4]);
    let (number, counts) = alike(&[0; 8], &bytes).unwrap();
    assert_eq!((number, counts), (0, [0, 0, 0, 1215, 1]));
}
