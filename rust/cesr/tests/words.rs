//! The numbers are those of the one list, and their words too. What C has of
//! them is held against the same list by `tests/c/run.sh`.

use cesr::Number;

const LIST: &str = include_str!("../../../include/numbers.txt");
const HEADER: &str = include_str!("../../../include/cesr.h");

fn rows() -> Vec<(u8, &'static str, &'static str)> {
    let row = |line: &'static str| {
        let (number, rest) = line.split_once(' ')?;
        let (name, words) = rest.split_once(' ')?;
        Some((number.parse().ok()?, name, words))
    };
    LIST.lines().filter_map(row).collect()
}

#[test]
fn numbers_and_words_are_those_of_the_list() {
    assert!(rows().len() >= 17);
    let told: Vec<_> = Number::all().map(|one| (one.get(), one.words())).collect();
    let listed: Vec<_> = rows().iter().map(|row| (row.0, row.2)).collect();
    assert_eq!(told, listed);
    for value in 0..=255 {
        let listed = rows().iter().any(|row| row.0 == value);
        assert_eq!(Number::new(value).is_some(), listed, "{value}");
        assert!(Number::new(value).is_none_or(|number| number.get() == value));
    }
}

/// Each by the name that C gives it: `NotShort` is `CESR_NOT_SHORT`.
#[test]
fn the_header_has_every_number_by_its_name() {
    for (number, name, _) in rows() {
        let line = format!("CESR_{name} = {number},");
        assert!(HEADER.contains(&line), "{line}");
        let variant = format!("{:?}", Number::new(number).expect("a number"));
        assert_eq!(variant.to_uppercase(), name.replace('_', ""));
    }
}

/// One version: that of the crate, the header and the module for Python.
#[test]
fn the_header_has_the_version() {
    let line = format!("#define CESR_VERSION \"{}\"\n", cesr::VERSION);
    assert!(HEADER.contains(&line), "{line}");
    let module = include_str!("../../../python/cesr.py");
    assert!(module.contains(&format!("__version__ = \"{}\"\n", cesr::VERSION)));
}
