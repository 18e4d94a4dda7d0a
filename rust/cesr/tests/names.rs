//! The names are data for display; the library says which codes there are.
//! Each code that it knows has a name, and no other has. The names themselves
//! are compared with the second program's, typed in from 003 on its own.

use cesr::{write, Code, Form, Head, Number, Walk};

/// The library refuses an unknown code with 6 before it looks at anything
/// else.
fn is_written(code: Code) -> bool {
    write(Form::Text, code, b"", b"").map_err(|refusal| refusal.number) != Err(Number::UnknownCode)
}

/// An empty group of this letter is an item, and a large one is refused for
/// being that alone, or the code is unknown.
fn is_walked(header: &[u8]) -> bool {
    match Walk::new(Form::Text, header).next() {
        Some(Err(refusal)) => refusal.number == Number::NotShort,
        step => step.is_some(),
    }
}

#[test]
fn a_primitive_has_a_name_exactly_if_the_library_writes_it() {
    let mut known = 0;
    for letter in 0..=255 {
        for code in [
            Code::fixed(0, letter),
            Code::fixed(1, letter),
            Code::fixed(2, letter),
            Code::fixed(3, letter),
            Code::fixed(4, letter),
            Code::small(letter),
            Code::large(letter),
        ] {
            assert_eq!(code.name().is_some(), is_written(code), "{code:?}");
            known += usize::from(code.name().is_some());
        }
    }
    assert_eq!(known, 58 + 7 + 7);
}

/// A fixed code of another length is no other kind of code.
#[test]
fn a_fixed_code_of_another_length_is_unknown() {
    for chars in (0..=255).filter(|chars| ![1, 2, 4].contains(chars)) {
        assert!((0..=255).all(|letter| !is_written(Code::fixed(chars, letter))));
        assert!((0..=255).all(|letter| Code::fixed(chars, letter) == Code::Unknown));
    }
}

/// Of all heads that can be made no two are spelt alike, and what is read from
/// the spelling is the code again: one code has one name.
#[test]
fn no_two_heads_are_spelt_alike() {
    let mut spelt = std::collections::BTreeMap::new();
    for letter in b'!'..=b'~' {
        for code in [
            Code::fixed(1, letter),
            Code::fixed(2, letter),
            Code::fixed(4, letter),
            Code::small(letter),
            Code::large(letter),
            Code::SmallGroup { letter },
            Code::LargeGroup { letter },
            Code::GenusVersion,
        ] {
            for head in (0..=255).filter_map(|lead| Head::new(code, lead)) {
                let other = spelt.insert(head.to_string(), head);
                // `-_` is a genus/version, and no group has its letter.
                let taken = head.to_string() == "-_";
                assert!(other.is_none_or(|other| other == head || taken), "{head}");
                if let Ok(parsed) = head.to_string().parse::<Code>() {
                    assert_eq!(parsed, code, "{head}");
                }
            }
        }
    }
    assert!(Head::new(Code::small(b'B'), 3).is_none());
    assert!(Head::new(Code::GenusVersion, 1).is_none());
}

#[test]
fn a_group_has_a_name_exactly_if_the_library_walks_it() {
    let mut known = 0;
    for letter in 0..=255 {
        let small = [b'-', letter, b'A', b'A'];
        let large = [b'-', b'-', letter, b'A', b'A', b'A', b'A', b'A'];
        // `--` and `-_` open other codes.
        if letter != b'-' && letter != b'_' {
            let code = Code::SmallGroup { letter };
            assert_eq!(code.name().is_some(), is_walked(&small), "{code:?}");
        }
        let code = Code::LargeGroup { letter };
        assert_eq!(code.name().is_some(), is_walked(&large), "{code:?}");
        known += usize::from(code.name().is_some());
    }
    assert_eq!(known, 29);
    assert!(is_walked(b"-_AAACAA") && Code::GenusVersion.name().is_some());
}

#[test]
fn names_are_those_that_the_second_program_has() {
    use oracle::registry::{FIXED, GENUS_NAME, GROUPS, INDEXED, VARIABLE};
    for row in INDEXED {
        let code: cesr::IndexedCode = row.code.parse().expect("an indexed code");
        assert_eq!(code.name(), Some(row.name));
        assert_eq!(code.to_string(), row.code);
    }
    for row in FIXED {
        let code: Code = row.code.parse().expect("a fixed code");
        assert_eq!(code.name(), Some(row.name));
    }
    for (letter, name) in VARIABLE {
        assert_eq!(Code::small(letter).name(), Some(name));
        assert_eq!(Code::large(letter).name(), Some(name));
    }
    for (letter, name) in GROUPS {
        assert_eq!(Code::SmallGroup { letter }.name(), Some(name));
        assert_eq!(Code::LargeGroup { letter }.name(), Some(name));
    }
    assert_eq!(Code::GenusVersion.name(), Some(GENUS_NAME));
}

/// The library writes an indexed code exactly where it has a name.
#[test]
fn indexed_codes_are_those_that_the_library_writes() {
    let mut known = 0;
    for selector in 0..=255 {
        for letter in 0..=255 {
            let selector = (selector > 0).then_some(selector);
            let code = cesr::IndexedCode::new(selector, letter);
            let written = [64, 114]
                .map(|length| cesr::write_indexed(Form::Text, code, 0, 0, &vec![0; length]));
            let unknown = |answer: &Result<Vec<u8>, cesr::Refusal>| matches!(answer, Err(refusal) if refusal.number == Number::UnknownCode);
            let some = written.iter().filter(|answer| answer.is_ok()).count();
            assert_eq!(
                code.name().is_none(),
                written.iter().all(unknown),
                "{code:?}"
            );
            assert_eq!(some, usize::from(code.name().is_some()), "{code:?}");
            known += some;
            if let Some(Ok(item)) = written.into_iter().find(Result::is_ok) {
                let head = Head::of_indexed(Form::Text, &item).expect("an indexed code");
                assert_eq!(head.code(), Code::Indexed(code));
            }
        }
    }
    assert_eq!(known, 12);
}

/// Every first unit over a part of the alphabet: a head is found exactly where
/// the library doesn't say 6, and it is the one that the library yields.
#[test]
fn heads_are_found_exactly_where_the_library_knows_the_code() {
    let characters = b"ABGHJKLPSZabcz0123456789-_";
    for first in characters {
        for second in characters {
            for third in characters {
                for fourth in characters {
                    one_head([*first, *second, *third, *fourth]);
                }
            }
        }
    }
}

fn one_head(unit: [u8; 4]) {
    let mut item = unit.to_vec();
    item.resize(160, b'A');
    let head = Head::of(Form::Text, &item);
    let step = Walk::new(Form::Text, &item).next().expect("not the end");
    let shown = String::from_utf8_lossy(&unit).into_owned();
    match step {
        Ok(step) => assert_eq!(head, Some(step.head), "{shown}"),
        Err(refusal) => {
            let unknown = refusal.number == Number::UnknownCode && refusal.place == 0;
            assert_eq!(head.is_none(), unknown, "{shown}");
        }
    }
    if let Some(head) = head {
        assert!(item.starts_with(head.to_string().as_bytes()), "{shown}");
        let binary = cesr::to_binary(&unit).expect("a unit of the alphabet");
        assert_eq!(Head::of(Form::Binary, &binary), Some(head));
    }
}
