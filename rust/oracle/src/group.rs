//! 02, letter e: writing groups.
//!
//! "Given a group letter, the form (text or binary) and a lent buffer that
//! holds whole items, put the group header in front and hand back the size;
//! take the small code up to 4,095 units and the large one above. The body lies
//! at the buffer's start. Refusals: 3 first if its stated length passes the
//! buffer's, 1 when header and body together pass the limit, 6, 2 for a body
//! that isn't whole units, then the number and place that a walk of the body as
//! this group's contents gives, places counted from the body's start and 11
//! included, then 3. The places of the writer's own 1, 6, 2 and 3 are 0; a 6
//! from the walk keeps the walk's place."

use crate::alphabet;
use crate::convert::binary_of;
use crate::form::Form;
use crate::refusal::{Refusal, NOT_WHOLE_UNITS, ROOM, TOO_LONG, UNKNOWN_CODE};
use crate::registry::{self, Code, MOST_SMALL_COUNT};
use crate::walk::{step, Found, Walk};

/// Puts the header of a group in front of the `length` characters or bytes at
/// the buffer's start: the group's size. Refused, the buffer stays as it was.
pub fn write(letter: u8, form: Form, length: usize, buffer: &mut [u8]) -> Result<usize, Refusal> {
    let refuse = |number| Err(Refusal::new(number, 0));
    let Some(body) = buffer.get(..length) else {
        return refuse(ROOM);
    };
    // Less than a unit beyond whole ones never decides the code: the limit is
    // far above what the small one counts.
    let units = (length / form.unit()) as u64;
    let large = units > MOST_SMALL_COUNT;
    let code = Code::Group { letter, large };
    let size = code.header_units() * form.unit() + length;
    if size > form.limit() {
        return refuse(TOO_LONG);
    }
    if !registry::is_group_letter(letter) {
        return refuse(UNKNOWN_CODE);
    }
    if !length.is_multiple_of(form.unit()) {
        return refuse(NOT_WHOLE_UNITS);
    }
    check_contents(code, form, body)?;
    let group = [header(code, units, form), body.to_vec()].concat();
    match buffer.get_mut(..group.len()) {
        Some(part) => part.copy_from_slice(&group),
        None => return refuse(ROOM),
    }
    Ok(size)
}

/// The first refusal of a walk that has this one group open, which ends with
/// the body. An empty body has nothing to walk.
fn check_contents(code: Code, form: Form, body: &[u8]) -> Result<(), Refusal> {
    if body.is_empty() {
        return Ok(());
    }
    let mut walk = Walk::start();
    walk.ends[0] = body.len();
    walk.open = 1;
    walk.first = code.is_overrideable();
    walk.indexed = code.holds_indexed();
    loop {
        let (next, found) = step(walk, body, form);
        match found {
            Found::Item { .. } => walk = next,
            Found::End => return Ok(()),
            Found::Refused { number, place } => return Err(Refusal::new(number, place)),
        }
    }
}

/// `-X##` or `--X#####`: the digits of the count, base 64, most significant
/// first.
fn header(code: Code, units: u64, form: Form) -> Vec<u8> {
    let end = code.digits().end;
    let digit = |place: usize| alphabet::character((units >> (6 * (end - 1 - place))) as u8);
    let mut text = code.characters().into_bytes();
    text.extend(code.digits().map(digit));
    match form {
        Form::Text => text,
        Form::Binary => binary_of(&text),
    }
}

#[cfg(test)]
mod tests {
    use super::*;
    use crate::convert::text_of;
    use crate::report::report;

    /// Room behind the body that holds something else.
    const BEHIND: [u8; 12] = *b"............";

    type Outcome = Result<Vec<u8>, (u8, usize)>;

    /// The group in a buffer with just enough room, or number and place. One
    /// less is 3, more stays, and a refused buffer stays.
    fn written(letter: u8, form: Form, body: &[u8]) -> Outcome {
        let before = [body, &BEHIND].concat();
        let mut buffer = before.clone();
        match write(letter, form, body.len(), &mut buffer) {
            Err(refused) => {
                assert_eq!(buffer, before);
                Err((refused.number, refused.place))
            }
            Ok(size) => {
                assert_eq!(buffer[size..], before[size..]);
                let mut exact = before[..size].to_vec();
                assert_eq!(write(letter, form, body.len(), &mut exact), Ok(size));
                assert_eq!(exact, buffer[..size]);
                let mut less = before[..size - 1].to_vec();
                let refused = write(letter, form, body.len(), &mut less);
                assert_eq!(refused, Err(Refusal::new(3, 0)));
                assert_eq!(less, before[..size - 1]);
                Ok(exact)
            }
        }
    }

    fn text(letter: u8, body: &str) -> Result<String, (u8, usize)> {
        let group = written(letter, Form::Text, body.as_bytes())?;
        Ok(String::from_utf8(group).unwrap())
    }

    fn is(told: &str) -> Result<String, (u8, usize)> {
        Ok(told.to_string())
    }

    #[test]
    fn a_header_in_front() {
        assert_eq!(text(b'A', "MAAB"), is("-AABMAAB"));
        assert_eq!(text(b'J', "MAAB1AAM"), is("-JACMAAB1AAM"));
        assert_eq!(text(b'c', "-AABMAAB"), is("-cAC-AABMAAB"));
        // In binary: F8 00 01, 30 00 01.
        let group = written(b'A', Form::Binary, &[0x30, 0x00, 0x01]).unwrap();
        assert_eq!(group, [0xF8, 0x00, 0x01, 0x30, 0x00, 0x01]);
    }

    #[test]
    fn an_empty_body_is_written() {
        for (letter, _) in registry::GROUPS {
            let header = format!("-{}AA", letter as char);
            assert_eq!(text(letter, ""), is(&header));
            let binary = written(letter, Form::Binary, b"").unwrap();
            assert_eq!(text_of(&binary), header.as_bytes());
        }
    }

    #[test]
    fn small_up_to_4095_units_and_large_above() {
        for (units, header) in [
            (1, "-JAB"),
            (64, "-JBA"),
            (4095, "-J__"),
            (4096, "--JAABAA"),
            (4097, "--JAABAB"),
        ] {
            let body = "1AAK".repeat(units);
            assert_eq!(text(b'J', &body), is(&format!("{header}{body}")));
            let binary = binary_of(body.as_bytes());
            let group = written(b'J', Form::Binary, &binary).unwrap();
            assert_eq!(text_of(&group), format!("{header}{body}").into_bytes());
        }
    }

    #[test]
    fn signature_groups_hold_indexed_items() {
        let one = format!("A_{}", "A".repeat(86));
        for letter in ["K", "L"] {
            let first = letter.as_bytes()[0];
            assert_eq!(
                text(first, &one.repeat(2)),
                is(&format!("-{letter}As{one}{one}"))
            );
            // Any other start is 6 at its place, and that of the walk.
            assert_eq!(text(first, "MAAB"), Err((6, 0)));
            assert_eq!(text(first, &format!("{one}MAAB")), Err((6, 88)));
            assert_eq!(text(first, &format!("{one}-AAA")), Err((6, 88)));
            assert_eq!(text(first, &format!("{one}-_AAACAA")), Err((6, 88)));
            assert_eq!(text(first, &one[..84]), Err((4, 0)));
            // Pad bits, and an ondex where there must be none.
            let padded = format!("A_E{}", "A".repeat(85));
            assert_eq!(text(first, &format!("{one}{padded}")), Err((8, 88)));
            let ondex = format!("2BAAAB{}", "A".repeat(86));
            assert_eq!(text(first, &ondex), Err((15, 0)));
        }
        // By the master table the same characters are two seeds.
        let seeds = "A".repeat(88);
        assert_eq!(text(b'J', &seeds), is(&format!("-JAW{seeds}")));
    }

    #[test]
    fn what_the_walk_of_the_body_refuses() {
        for letter in [b'A', b'J', b'Z'] {
            assert_eq!(text(letter, "MAABMQAA"), Err((8, 4)));
            assert_eq!(text(letter, "MAAB_AAA"), Err((6, 4)));
            assert_eq!(text(letter, "MAABMA!A"), Err((5, 6)));
            assert_eq!(text(letter, "MAABMA=A"), Err((19, 6)));
            assert_eq!(text(letter, "MAAB0HAA"), Err((4, 4)));
            assert_eq!(text(letter, "MAAB-AACMAAB"), Err((4, 4)));
            assert_eq!(text(letter, "--AAAAAB1AAK"), Err((18, 0)));
            // Within an inner group, places from the body's start too.
            assert_eq!(text(letter, "MAAB-AABMQAA"), Err((8, 8)));
        }
    }

    #[test]
    fn a_genus_version_first_and_elsewhere() {
        for letter in *b"ABC" {
            assert_eq!(text(letter, "-_AAABAA"), Err((7, 0)));
            let group = format!("-{}AC-_AAACAA", letter as char);
            assert_eq!(text(letter, "-_AAACAA"), is(&group));
            let group = format!("-{}ADMAAB-_AAABAA", letter as char);
            assert_eq!(text(letter, "MAAB-_AAABAA"), is(&group));
        }
        assert_eq!(text(b'D', "-_AAABAA"), is("-DAC-_AAABAA"));
        // First in an inner group.
        assert_eq!(text(b'D', "-AAC-_AAABAA"), Err((7, 4)));
    }

    /// So many groups one in the other.
    fn nested(depth: usize) -> String {
        (0..depth).fold(String::new(), |body, _| {
            text(b'J', &body).expect("a group around groups")
        })
    }

    #[test]
    fn sixty_three_in_a_body_pass_and_sixty_four_are_eleven() {
        for letter in *b"AJ" {
            assert!(text(letter, &nested(62)).is_ok());
            assert!(text(letter, &nested(63)).is_ok());
            // The innermost one stands behind 63 headers.
            assert_eq!(text(letter, &nested(64)), Err((11, 252)));
        }
    }

    #[test]
    fn two_for_a_body_that_is_not_whole_units() {
        for body in ["M", "MA", "MAA", "MAABM", "!!!!!", "-AAC-"] {
            assert_eq!(text(b'A', body), Err((2, 0)));
            // 6 before it.
            assert_eq!(text(b'0', body), Err((6, 0)));
        }
        assert_eq!(written(b'A', Form::Binary, &[0x30, 0]), Err((2, 0)));
    }

    #[test]
    fn six_for_what_is_no_group() {
        let known: Vec<u8> = registry::GROUPS.iter().map(|row| row.0).collect();
        for letter in 0..=255 {
            let answer = text(letter, "");
            assert_eq!(answer.is_ok(), known.contains(&letter), "{letter}");
            if answer.is_err() {
                assert_eq!(answer, Err((6, 0)));
                // Before what the walk finds and before room.
                assert_eq!(text(letter, "!!!!"), Err((6, 0)));
                assert_eq!(
                    write(letter, Form::Text, 0, &mut []),
                    Err(Refusal::new(6, 0))
                );
            }
        }
    }

    #[test]
    fn three_first_and_last() {
        let mut buffer = *b"MAAB";
        for length in [5, 8, usize::MAX] {
            for letter in *b"A0" {
                let refused = write(letter, Form::Text, length, &mut buffer);
                assert_eq!(refused, Err(Refusal::new(3, 0)));
            }
        }
        // Whatever else is wrong comes before the room for the header.
        assert_eq!(
            write(b'A', Form::Text, 4, &mut buffer),
            Err(Refusal::new(3, 0))
        );
        let mut buffer = *b"MAA!";
        assert_eq!(
            write(b'A', Form::Text, 4, &mut buffer),
            Err(Refusal::new(5, 3))
        );
        assert_eq!(
            write(b'A', Form::Text, 3, &mut buffer),
            Err(Refusal::new(2, 0))
        );
        assert_eq!(write(b'A', Form::Text, 0, &mut []), Err(Refusal::new(3, 0)));
    }

    #[test]
    fn one_for_header_and_body_past_the_limit() {
        for form in [Form::Text, Form::Binary] {
            let unit = form.unit();
            let most = form.limit() - 2 * unit;
            let null: &[u8] = match form {
                Form::Text => b"1AAK",
                Form::Binary => &[0xD4, 0x00, 0x0A],
            };
            let mut buffer = null.repeat(form.limit() / unit + 1);
            let before = buffer.clone();
            for length in [most + 1, most + unit, form.limit(), form.limit() + 1] {
                for letter in *b"A0" {
                    let refused = write(letter, form, length, &mut buffer);
                    assert_eq!(refused, Err(Refusal::new(1, 0)), "{length}");
                }
            }
            // 3 before it, and 2 where it would just fit.
            let refused = write(b'A', form, buffer.len() + 1, &mut buffer);
            assert_eq!(refused, Err(Refusal::new(3, 0)));
            let refused = write(b'A', form, most - 1, &mut buffer);
            assert_eq!(refused, Err(Refusal::new(2, 0)));
            assert_eq!(buffer, before);
            assert_eq!(write(b'A', form, most, &mut buffer), Ok(form.limit()));
            assert_eq!(buffer[2 * unit..form.limit()], before[..most]);
            assert_eq!(buffer[form.limit()..], before[form.limit()..]);
        }
    }

    #[test]
    fn read_back_it_is_one_item_and_then_the_body() {
        let one = format!("A_{}", "A".repeat(86));
        let inner = text(b'K', &one.repeat(2)).unwrap();
        let body = ["-_AAACAA", "MAAB", &inner, "-AAA"].concat();
        let group = text(b'C', &body).unwrap();
        let found = report(group.as_bytes(), Form::Text).unwrap();
        assert_eq!((found.items.len(), found.refusals.len()), (1, 0));
        assert!(found.remainder.is_none());
        let items = |stream: &str| {
            let mut told = Vec::new();
            let mut walk = Walk::start();
            while let (
                next,
                Found::Item {
                    offset,
                    size,
                    depth,
                    code,
                },
            ) = step(walk, stream.as_bytes(), Form::Text)
            {
                told.push((offset, size, depth, code.characters()));
                walk = next;
            }
            told
        };
        // As top-level items the body's own start at depth 0.
        let on = items(&body).into_iter();
        let on = on.map(|(offset, size, depth, code)| (offset + 4, size, depth + 1, code));
        let told = items(&group);
        assert_eq!(told[0], (0, group.len(), 0, "-C".to_string()));
        assert!(told[1..].iter().cloned().eq(on), "{told:?}");
    }
}
