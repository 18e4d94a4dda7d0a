//! Comparison of the baseline with the oracle on one stream: reports in three
//! rooms and both conversions, fast and plain.
#![allow(dead_code)]

use oracle::Form as Judge;
use streams::form::FORMS;
use streams::{shrink, Form};

/// A call of either program: the bytes of the lent buffer afterwards, and the
/// length written or the number and place.
type Answer = (Vec<u8>, Result<usize, (u8, usize)>);

fn forms(form: Form) -> (baseline::Form, Judge) {
    match form {
        Form::Text => (baseline::Form::Text, Judge::Text),
        Form::Binary => (baseline::Form::Binary, Judge::Binary),
    }
}

/// Calls with a buffer of `room` bytes that are not zero.
fn lent<R>(
    room: usize,
    call: impl FnOnce(&mut [u8]) -> Result<usize, R>,
    plain: impl Fn(R) -> (u8, usize),
) -> Answer {
    let mut out = vec![0xA5; room];
    let answer = call(&mut out).map_err(plain);
    (out, answer)
}

fn ours(room: usize, call: impl FnOnce(&mut [u8]) -> Result<usize, baseline::Refusal>) -> Answer {
    lent(room, call, |refused| (refused.number, refused.place))
}

fn theirs(room: usize, call: impl FnOnce(&mut [u8]) -> Result<usize, oracle::Refusal>) -> Answer {
    lent(room, call, |refused| (refused.number, refused.place))
}

/// Do the two programs answer alike in every call on this stream?
pub fn alike(stream: &[u8], form: Form) -> bool {
    same_reports(stream, form) && same_conversions(stream)
}

fn same_reports(stream: &[u8], form: Form) -> bool {
    let (own, judge) = forms(form);
    let Ok(expected) = oracle::report::report(stream, judge) else {
        return baseline::report(stream, own) == Err(REFUSED_1);
    };
    let room = expected.room();
    let same_room = |room| {
        let found = ours(room, |out| baseline::write_report(stream, own, out));
        found == theirs(room, |out| oracle::report::write_report(stream, judge, out))
    };
    baseline::report(stream, own) == Ok(expected.bytes())
        && [room, room - 1, room + 23].into_iter().all(same_room)
}

const REFUSED_1: baseline::Refusal = baseline::Refusal {
    number: 1,
    place: 0,
};

fn same_conversions(stream: &[u8]) -> bool {
    let bytes = stream.len() / 4 * 3;
    let text = stream.len() / 3 * 4;
    let to_binary = |room| {
        let expected = theirs(room, |out| oracle::convert::to_binary(stream, out));
        expected == ours(room, |out| baseline::to_binary(stream, out))
            && expected == ours(room, |out| baseline::plain_to_binary(stream, out))
    };
    let to_text = |room| {
        let expected = theirs(room, |out| oracle::convert::to_text(stream, out));
        expected == ours(room, |out| baseline::to_text(stream, out))
            && expected == ours(room, |out| baseline::plain_to_text(stream, out))
    };
    let rooms = |size: usize| [size, size.saturating_sub(1), size + 9];
    rooms(bytes).into_iter().all(to_binary) && rooms(text).into_iter().all(to_text)
}

/// Asserts it, with the smallest stream that shows a difference.
pub fn assert_alike(stream: &[u8], form: Form, what: &str) {
    if alike(stream, form) {
        return;
    }
    let small = shrink(stream, form, |s| !alike(s, form));
    let (own, judge) = forms(form);
    panic!(
        "{what}: {form:?} {:?}\n{:02X?}\nbaseline {:02X?}\noracle {:02X?}",
        String::from_utf8_lossy(&small),
        small,
        baseline::report(&small, own),
        oracle::report::report(&small, judge).map(|r| r.bytes()),
    );
}

/// Asserts it for a text of whole units in both forms.
pub fn assert_alike_in_both(text: &[u8], what: &str) {
    for form in FORMS {
        assert_alike(&form.of_text(text), form, what);
    }
}
