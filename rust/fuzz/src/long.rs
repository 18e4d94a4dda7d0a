//! Streams one element longer than the limit, and a raw value or text that is
//! one longer than any. They are refused by their length alone, so one lot of zeros does
//! for all, and nothing is copied.

use crate::calls::{HELD, NUMBER};
use crate::input::{Call, Front, Room};
use beside::Fed;
use proved::{Primitive, Refusal, INDEXED, INFO};
use std::sync::OnceLock;
use streams::table::TEXT;
use streams::Form;

static ZEROS: OnceLock<Vec<u8>> = OnceLock::new();

fn zeros(length: usize) -> &'static [u8] {
    &ZEROS.get_or_init(|| vec![0; 4_194_305])[..length]
}

pub fn one(call: Call, form: Form, lent_room: Room, mut front: Front) {
    let room = lent_room.of(20);
    let stream = match form {
        Form::Text => zeros(4_194_305),
        Form::Binary => zeros(3_145_729),
    };
    match call {
        Call::Read | Call::ReadItems => {
            let at = front.number();
            read(form, stream, room, at);
            read_indexed(form, stream, room, at);
        }
        Call::Walk | Call::WalkFrom => walk(form, stream, front, lent_room.budget()),
        Call::Write => write(form, room, front),
        Call::All => {
            group(form, stream, front.byte());
            pieces(form, stream, lent_room == Room::More);
            lent(form, stream, room);
        }
        Call::Report
        | Call::Convert
        | Call::Compare
        | Call::Group
        | Call::Second
        | Call::Mixed
        | Call::Pieces => {
            lent(form, stream, room);
            second(form, stream, room);
            mixed(room);
        }
    }
}

/// All of it in one piece; and, if it is asked for, of a text, in which zeros are a
/// remainder, the last byte by itself.
fn pieces(form: Form, stream: &[u8], is_cut: bool) {
    let (mut state, mut told) = match form {
        Form::Text => (beside::start_text(), Fed::text()),
        Form::Binary => (beside::start_binary(), Fed::binary()),
    };
    let feed = match form {
        Form::Text => proved::feed_text,
        Form::Binary => proved::feed_binary,
    };
    let (front, last) = stream.split_at(stream.len() - 1);
    let rest: &[&[u8]] = match form {
        Form::Text if is_cut => &[front, last, &[]],
        _ => &[],
    };
    for piece in [&[stream, &[]], rest].concat() {
        let answer = feed(&mut state, piece, &mut [], &mut []);
        assert_eq!(answer, told.feed(piece, &mut [], &mut []));
    }
}

/// In a buffer that has room for it, and stated to be one longer than that.
fn group(form: Form, stream: &[u8], letter: u8) {
    let [ours, theirs] = match form {
        Form::Text => [proved::group_text, beside::group_text],
        Form::Binary => [proved::group_binary, beside::group_binary],
    };
    let (mut buffer, mut told) = (stream.to_vec(), stream.to_vec());
    for length in [stream.len(), stream.len() + 1] {
        let answer = ours(letter, length, &mut buffer);
        assert_eq!(answer, theirs(letter, length, &mut told));
        assert_eq!(buffer, told);
    }
}

fn lent(form: Form, stream: &[u8], room: usize) {
    type Lent = fn(&[u8], &mut [u8]) -> Result<usize, Refusal>;
    let calls: [[Lent; 2]; 2] = match form {
        Form::Text => [
            [proved::report_text, beside::report_text],
            [proved::to_binary, beside::to_binary],
        ],
        Form::Binary => [
            [proved::report_binary, beside::report_binary],
            [proved::to_text, beside::to_text],
        ],
    };
    for [ours, theirs] in calls {
        let (mut out, mut told) = (vec![HELD; room], vec![HELD; room]);
        assert_eq!(ours(stream, &mut out), theirs(stream, &mut told));
        assert_eq!(out, told);
    }
}

/// One byte more than a mixed stream may have.
fn mixed(room: usize) {
    let stream = zeros(4_194_305);
    let (mut out, mut told) = (vec![HELD; room], vec![HELD; room]);
    let answer = proved::report_mixed(stream, &mut out);
    assert_eq!(answer, beside::report_mixed(stream, &mut told));
    assert_eq!(out, told);
}

fn second(form: Form, stream: &[u8], room: usize) {
    let (mut out, mut work) = (vec![HELD; room], vec![HELD; room]);
    let (mut told, mut told_work) = (out.clone(), work.clone());
    let answers = match form {
        Form::Text => (
            proved::second_text(stream, &mut out),
            beside::second_text(stream, &mut told),
        ),
        Form::Binary => (
            proved::second_binary(stream, &mut work, &mut out),
            beside::second_binary(stream, &mut told_work, &mut told),
        ),
    };
    assert_eq!(answers.0, answers.1);
    assert_eq!((out, work), (told, told_work));
}

fn read(form: Form, stream: &[u8], room: usize, at: usize) {
    let (mut out, mut tag, mut info) = (vec![HELD; room], [HELD; 11], [NUMBER; INFO]);
    let (mut told_out, mut told_tag, mut told_info) = (out.clone(), tag, info);
    let answers = match form {
        Form::Text => (
            proved::read_text(stream, at, &mut out, &mut tag, &mut info),
            beside::read_text(stream, at, &mut told_out, &mut told_tag, &mut told_info),
        ),
        Form::Binary => (
            proved::read_binary(stream, at, &mut out, &mut tag, &mut info),
            beside::read_binary(stream, at, &mut told_out, &mut told_tag, &mut told_info),
        ),
    };
    assert_eq!(answers.0, answers.1);
    assert_eq!((out, tag, info), (told_out, told_tag, told_info));
}

fn read_indexed(form: Form, stream: &[u8], room: usize, at: usize) {
    let (mut out, mut info) = (vec![HELD; room], [NUMBER; INDEXED]);
    let (mut told_out, mut told_info) = (out.clone(), info);
    let answers = match form {
        Form::Text => (
            proved::read_indexed_text(stream, at, &mut out, &mut info),
            beside::read_indexed_text(stream, at, &mut told_out, &mut told_info),
        ),
        Form::Binary => (
            proved::read_indexed_binary(stream, at, &mut info),
            beside::read_indexed_binary(stream, at, &mut told_info),
        ),
    };
    assert_eq!(answers.0, answers.1);
    assert_eq!((out, info), (told_out, told_info));
}

fn walk(form: Form, stream: &[u8], mut front: Front, budget: usize) {
    let (mut state, mut item) = (front.state(), [NUMBER; 6]);
    let (mut told_state, mut told_item) = (state, item);
    let [ours, theirs] = match form {
        Form::Text => [proved::walk_text, beside::walk_text],
        Form::Binary => [proved::walk_binary, beside::walk_binary],
    };
    let answer = ours(stream, &mut state, &mut item);
    assert_eq!(answer, theirs(stream, &mut told_state, &mut told_item));
    assert_eq!((state, item), (told_state, told_item));
    let [ours, theirs] = match form {
        Form::Text => [proved::walk_on_text, beside::walk_on_text],
        Form::Binary => [proved::walk_on_binary, beside::walk_on_binary],
    };
    let slice = ours(stream, &mut state, budget);
    assert_eq!(slice, theirs(stream, &mut told_state, budget));
    assert_eq!(state, told_state);
}

fn write(form: Form, room: usize, mut front: Front) {
    let (chars, letter, tags, tag) = front.primitive();
    let length = match letter {
        TEXT => 4_194_297,
        _ => 3_145_723,
    };
    let item = Primitive {
        chars,
        letter,
        tag,
        tags,
        raw: zeros(length),
    };
    let [ours, theirs] = match form {
        Form::Text => [proved::write_text, beside::write_text],
        Form::Binary => [proved::write_binary, beside::write_binary],
    };
    let (mut out, mut told) = (vec![HELD; room], vec![HELD; room]);
    assert_eq!(ours(&item, &mut out), theirs(&item, &mut told));
    assert_eq!(out, told);
}
