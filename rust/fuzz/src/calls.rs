//! One input before both: the proved library with its buffers at the fence,
//! the oracle with ordinary ones.

use crate::fence::{Edge, Fence, LONGEST};
use crate::input::{Call, Front, Made, Room, LONG, LONG_UNITS};
use crate::{long, pieces};
use proved::{
    Indexed, Info, Pause, Primitive, Refusal, State, Tag, INDEXED, INFO, INFO_TEXT, STATE,
};
use std::cell::RefCell;
use streams::Form;

/// What buffers hold before a call.
pub const HELD: u8 = 0xAA;
pub const NUMBER: usize = 0xAAAA;

/// Fences for the stream, the buffer, the working room, the tag, and the
/// numbers.
pub struct Memory {
    pub edge: Edge,
    pub stream: Fence,
    pub out: Fence,
    pub work: Fence,
    tag: Fence,
    pub state: Fence,
    numbers: Fence,
}

thread_local! {
    static MEMORY: RefCell<Memory> = RefCell::new(Memory {
        edge: Edge::End,
        stream: Fence::new(),
        out: Fence::new(),
        work: Fence::new(),
        tag: Fence::new(),
        state: Fence::new(),
        numbers: Fence::new(),
    });
}

/// Tries one input; a difference is a panic.
pub fn one(input: &[u8]) {
    MEMORY.with_borrow_mut(|memory| {
        let mut front = Front(&input[..input.len().min(LONGEST / 8)]);
        let made = Made {
            of_verdicts: front.0.first().is_some_and(|byte| byte & 1 == 1),
            of_stream: front.0.first().is_some_and(|byte| byte & 2 == 2),
        };
        let (call, form, edge, too_long) = front.choice();
        memory.edge = edge;
        let long = front.0.first() == Some(&LONG);
        let room = front.room();
        if too_long {
            return long::one(call, form, room, front);
        }
        match call {
            Call::Write => write(memory, form, room, front),
            Call::Read => {
                let at = front.number();
                let stream = front.stream(form, long);
                read(memory, form, room, &stream, at);
                read_indexed(memory, form, room, &stream, at);
            }
            Call::WalkFrom => {
                let state = front.state();
                let stream = &front.stream(form, long);
                walk(memory, form, stream, state, 20);
                if !long {
                    slices(memory, form, stream, state, room.budget());
                }
            }
            Call::Compare => compare(memory, form, front, made),
            Call::Group => {
                let (letter, stated) = (front.byte(), front.number());
                group(
                    memory,
                    form,
                    room,
                    letter,
                    stated,
                    &front.stream(form, long),
                );
            }
            Call::Second => {
                let work = front.room();
                second(memory, form, [work, room], &front.stream(form, long));
            }
            Call::Mixed => mixed(memory, room, &front.stream(form, long)),
            Call::Pieces => {
                let cut = front.cut(room);
                pieces::fed(memory, form, &cut, &front.stream(form, long));
            }
            _ => stream(memory, call, form, room, &front.stream(form, long)),
        }
    });
}

/// The calls that take nothing but a stream. A walk that steps on over a long
/// one takes all the time and meets nothing new.
fn stream(memory: &mut Memory, call: Call, form: Form, room: Room, stream: &[u8]) {
    let long = stream.len() >= LONG_UNITS * form.unit();
    let steps = if long { 20 } else { usize::MAX };
    match call {
        Call::Report => {
            report(memory, form, room, stream);
            second(memory, form, [Room::Exact, room], stream);
        }
        Call::Convert => convert(memory, form, room, stream),
        Call::ReadItems => {
            for at in walk(memory, form, stream, [0; STATE], steps.min(40)) {
                read(memory, form, room, stream, at);
                read_indexed(memory, form, room, stream, at);
            }
        }
        Call::Walk => {
            let items = walk(memory, form, stream, [0; STATE], steps).len();
            if !long {
                let taken = slices(memory, form, stream, [0; STATE], room.budget());
                assert!(taken == items || room.budget() == 0);
            }
        }
        _ => {
            report(memory, form, room, stream);
            second(memory, form, [Room::Exact, room], stream);
            mixed(memory, room, stream);
            convert(memory, form, room, stream);
            walk(memory, form, stream, [0; STATE], steps);
        }
    }
}

/// A copy of the stream at the fence.
fn placed<'a>(fence: &'a mut Fence, edge: Edge, stream: &[u8]) -> &'a [u8] {
    let copy = fence.lend(edge, stream.len(), 0);
    copy.copy_from_slice(stream);
    copy
}

/// A call with a stream and a buffer.
type Lent = fn(&[u8], &mut [u8]) -> Result<usize, Refusal>;

/// Both on the same room; the stream stays as it was.
fn lent(memory: &mut Memory, stream: &[u8], room: usize, [proved, oracle]: [Lent; 2]) {
    let source = placed(&mut memory.stream, memory.edge, stream);
    let ours = memory.out.lend(memory.edge, room, HELD);
    let mut theirs = vec![HELD; room];
    assert_eq!(proved(source, ours), oracle(stream, &mut theirs));
    assert_eq!(ours, theirs);
    assert_eq!(source, stream);
}

/// The room asked is 17 + 18 x items.
fn report(memory: &mut Memory, form: Form, room: Room, stream: &[u8]) {
    let calls: [Lent; 2] = match form {
        Form::Text => [proved::report_text, beside::report_text],
        Form::Binary => [proved::report_binary, beside::report_binary],
    };
    let asked = report_room(stream, calls[1]);
    lent(memory, stream, room.of(asked), calls);
}

fn report_room(stream: &[u8], report: Lent) -> usize {
    let mut long = vec![0; 17 + 18 * stream.len()];
    let items = match report(stream, &mut long) {
        Ok(_) => u32::from_be_bytes([long[0], long[1], long[2], long[3]]),
        Err(_) => 0,
    };
    17 + 18 * items as usize
}

/// The room asked is 17 + 19 x items.
fn mixed(memory: &mut Memory, room: Room, stream: &[u8]) {
    let mut long = vec![0; 17 + 19 * (stream.len() / 3)];
    let items = match beside::report_mixed(stream, &mut long) {
        Ok(_) => u32::from_be_bytes([long[0], long[1], long[2], long[3]]),
        Err(_) => 0,
    };
    let calls = [proved::report_mixed, beside::report_mixed];
    lent(memory, stream, room.of(17 + 19 * items as usize), calls);
}

/// The working room asked is 4 characters for each whole triplet; the first engine
/// says the same of it with enough.
fn second(memory: &mut Memory, form: Form, [work, room]: [Room; 2], stream: &[u8]) {
    if form == Form::Text {
        let room = room.of(report_room(stream, beside::report_text));
        lent(
            memory,
            stream,
            room,
            [proved::second_text, beside::second_text],
        );
        return lent(
            memory,
            stream,
            room,
            [proved::second_text, proved::report_text],
        );
    }
    let room = room.of(report_room(stream, beside::report_binary));
    let asked = stream.len() / 3 * 4;
    let edge = memory.edge;
    let source = placed(&mut memory.stream, edge, stream);
    let work = memory.work.lend(edge, work.of(asked), HELD);
    let ours = memory.out.lend(edge, room, HELD);
    let (mut told_work, mut told) = (vec![HELD; work.len()], vec![HELD; room]);
    let answer = proved::second_binary(source, work, ours);
    assert_eq!(
        answer,
        beside::second_binary(stream, &mut told_work, &mut told)
    );
    assert_eq!((&*ours, &*work), (&told[..], &told_work[..]));
    assert_eq!(source, stream);
    if work.len() >= asked {
        told.fill(HELD);
        assert_eq!(answer, proved::report_binary(stream, &mut told));
        assert_eq!(ours, told);
    }
}

fn convert(memory: &mut Memory, form: Form, room: Room, stream: &[u8]) {
    let size = stream.len();
    let (asked, calls): (usize, [Lent; 2]) = match form {
        Form::Text => (size / 4 * 3, [proved::to_binary, beside::to_binary]),
        Form::Binary => (size / 3 * 4, [proved::to_text, beside::to_text]),
    };
    lent(memory, stream, room.of(asked), calls);
}

type Read = fn(&[u8], usize, &mut [u8], &mut Tag, &mut Info) -> Result<usize, Refusal>;

/// The room asked is the value's length; of a binary a text's alone.
fn read(memory: &mut Memory, form: Form, room: Room, stream: &[u8], at: usize) {
    let [proved, oracle]: [Read; 2] = match form {
        Form::Text => [proved::read_text, beside::read_text],
        Form::Binary => [proved::read_binary, beside::read_binary],
    };
    let edge = memory.edge;
    let source = placed(&mut memory.stream, edge, stream);
    let tag: &mut Tag = memory.tag.lend(edge, 11, HELD).try_into().unwrap();
    let info = memory.numbers.numbers(edge, [NUMBER; INFO]);
    let (mut told_tag, mut told_info) = ([HELD; 11], [0; INFO]);
    let mut long = vec![0; stream.len() / form.unit() * 4];
    let length = oracle(stream, at, &mut long, &mut told_tag, &mut told_info);
    let asked = match form {
        Form::Text => length.unwrap_or(0),
        Form::Binary => told_info[INFO_TEXT],
    };
    (told_tag, told_info) = ([HELD; 11], [NUMBER; INFO]);
    let room = room.of(asked);
    let out = memory.out.lend(edge, room, HELD);
    let mut told_out = vec![HELD; room];
    let ours = proved(source, at, out, tag, info);
    let told = oracle(stream, at, &mut told_out, &mut told_tag, &mut told_info);
    assert_eq!(ours, told);
    assert_eq!(out, told_out);
    assert_eq!((&*tag, &*info), (&told_tag, &told_info));
    assert_eq!(source, stream);
}

/// The room asked is the raw value's length; of a binary none is asked.
fn read_indexed(memory: &mut Memory, form: Form, room: Room, stream: &[u8], at: usize) {
    let edge = memory.edge;
    let source = placed(&mut memory.stream, edge, stream);
    let info = memory.numbers.numbers(edge, [NUMBER; INDEXED]);
    let mut told_info = [NUMBER; INDEXED];
    if form == Form::Binary {
        let ours = proved::read_indexed_binary(source, at, info);
        assert_eq!(
            ours,
            beside::read_indexed_binary(stream, at, &mut told_info)
        );
    } else {
        let asked = beside::read_indexed_text(stream, at, &mut [0; 114], &mut told_info);
        told_info = [NUMBER; INDEXED];
        let room = room.of(asked.unwrap_or(0));
        let out = memory.out.lend(edge, room, HELD);
        let mut told_out = vec![HELD; room];
        let ours = proved::read_indexed_text(source, at, out, info);
        let told = beside::read_indexed_text(stream, at, &mut told_out, &mut told_info);
        assert_eq!(ours, told);
        assert_eq!(out, told_out);
    }
    assert_eq!(*info, told_info);
    assert_eq!(source, stream);
}

/// An indexed item of a primitive's bytes: low numbers choose a selector, and
/// the tag is index and ondex.
pub fn indexed_item<'r>(code: (u8, u8), tag: Tag, raw: &'r [u8]) -> Indexed<'r> {
    let selector = match code.0 {
        low @ ..=63 => [0, b'0', b'2', b'3'][usize::from(low % 4)],
        other => other,
    };
    let number = |from: usize| {
        let bytes = [tag[from], tag[from + 1], tag[from + 2], tag[from + 3]];
        (u32::from_be_bytes(bytes) >> (8 * (tag[10] & 3))) as usize
    };
    let has_ondex = !tag[9].is_multiple_of(2);
    Indexed {
        selector,
        letter: code.1,
        index: number(0),
        ondex: if has_ondex { number(4) } else { 0 },
        raw,
    }
}

/// A raw value over and over, with a length that some code has, or its own.
pub fn indexed_raw(tag: Tag, raw: &[u8]) -> Vec<u8> {
    let length = [64, 114, raw.len().min(200)][usize::from(tag[8] % 3)];
    let some: &[u8] = if raw.is_empty() { &[0] } else { raw };
    some.iter().copied().cycle().take(length).collect()
}

fn write_indexed(
    memory: &mut Memory,
    form: Form,
    room: Room,
    code: (u8, u8),
    tag: Tag,
    raw: &[u8],
) {
    let raw = indexed_raw(tag, raw);
    let item = |raw| indexed_item(code, tag, raw);
    let [proved, oracle] = match form {
        Form::Text => [proved::write_indexed_text, beside::write_indexed_text],
        Form::Binary => [proved::write_indexed_binary, beside::write_indexed_binary],
    };
    let asked = oracle(&item(&raw), &mut [0; 160]).unwrap_or(0);
    let room = room.of(asked);
    let placed = placed(&mut memory.stream, memory.edge, &raw);
    let ours = memory.out.lend(memory.edge, room, HELD);
    let mut theirs = vec![HELD; room];
    let answer = proved(&item(placed), ours);
    assert_eq!(answer, oracle(&item(&raw), &mut theirs));
    assert_eq!(ours, theirs);
    assert_eq!(placed, raw);
}

fn write(memory: &mut Memory, form: Form, room: Room, mut front: Front) {
    let (chars, letter, tags, tag) = front.primitive();
    let raw = front.raw();
    write_indexed(memory, form, room, (chars, letter), tag, &raw);
    let [proved, oracle] = match form {
        Form::Text => [proved::write_text, beside::write_text],
        Form::Binary => [proved::write_binary, beside::write_binary],
    };
    let item = |raw| Primitive {
        chars,
        letter,
        tag,
        tags,
        raw,
    };
    let mut long = vec![0; 2 * raw.len() + 40];
    let asked = oracle(&item(&raw), &mut long).unwrap_or(0);
    let room = room.of(asked);
    let placed = placed(&mut memory.stream, memory.edge, &raw);
    let ours = memory.out.lend(memory.edge, room, HELD);
    let mut theirs = vec![HELD; room];
    let answers = (
        proved(&item(placed), ours),
        oracle(&item(&raw), &mut theirs),
    );
    assert_eq!(answers.0, answers.1);
    assert_eq!(ours, theirs);
    assert_eq!(placed, raw);
}

/// The room asked is that of header and body; without it what fits of the body.
/// A stated length of 0 is the body's own.
fn group(memory: &mut Memory, form: Form, room: Room, letter: u8, stated: usize, body: &[u8]) {
    let [proved, oracle] = match form {
        Form::Text => [proved::group_text, beside::group_text],
        Form::Binary => [proved::group_binary, beside::group_binary],
    };
    let length = if stated == 0 { body.len() } else { stated };
    let mut theirs = [body, &[HELD; 8]].concat();
    let asked = oracle(letter, body.len(), &mut theirs).unwrap_or(theirs.len());
    theirs = body.to_vec();
    theirs.resize(room.of(asked), HELD);
    let ours = memory.out.lend(memory.edge, theirs.len(), HELD);
    ours.copy_from_slice(&theirs);
    let answer = proved(letter, length, ours);
    assert_eq!(answer, oracle(letter, length, &mut theirs));
    assert_eq!(ours, theirs);
}

/// A file with a report: both as bytes, or made of verdicts and of a stream.
fn compare(memory: &mut Memory, form: Form, mut front: Front, made: Made) {
    let expected = front.expected(made);
    let report = match made.of_stream {
        true => reported(form, front.0),
        false => front.0.to_vec(),
    };
    let edge = memory.edge;
    let file = placed(&mut memory.stream, edge, &expected);
    let told = placed(&mut memory.out, edge, &report);
    let counts = memory.numbers.numbers(edge, [NUMBER; 5]);
    let mut others = [NUMBER; 5];
    assert_eq!(
        proved::compare(file, told, counts),
        beside::compare(&expected, &report, &mut others)
    );
    assert_eq!(*counts, others);
    assert_eq!(proved::passed(told), beside::passed(&report));
    assert_eq!((file, told), (&expected[..], &report[..]));
}

/// The oracle's report of a stream.
fn reported(form: Form, stream: &[u8]) -> Vec<u8> {
    let mut out = vec![0; 17 + 18 * stream.len()];
    let length = match form {
        Form::Text => beside::report_text(stream, &mut out),
        Form::Binary => beside::report_binary(stream, &mut out),
    };
    out.truncate(length.unwrap_or(0));
    out
}

/// Steps of both until one yields nothing; the offsets come back.
fn walk(memory: &mut Memory, form: Form, stream: &[u8], from: State, most: usize) -> Vec<usize> {
    let [proved, oracle] = match form {
        Form::Text => [proved::walk_text, beside::walk_text],
        Form::Binary => [proved::walk_binary, beside::walk_binary],
    };
    let source = placed(&mut memory.stream, memory.edge, stream);
    let state = memory.state.numbers(memory.edge, from);
    let mut told_state = from;
    let mut offsets = Vec::new();
    while offsets.len() < most {
        let item = memory.numbers.numbers(memory.edge, [NUMBER; 6]);
        let mut told_item = [NUMBER; 6];
        let ours = proved(source, state, item);
        let told = oracle(stream, &mut told_state, &mut told_item);
        assert_eq!(ours, told);
        assert_eq!((&*state, &*item), (&told_state, &told_item));
        if ours != Ok(true) {
            break;
        }
        offsets.push(item[0]);
    }
    assert_eq!(source, stream);
    offsets
}

/// Instalments of both until one is over for another reason than its budget,
/// or takes nothing; how many items were taken.
fn slices(memory: &mut Memory, form: Form, stream: &[u8], from: State, budget: usize) -> usize {
    let [proved, oracle] = match form {
        Form::Text => [proved::walk_on_text, beside::walk_on_text],
        Form::Binary => [proved::walk_on_binary, beside::walk_on_binary],
    };
    let source = placed(&mut memory.stream, memory.edge, stream);
    let state = memory.state.numbers(memory.edge, from);
    let (mut told_state, mut items) = (from, 0);
    loop {
        let ours = proved(source, state, budget);
        let told = oracle(stream, &mut told_state, budget);
        assert_eq!((ours, &*state), (told, &told_state));
        items += ours.items;
        if ours.pause != Pause::Spent || budget == 0 {
            break;
        }
    }
    assert_eq!(source, stream);
    items
}
