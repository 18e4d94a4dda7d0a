//! The second engine: beside the oracle on every room and working room, and
//! beside the first engine, whose answer and report it must give.

use crate::judges::{self, by_proved, lent, rooms, same, Check};
use streams::Form;

pub fn alike(stream: &[u8], form: Form) -> Check {
    let room = judges::report_room(stream, form);
    match form {
        Form::Text => text(stream, room),
        Form::Binary => binary(stream, room),
    }?;
    by_both_engines(stream, form, room)
}

fn text(stream: &[u8], room: usize) -> Check {
    lent(
        "second",
        room,
        |out| by_proved(proved::second_text(stream, out)),
        |out| by_proved(beside::second_text(stream, out)),
    )
}

/// Binaries up to this length have each room with each working room, longer ones
/// those that are just enough and one less.
const SHORT: usize = 10_000;

/// Both rooms held AA before.
fn binary(stream: &[u8], room: usize) -> Check {
    let tried = |asked: usize| {
        let near = move |room: &usize| stream.len() < SHORT || room.abs_diff(asked) < 2;
        rooms(asked).filter(near)
    };
    for lent in tried(stream.len() / 3 * 4) {
        for room in tried(room) {
            let (mut work, mut out) = (vec![0xAA; lent], vec![0xAA; room]);
            let (mut told_work, mut told_out) = (work.clone(), out.clone());
            let answer = proved::second_binary(stream, &mut work, &mut out);
            let told = beside::second_binary(stream, &mut told_work, &mut told_out);
            same(
                "second",
                (by_proved(answer), out, work),
                (by_proved(told), told_out, told_work),
            )
            .map_err(|why| format!("working room {lent}, room {room}, {why}"))?;
        }
    }
    Ok(())
}

/// Given enough working room; with no oracle between.
fn by_both_engines(stream: &[u8], form: Form, room: usize) -> Check {
    let mut work = vec![0xAA; stream.len() / 3 * 4];
    for room in rooms(room) {
        let (mut first, mut second) = (vec![0xAA; room], vec![0xAA; room]);
        let answers = match form {
            Form::Text => (
                proved::report_text(stream, &mut first),
                proved::second_text(stream, &mut second),
            ),
            Form::Binary => (
                proved::report_binary(stream, &mut first),
                proved::second_binary(stream, &mut work, &mut second),
            ),
        };
        if (answers.0, &first) != (answers.1, &second) {
            let shown = format!(
                "room {room}, engines:\n first {:02X?} {first:02X?}\n second {:02X?} {second:02X?}",
                answers.0, answers.1
            );
            return Err(shown.chars().take(2000).collect());
        }
    }
    Ok(())
}
