//! `cesr group`: a group around the items of a stream, which are judged as its
//! contents.

use crate::arguments::Group;
use crate::convert::{explained, failed, written};
use crate::input::{self, Input};
use crate::standing::Standing;
use crate::terminal::Progress;
use crate::words::measured;
use crate::{complain, memory, words};
use cesr::{Code, Form, Number, Refusal};
use std::io::{self, Write};

/// Room for the largest header of either form.
const HEADER: usize = 8;

/// Passed where the group was written.
pub fn run(task: &Group, out: &mut dyn Write) -> io::Result<Standing> {
    let name = task.source.name();
    let mut input = match input::read(&task.source, Some(task.form), &mut Progress::told()) {
        Ok(input) => input,
        Err(why) => return failed(&format!("{name}: {why}")),
    };
    let length = input.bytes.len();
    if let Err(error) = memory::more(&mut input.bytes, HEADER) {
        return failed(&format!("{name}: {}", words::of_error(&error)));
    }
    match cesr::write_group_into(task.form, task.letter, length, &mut input.bytes) {
        Ok(size) => {
            if length == 0 {
                complain(&format!("{name}: the stream is empty, and so is the group"));
            }
            input.bytes.truncate(size);
            written(out, task.form, task.out.as_deref(), &input.bytes)
        }
        Err(refusal) => {
            input.bytes.truncate(length);
            failed(&format!("{name}: {}", refused(task, &input, refusal)))
        }
    }
}

/// The refusal, with the bytes where it is of the body's items.
fn refused(task: &Group, input: &Input<Form>, refusal: Refusal) -> String {
    let letter = task.letter;
    let shown = letter.escape_ascii();
    let is_known = Code::SmallGroup { letter }.name().is_some();
    let told = match refusal.number {
        Number::TooLong => {
            let most = measured(task.form, task.form.limit());
            Some(format!("header and body together pass {most}"))
        }
        Number::UnknownCode if !is_known => Some(format!("no group has the letter {shown}")),
        Number::UnknownCode if matches!(letter, b'K' | b'L') => Some(format!(
            "a group -{shown} holds indexed items and nothing else"
        )),
        _ => None,
    };
    let own = matches!(refusal.number, Number::TooLong | Number::NotWholeUnits);
    explained(input, refusal, is_known && !own, told)
}
