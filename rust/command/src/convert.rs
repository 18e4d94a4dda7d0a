//! `cesr convert`: a whole stream in the other form. It looks at no codes and
//! is no verdict.

use crate::arguments::Convert;
use crate::input::{self, Input};
use crate::name::shown;
use crate::standing::Standing;
use crate::terminal::Progress;
use crate::{complain, excerpt, memory, readable, replace, words};
use cesr::{Form, Refusal};
use std::io::{self, IsTerminal, Write};
use std::path::Path;

/// Passed where all of the stream was converted and written.
pub fn run(task: &Convert, out: &mut dyn Write) -> io::Result<Standing> {
    let name = task.source.name();
    let from = task.to.map(Form::other);
    let input = match input::read(&task.source, from, &mut Progress::told()) {
        Ok(input) => input,
        Err(why) => return failed(&format!("{name}: {why}")),
    };
    if input.bytes.is_empty() {
        complain(&format!(
            "{name}: the stream is empty: nothing was converted"
        ));
        return Ok(Standing::Empty);
    }
    if input.detected {
        complain(&format!("{name}: {}", input.form_in_words()));
    }
    if task.to == Some(Form::Text) && Form::told_from(&input.bytes) == Form::Text {
        complain(&format!("{name}: looks like text, is converted as binary"));
    }
    // Text is longer than binary by a third.
    let mut room = match memory::zeros(input.bytes.len().saturating_mul(2)) {
        Ok(room) => room,
        Err(error) => return failed(&format!("{name}: {}", words::of_error(&error))),
    };
    let answer = match input.form {
        Form::Text => cesr::to_binary_into(&input.bytes, &mut room),
        Form::Binary => cesr::to_text_into(&input.bytes, &mut room),
    };
    match answer {
        Err(refusal) => {
            let is_placed = refusal.number.is_of_a_character();
            let said = explained(&input, refusal, is_placed, None);
            failed(&format!("{name}: {said}"))
        }
        Ok(length) => {
            let converted = room.get(..length).unwrap_or_default();
            written(out, input.form.other(), task.out.as_deref(), converted)
        }
    }
}

/// What was made of this form, to a file or standard output.
pub fn written(
    out: &mut dyn Write,
    form: Form,
    path: Option<&Path>,
    bytes: &[u8],
) -> io::Result<Standing> {
    match path {
        Some(path) => to_file(path, bytes),
        None if form == Form::Binary && io::stdout().is_terminal() => {
            failed("binary is not for a terminal: give --out FILE, or send it to a pipe")
        }
        None => out.write_all(bytes).map(|()| Standing::Passed),
    }
}

pub fn failed(message: &str) -> io::Result<Standing> {
    complain(message);
    Ok(Standing::Error)
}

pub fn to_file(path: &Path, bytes: &[u8]) -> io::Result<Standing> {
    match replace::with(path, bytes) {
        Ok(()) => Ok(Standing::Passed),
        Err(error) => {
            let name = shown(path.as_os_str());
            failed(&format!("{name}: {}", words::of_error(&error)))
        }
    }
}

/// The refusal; where it has a place in the stream, with the bytes there, and
/// what is to be told of it or seen from them. What makes units not whole is
/// looked for at the end.
pub fn explained(
    input: &Input<Form>,
    refusal: Refusal,
    is_placed: bool,
    told: Option<String>,
) -> String {
    let mut text = refusal.to_string();
    let mut place = input.bytes.len().saturating_sub(1);
    if is_placed {
        place = refusal.place;
        let lines = excerpt::at(input.form, &input.bytes, 0..0, place);
        text.push('\n');
        text.push_str(lines.unwrap_or_default().trim_end());
    }
    let number = refusal.number;
    let seen = || readable::note(input.form, &input.bytes, Refusal { number, place });
    let note = told.or_else(seen);
    if let Some(note) = note {
        text.push_str(&format!("\n        {note}"));
    }
    text.push_str(&format!(
        "\n        usually {}",
        crate::hint::usually(refusal.number)
    ));
    text
}
