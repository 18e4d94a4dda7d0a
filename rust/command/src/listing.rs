//! `cesr manifest`: a line for each file, all of them or none. It looks at no
//! codes and is no verdict.

use crate::arguments::Manifest;
use crate::complain;
use crate::input::{self, Input};
use crate::kind::Told;
use crate::manifest::Entry;
use crate::standing::Standing;
use crate::terminal::Progress;
use crate::words::counted;
use cesr::{Number, Refusal};
use std::ffi::OsStr;
use std::io::{self, Write};

/// Passed where every file could be read and its line was written.
pub fn run(task: &Manifest, out: &mut dyn Write) -> io::Result<Standing> {
    let (mut lines, mut detected, mut standing) = (Vec::new(), 0_usize, Standing::Passed);
    for source in &task.sources {
        let name = source.name();
        let read = input::read(source, task.form, &mut Progress::told());
        match read.and_then(|input| listed(input, name.file())) {
            Ok((line, guessed)) => {
                lines.extend(line);
                detected = detected.saturating_add(usize::from(guessed));
            }
            Err(why) => {
                complain(&format!("{name}: {why}"));
                standing = Standing::Error;
            }
        }
    }
    if standing == Standing::Passed {
        out.write_all(&lines)?;
        if detected > 0 {
            let streams = counted(detected, "stream");
            complain(&format!(
                "the form of {streams} was detected from the first bytes"
            ));
        }
    }
    Ok(standing)
}

/// A stream's line, and whether its form was guessed.
fn listed(input: Input, name: &OsStr) -> Result<(Vec<u8>, bool), String> {
    if input.bytes.len() > input.form.limit() {
        let (number, place) = (Number::TooLong, 0);
        return Err(Refusal { number, place }.to_string());
    }
    let entry = Entry::new(&input.bytes, input.form, name);
    Ok((entry.line(), input.detected))
}
