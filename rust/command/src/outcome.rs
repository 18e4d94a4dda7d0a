//! A stream judged: what came of it.

use crate::engine::Engine;
use crate::expected::Case;
use crate::input::{self, Input};
use crate::judged::Judged;
use crate::kind::{Kind, Told};
use crate::manifest::Entry;
use crate::name::Name;
use crate::standing::Standing;
use crate::terminal::Progress;
use crate::words;
use cesr::{Head, ItemForm, MixedItem, Refusal};
use std::io;

/// A stream's name and what came of it.
#[derive(Debug)]
pub struct Outcome {
    pub name: Name,
    pub engine: Engine,
    pub found: Found,
}

#[derive(Debug)]
pub enum Found {
    Judged(Input, Judged),
    /// The library refused the call.
    Refused(Input, Refusal),
    /// In words, why nothing was judged, or why no verdict is believed.
    Unread(String),
}

impl Outcome {
    pub fn of(case: Case, form: Option<Kind>, engine: Engine, progress: &mut Progress) -> Outcome {
        let (name, found) = match case {
            Case::Trouble(name, why) => (name, Found::Unread(why)),
            Case::Stream(source, listed) => {
                let asked = form.or(listed.as_ref().map(|entry| entry.form));
                let input = input::read(&source, asked, progress);
                let found = input.and_then(|input| as_listed(input, listed.as_ref()));
                let judged = |input| judged(input, engine);
                (source.name(), found.map_or_else(Found::Unread, judged))
            }
        };
        Outcome {
            name,
            engine,
            found,
        }
    }

    /// Passed asks for a byte, and for every byte to lie in an accepted item.
    pub fn standing(&self) -> Standing {
        match &self.found {
            Found::Judged(input, _) if input.bytes.is_empty() => Standing::Empty,
            Found::Judged(input, report) if report.accepts_all(input.bytes.len()) => {
                Standing::Passed
            }
            Found::Judged(..) => Standing::Failed,
            Found::Refused(..) | Found::Unread(_) => Standing::Error,
        }
    }

    /// What to say on standard error, where nothing was judged or believed.
    pub fn complaint(&self) -> Option<String> {
        match &self.found {
            Found::Judged(input, _) if input.bytes.is_empty() => {
                Some("the stream is empty: nothing was judged".to_string())
            }
            Found::Judged(..) => None,
            Found::Refused(_, refusal) => Some(refusal.to_string()),
            Found::Unread(why) => Some(why.clone()),
        }
    }
}

/// The stream, if it is the one that is listed. One past the limit was not
/// read to its end: that is the library's to refuse.
fn as_listed(input: Input, listed: Option<&Entry>) -> Result<Input, String> {
    let Some(entry) = listed.filter(|_| input.bytes.len() <= input.form.limit()) else {
        return Ok(input);
    };
    if entry.form != input.form {
        let (asked, listed) = (input.form, entry.form);
        return Err(format!(
            "other than listed: {asked} is asked for, {listed} is listed"
        ));
    }
    match entry.differs(&input.bytes) {
        Some(why) => Err(why),
        None => Ok(input),
    }
}

/// The stream judged, with memory that is asked for.
pub fn judged(input: Input, engine: Engine) -> Found {
    let answer = engine.answer(input.form, &input.bytes);
    found(input, answer)
}

/// What comes of a stream by the answer to it, or by why there is none.
pub fn found(input: Input, answer: Result<Result<Judged, Refusal>, String>) -> Found {
    match answer {
        Ok(Ok(report)) => Found::Judged(input, report),
        Ok(Err(refusal)) => Found::Refused(input, refusal),
        Err(why) => Found::Unread(why),
    }
}

pub fn no_memory(error: &io::Error) -> String {
    format!("{}: nothing was judged", words::of_error(error))
}

/// The characters and the name of the code at the head of a framed item; of a
/// JSON item its protocol, and what is to be said of it.
pub fn code_and_name(item: &MixedItem, stream: &[u8]) -> (String, String) {
    let ItemForm::Cesr(form) = item.form else {
        let head = item.json(stream);
        return head.map_or_else(Default::default, |head| {
            let said = format!("version {}, its body not judged", head.version());
            (head.protocol().to_string(), said)
        });
    };
    match Head::of(form, item.of(stream)) {
        Some(head) => {
            let name = head.name().unwrap_or_default();
            (head.to_string(), name.to_string())
        }
        None => Default::default(),
    }
}
