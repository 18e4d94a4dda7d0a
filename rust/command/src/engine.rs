//! `--engine`: which of the library's two engines judges. By both, a stream has
//! an answer only where they give the same. A mixed stream is the first one's.

use crate::judged::Judged;
use crate::kind::Kind;
use crate::memory;
use crate::outcome::no_memory;
use cesr::{difference, Form, MixedReport, Refusal, Report};

#[derive(Clone, Copy, Debug, Default, PartialEq, Eq)]
pub enum Engine {
    #[default]
    First,
    /// The plain one.
    Second,
    Both,
}

/// What an engine says of a text or a binary.
type Answer = Result<Report<'static>, Refusal>;

/// Why no other engine judges a mixed stream.
pub const FIRST_ALONE: &str = "a mixed stream is judged by the first engine alone";

impl Engine {
    pub fn named(name: &str) -> Option<Engine> {
        match name {
            "first" => Some(Engine::First),
            "second" => Some(Engine::Second),
            "both" => Some(Engine::Both),
            _ => None,
        }
    }

    /// The option's word. Outputs tell it where it is not the first: what they
    /// say without is by that one.
    pub fn word(self) -> Option<&'static str> {
        match self {
            Engine::First => None,
            Engine::Second => Some("second"),
            Engine::Both => Some("both"),
        }
    }

    /// The same for people.
    pub fn in_words(self) -> Option<&'static str> {
        match self {
            Engine::First => None,
            Engine::Second => Some("by the second engine"),
            Engine::Both => Some("by both engines"),
        }
    }

    /// The answer to a stream; in words, why there is none.
    pub fn answer(self, kind: Kind, stream: &[u8]) -> Result<Result<Judged, Refusal>, String> {
        let answer = match (kind, self) {
            (Kind::Cesr(form), _) => {
                let answer = self.of_form(form, stream)?;
                answer.map(|report| Judged::Cesr(form, report))
            }
            (Kind::Mixed, Engine::First) => {
                let room = room(MixedReport::room(stream.len()))?;
                cesr::judge_mixed_with(stream, room).map(Judged::Mixed)
            }
            (Kind::Mixed, _) => return Err(format!("{FIRST_ALONE}: nothing was judged")),
        };
        Ok(answer)
    }

    fn of_form(self, form: Form, stream: &[u8]) -> Result<Answer, String> {
        match self {
            Engine::First => first(form, stream),
            Engine::Second => second(form, stream),
            Engine::Both => agreed(first(form, stream)?, second(form, stream)?),
        }
    }
}

fn first(form: Form, stream: &[u8]) -> Result<Answer, String> {
    let room = room(Report::room(form, stream.len()))?;
    Ok(cesr::judge_with(form, stream, room))
}

fn second(form: Form, stream: &[u8]) -> Result<Answer, String> {
    let mut work = room(cesr::working_room(form, stream.len()))?;
    let room = room(Report::room(form, stream.len()))?;
    Ok(cesr::judge_second_with(form, stream, &mut work, room))
}

fn room(length: usize) -> Result<Vec<u8>, String> {
    memory::zeros(length).map_err(|error| no_memory(&error))
}

/// The answer of both. That they are the same is proved; if it is not so, neither
/// is believed.
fn agreed(first: Answer, second: Answer) -> Result<Answer, String> {
    match difference(&first, &second) {
        None => Ok(first),
        Some(found) => Err(format!(
            "the two engines differ, and nothing is passed: {found}"
        )),
    }
}

#[cfg(test)]
mod tests {
    use super::*;
    use crate::input::Input;
    use crate::name::Name;
    use crate::outcome::{self, Found, Outcome};
    use crate::standing::Standing;
    use cesr::Number;

    fn judged(stream: &str) -> Answer {
        cesr::judge(Form::Text, stream.as_bytes())
    }

    /// What comes of `MAAB`, were this what the engines say of it.
    fn outcome(first: Answer, second: Answer) -> Outcome {
        let input = Input {
            bytes: b"MAAB".to_vec(),
            form: Kind::Cesr(Form::Text),
            detected: false,
        };
        Outcome {
            name: Name::StandardInput,
            engine: Engine::Both,
            found: outcome::found(input, formed(agreed(first, second))),
        }
    }

    /// As a text's.
    fn formed(agreed: Result<Answer, String>) -> Result<Result<Judged, Refusal>, String> {
        agreed.map(|answer| answer.map(|report| Judged::Cesr(Form::Text, report)))
    }

    #[test]
    fn engines_that_agree_are_one() {
        let told = outcome(judged("MAAB"), judged("MAAB"));
        assert_eq!(told.standing(), Standing::Passed);
        let refusal = Refusal {
            number: Number::TooLong,
            place: 0,
        };
        let told = outcome(Err(refusal), Err(refusal));
        assert!(matches!(told.found, Found::Refused(..)));
    }

    /// In a row, in a length, in a number: by whichever engine it would pass.
    #[test]
    fn engines_that_differ_pass_nothing() {
        let refusal = Refusal {
            number: Number::Room,
            place: 0,
        };
        for (other, said) in [
            (judged("1AAKMAAB"), "21 bytes, the second's 30"),
            (judged("5BAA"), "21 bytes, the second's 30"),
            (
                judged("0HD_____"),
                "byte 11 of the reports, of item 0, is 4",
            ),
            (Err(refusal), "a report, the second 3 at 0"),
        ] {
            let told = outcome(judged("MAAB"), other.clone());
            assert_eq!(told.standing(), Standing::Error);
            let why = told.complaint().expect("a complaint");
            assert!(why.starts_with("the two engines differ"), "{why}");
            assert!(why.contains(said), "{why}");
            let turned = outcome(other, judged("MAAB"));
            assert_eq!(turned.standing(), Standing::Error);
        }
    }

    #[test]
    fn every_engine_answers_the_same() {
        for stream in ["", "MAAB", "MQAA", "-AAB0AAAMAAB", "MAABMA!!"] {
            for form in [Form::Text, Form::Binary] {
                let answer = |engine: Engine| engine.of_form(form, stream.as_bytes());
                let first = answer(Engine::First);
                assert_eq!(answer(Engine::Second), first);
                assert_eq!(answer(Engine::Both), first);
            }
        }
    }

    #[test]
    fn a_mixed_stream_is_the_first_engines() {
        let answer = |engine: Engine| engine.answer(Kind::Mixed, b"-AABMAAB");
        assert!(matches!(answer(Engine::First), Ok(Ok(Judged::Mixed(_)))));
        for engine in [Engine::Second, Engine::Both] {
            let why = answer(engine).expect_err("no answer");
            assert!(why.starts_with(FIRST_ALONE), "{why}");
        }
    }
}
