//! What a stream is judged as: a text, a binary, or a mixed one, which changes
//! form at top level. Mixed is a kind of report and no form: nothing is read,
//! written or converted as mixed.

use cesr::{Form, MixedReport};
use std::fmt;
use std::str::FromStr;

#[derive(Clone, Copy, Debug, PartialEq, Eq)]
pub enum Kind {
    Cesr(Form),
    Mixed,
}

impl Kind {
    /// What offsets, sizes and places count.
    pub fn measure(self) -> &'static str {
        match self {
            Kind::Cesr(form) => form.measure(),
            Kind::Mixed => "byte",
        }
    }
}

impl From<Form> for Kind {
    fn from(form: Form) -> Kind {
        Kind::Cesr(form)
    }
}

impl fmt::Display for Kind {
    fn fmt(&self, f: &mut fmt::Formatter<'_>) -> fmt::Result {
        match self {
            Kind::Cesr(form) => form.fmt(f),
            Kind::Mixed => f.write_str("mixed"),
        }
    }
}

impl FromStr for Kind {
    type Err = &'static str;

    fn from_str(name: &str) -> Result<Kind, &'static str> {
        match (name, name.parse()) {
            ("mixed", _) => Ok(Kind::Mixed),
            (_, Ok(form)) => Ok(Kind::Cesr(form)),
            (_, Err(_)) => Err("a form is text, binary or mixed"),
        }
    }
}

/// What a stream's first bytes tell, and how long it may be.
pub trait Told: Copy + fmt::Display {
    fn told_from(first: &[u8]) -> Self;
    fn limit(self) -> usize;
}

impl Told for Form {
    fn told_from(first: &[u8]) -> Form {
        Form::told_from(first)
    }

    fn limit(self) -> usize {
        Form::limit(self)
    }
}

impl Told for Kind {
    fn told_from(first: &[u8]) -> Kind {
        match MixedReport::told_from(first) {
            true => Kind::Mixed,
            false => Kind::Cesr(Form::told_from(first)),
        }
    }

    fn limit(self) -> usize {
        match self {
            Kind::Cesr(form) => form.limit(),
            Kind::Mixed => MixedReport::LIMIT,
        }
    }
}

#[cfg(test)]
mod tests {
    use super::*;

    #[test]
    fn a_brace_tells_a_mixed_stream() {
        for (first, kind) in [
            (&b"{"[..], Kind::Mixed),
            (b"{\"v\":\"KERI10JSON", Kind::Mixed),
            (b" {", Kind::Cesr(Form::Text)),
            (b"-AAA{", Kind::Cesr(Form::Text)),
            (b"\xF8\x00\x00{", Kind::Cesr(Form::Binary)),
            (b"", Kind::Cesr(Form::Text)),
        ] {
            assert_eq!(Kind::told_from(first), kind);
        }
    }

    #[test]
    fn names_there_and_back() {
        for name in ["text", "binary", "mixed"] {
            assert_eq!(
                name.parse::<Kind>().map(|kind| kind.to_string()),
                Ok(name.to_string())
            );
        }
        assert!("Mixed".parse::<Kind>().is_err() && "".parse::<Kind>().is_err());
    }
}
