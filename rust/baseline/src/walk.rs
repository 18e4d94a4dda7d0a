//! The walk through all depths, in instalments. The ends of the open groups
//! are a stack on the heap; nobody else has the state, so it always fits.

use crate::alphabet::{self, first_stranger};
use crate::codes::Class;
use crate::judge::{frame, frame_indexed, indexed, primitive, Frame, Unit, MOST_GROUPS};
use crate::{Form, Refusal, BINARY_LIMIT, TEXT_LIMIT};

/// Why an instalment is over.
#[derive(Clone, Copy, Debug, PartialEq, Eq)]
pub enum Pause {
    Spent,
    End,
    Refused(Refusal),
}

/// Where a walk stands: ends and position in units. In text no character in
/// front of `known` is outside the alphabet.
#[derive(Clone, Debug, Default, PartialEq, Eq)]
pub struct Walk {
    ends: Vec<usize>,
    at: usize,
    first: bool,
    /// Is the innermost open group one of indexed items?
    indexed: bool,
    known: usize,
}

/// Characters that are looked at ahead, at least.
const AHEAD: usize = 4096;

impl Walk {
    /// At most so many items further on in the same stream: how many, and why
    /// no more.
    pub fn walk_on(&mut self, stream: &[u8], form: Form, budget: usize) -> (usize, Pause) {
        match form {
            Form::Text if stream.len() > TEXT_LIMIT => (0, Pause::Refused(Refusal::new(1, 0))),
            Form::Binary if stream.len() > BINARY_LIMIT => (0, Pause::Refused(Refusal::new(1, 0))),
            Form::Text => {
                let (units, tail) = stream.as_chunks::<4>();
                self.take(units, tail.is_empty(), budget)
            }
            Form::Binary => {
                let (units, tail) = stream.as_chunks::<3>();
                self.take(units, tail.is_empty(), budget)
            }
        }
    }

    fn take<U: Checked>(&mut self, units: &[U], whole: bool, budget: usize) -> (usize, Pause) {
        for items in 0..budget {
            if self.at == units.len() {
                if whole {
                    return (items, Pause::End);
                }
                return (items, Pause::Refused(Refusal::new(4, self.at * U::SIZE)));
            }
            match self.next(units) {
                Ok(item) => self.pass(&item),
                Err(refusal) => return (items, Pause::Refused(refusal)),
            }
        }
        (budget, Pause::Spent)
    }

    /// Frames and judges the next item; of a group the framing,
    /// 11 and 18.
    #[inline(always)]
    fn next<U: Checked>(&mut self, units: &[U]) -> Result<Frame, Refusal> {
        let end = self.ends.last().copied().unwrap_or(units.len());
        let left = &units[self.at..end];
        let start = self.at * U::SIZE;
        let bad = self.stranger(units, self.at + left.len().min(2));
        let clean = bad.map_or(usize::MAX, |bad| bad.place / U::SIZE - self.at);
        let framed = match self.indexed {
            true => frame_indexed::<U, true>(left, clean),
            false => frame::<U, true>(left, clean),
        };
        let item = framed.map_err(|number| match (number, bad) {
            (5, Some(bad)) => bad,
            _ => Refusal::new(number, start),
        })?;
        let ruled = self.ends.is_empty() || self.first;
        if item.class == Class::OtherGenus && ruled {
            return Err(Refusal::new(7, start));
        }
        let group = item.class >= Class::Group && item.class <= Class::NotShortGroup;
        if group && self.ends.len() >= MOST_GROUPS {
            return Err(Refusal::new(11, start));
        }
        if item.class == Class::NotShortGroup {
            return Err(Refusal::new(18, start));
        }
        if item.class.opens() || item.class == Class::Indexed {
            return Ok(item);
        }
        if let Some(bad) = self.stranger(units, self.at + item.size) {
            return Err(bad);
        }
        match self.judged(&left[..item.size], &item) {
            0 => Ok(item),
            number => Err(Refusal::new(number, start)),
        }
    }

    /// By the table of its group.
    #[inline(always)]
    fn judged<U: Checked>(&self, whole: &[U], item: &Frame) -> u8 {
        match self.indexed {
            true => indexed(whole, item),
            false => primitive(whole, item),
        }
    }

    /// The first character outside the alphabet in front of a unit, as 5 or 19;
    /// all before the walk's place are inside.
    #[inline(always)]
    fn stranger<U: Checked>(&mut self, units: &[U], end: usize) -> Option<Refusal> {
        let text = U::characters(units)?;
        let end = end * U::SIZE;
        if self.known >= end {
            return None;
        }
        let to = text.len().min(end.max(self.known + AHEAD));
        self.known = first_stranger(&text[..to], self.known).unwrap_or(to);
        (self.known < end).then(|| Refusal::new(alphabet::number(text[self.known]), self.known))
    }

    /// Into a group, past anything else; groups that end
    /// there close.
    #[inline(always)]
    fn pass(&mut self, item: &Frame) {
        self.first = item.class == Class::Override && item.size > item.header;
        if item.class.opens() || item.class == Class::Indexed {
            self.ends.push(self.at + item.size);
            self.at += item.header;
            self.indexed = item.class == Class::Indexed;
        } else {
            self.at += item.size;
        }
        while self.ends.last() == Some(&self.at) {
            self.ends.pop();
            self.indexed = false;
        }
    }
}

/// Units and, in text, their characters.
trait Checked: Unit {
    fn characters(units: &[Self]) -> Option<&[u8]>;
}

impl Checked for [u8; 4] {
    #[inline(always)]
    fn characters(units: &[Self]) -> Option<&[u8]> {
        Some(units.as_flattened())
    }
}

impl Checked for [u8; 3] {
    #[inline(always)]
    fn characters(_: &[Self]) -> Option<&[u8]> {
        None
    }
}
