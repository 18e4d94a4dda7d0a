//! What stands at the place of a refusal: the item that is refused, the groups
//! that it stands within, and how much it asks for where that is more than is
//! left.
//!
//! For display only, and by the library's answers alone: the walk says where it
//! stopped and which groups are open there, and how much an item asks for is
//! the size that the library gives it with enough behind its header.

use crate::words::measured;
use cesr::{
    item_at, read_indexed, to_text, Code, Form, Head, IndexedCode, Number, Refusal, Step, Walk,
    STATE_INDEXED, STATE_OPEN, STATE_POSITION,
};

/// Characters behind a header that are enough for an item: a fixed one, a small
/// one, a large one.
const ENOUGH: [usize; 3] = [256, 16_388, 4_194_304];

/// Where a walk through a part of a stream stopped.
#[derive(Debug)]
pub struct Inner {
    form: Form,
    /// The groups that are open there, outermost first.
    pub groups: Vec<Step>,
    /// Where the refused item starts.
    pub at: usize,
    /// Its code, if it has one of the registry.
    pub head: Option<Head>,
    /// What asks: the first two units, as far as they are there.
    start: Vec<u8>,
    /// What is left for it, in its group or in the stream.
    left: usize,
}

impl Inner {
    /// `part` is an item that is refused, or the remainder; it starts at
    /// `start`, and so do the places that are told.
    pub fn of(form: Form, part: &[u8], start: usize) -> Inner {
        let mut walk = Walk::new(form, part);
        let mut groups: Vec<Step> = Vec::new();
        for step in walk.by_ref().map_while(Result::ok) {
            groups.retain(|group| end_of(group) > step.offset);
            if step.head.code().is_group() {
                groups.push(step);
            }
        }
        let at = position(form, &walk);
        groups.retain(|group| end_of(group) > at);
        let end = groups.last().map_or(part.len(), end_of);
        let here = part.get(at..end).unwrap_or_default();
        for group in &mut groups {
            group.offset = group.offset.saturating_add(start);
        }
        let head = match is_indexed(&walk) {
            true => Head::of_indexed(form, here),
            false => Head::of(form, here),
        };
        let inner = Inner::new(form, head, here, at.saturating_add(start));
        Inner { groups, ..inner }
    }

    /// An indexed item that starts what is left of its group.
    pub fn indexed(form: Form, left: &[u8], start: usize) -> Inner {
        Inner::new(form, Head::of_indexed(form, left), left, start)
    }

    fn new(form: Form, head: Option<Head>, left: &[u8], at: usize) -> Inner {
        let start = left.iter().take(form.unit().saturating_mul(2));
        Inner {
            form,
            groups: Vec::new(),
            at,
            head,
            start: start.copied().collect(),
            left: left.len(),
        }
    }

    /// For 4: how much is asked for, and how much is left.
    pub fn asked(&self, refusal: Refusal) -> Option<String> {
        let left = measured(self.form, self.left);
        let are = if self.left == 1 { "is" } else { "are" };
        let asked = match (refusal.number == Number::PastEnd, self.size()) {
            (false, _) => return None,
            (true, Some(size)) => measured(self.form, size),
            (true, None) => "more".to_string(),
        };
        Some(format!("asks for {asked}, {left} {are} left"))
    }

    /// The size that it asks for: of its header where that is not all there.
    pub fn size(&self) -> Option<usize> {
        let unit = self.form.unit();
        let Some(head) = self.head else {
            return (self.left < unit).then_some(unit);
        };
        if let Code::Indexed(code) = head.code() {
            return self.indexed_size(code);
        }
        let units: usize = match head.code() {
            Code::Large { .. } | Code::LargeGroup { .. } | Code::GenusVersion => 2,
            _ => 1,
        };
        let length = units.saturating_mul(unit);
        let Some(header) = self.start.get(..length) else {
            return Some(length);
        };
        let header = match (self.form, head.code()) {
            // Its size is its code's: what stands behind that may be wrong too.
            (_, Code::Fixed { .. }) => head.to_string().into_bytes(),
            (Form::Text, _) => header.to_vec(),
            (Form::Binary, _) => to_text(header).ok()?,
        };
        let units = size_in_text(&header)?.checked_div(Form::Text.unit())?;
        Some(units.saturating_mul(unit))
    }

    /// An indexed item's size is its code's, and zeros behind that are right.
    fn indexed_size(&self, code: IndexedCode) -> Option<usize> {
        let mut whole = code.to_string().into_bytes();
        whole.resize(256, b'A');
        let size = read_indexed(Form::Text, &whole, 0).ok()?.size;
        let units = size.checked_div(Form::Text.unit())?;
        Some(units.saturating_mul(self.form.unit()))
    }
}

/// Does a walk stand within a group of indexed items?
pub fn is_indexed(walk: &Walk) -> bool {
    walk.state().numbers().get(STATE_INDEXED) == Some(&1)
}

/// The end of the innermost group that a walk has open.
pub fn innermost(form: Form, walk: &Walk) -> Option<usize> {
    let state = walk.state();
    let open = state.numbers().get(STATE_OPEN)?.checked_sub(1)?;
    let units = state.numbers().get(open)?;
    Some(units.saturating_mul(form.unit()))
}

/// Where a walk stands: behind what it yielded, before what it refused.
pub fn position(form: Form, walk: &Walk) -> usize {
    let units = walk.state().numbers().get(STATE_POSITION).copied();
    units.unwrap_or(0).saturating_mul(form.unit())
}

pub fn end_of(group: &Step) -> usize {
    group.offset.saturating_add(group.size)
}

/// What may stand behind a header: the prepad of a tag is `_`, a text starts
/// with another character than the `A` that fill it up, and zeros are right
/// everywhere else.
const FRONTS: [&[u8]; 4] = [b"A", b"_", b"AA_", b"AAA_"];

/// What the library says to an item of this header with enough behind it.
fn size_in_text(header: &[u8]) -> Option<usize> {
    let size = |length: usize, front: &[u8]| {
        let mut whole = [header, front].concat();
        whole.resize(length, b'A');
        item_at(Form::Text, &whole, 0).ok().map(|step| step.size)
    };
    let mut tried = ENOUGH
        .iter()
        .flat_map(|length| FRONTS.map(|front| (*length, front)));
    tried.find_map(|(length, front)| size(length, front))
}

#[cfg(test)]
mod tests {
    use super::*;

    fn asked(form: Form, part: &[u8]) -> Option<String> {
        let refusal = Walk::new(form, part).find_map(Result::err)?;
        Inner::of(form, part, 100).asked(refusal)
    }

    /// 01's sizes: `0A` 24, a small group 4 + 4n, a large one 8 + 4n, `0J` 4,
    /// `1AAN` 12, and headers of two units.
    #[test]
    fn how_much_is_asked_and_left() {
        for (part, said) in [
            (
                &b"-AAB0AAA"[..],
                "asks for 24 characters, 4 characters are left",
            ),
            (b"-SARMAAB", "asks for 72 characters, 8 characters are left"),
            (
                b"--AAABAA",
                "asks for 16392 characters, 8 characters are left",
            ),
            (b"--AA", "asks for 8 characters, 4 characters are left"),
            (b"1AANAAA", "asks for 12 characters, 7 characters are left"),
            (b"0K", "asks for 4 characters, 2 characters are left"),
            (b"0LAA", "asks for 8 characters, 4 characters are left"),
            (b"E!!!", "asks for 4 characters, 3 characters are left"),
            (
                b"4B__AAAA",
                "asks for 16384 characters, 8 characters are left",
            ),
            (b"7AAB____", "asks for more, 8 characters are left"),
            (b"MAAB\n", "asks for 4 characters, 1 character is left"),
            // By the indexed table: 88 and 92.
            (b"-KABAAAA", "asks for 88 characters, 4 characters are left"),
            (b"-KAB2DAA", "asks for 92 characters, 4 characters are left"),
        ] {
            let told = asked(Form::Text, part);
            let stranger = part.contains(&b'!');
            assert_eq!(
                told.as_deref(),
                (!stranger).then_some(said),
                "{}",
                part.escape_ascii()
            );
        }
        let cut = cesr::to_binary(b"-SARMAAB").expect("whole units");
        let said = "asks for 54 bytes, 6 bytes are left";
        assert_eq!(asked(Form::Binary, &cut).as_deref(), Some(said));
        assert_eq!(asked(Form::Text, b"MQAA"), None);
    }

    /// A text, which is none with zeros for its value: 4 + 4n, 8 + 4n.
    #[test]
    fn how_much_a_text_asks() {
        for (part, size, left) in [
            (&b"4AABA"[..], 8, 5),
            (b"5AAC", 12, 4),
            (b"6AABAAA", 8, 7),
            (b"9AAAABAA", 16_392, 8),
        ] {
            let said = format!("asks for {size} characters, {left} characters are left");
            assert_eq!(asked(Form::Text, part), Some(said));
        }
    }

    /// The item at the place, and the groups that are open there.
    #[test]
    fn in_which_groups_an_item_stands() {
        let inner = Inner::of(Form::Text, b"-AAE-BABMAAB-CABMQAA", 100);
        let groups: Vec<_> = inner
            .groups
            .iter()
            .map(|group| (group.offset, group.size))
            .collect();
        assert_eq!((groups, inner.at), (vec![(100, 20), (112, 8)], 116));
        assert_eq!(
            inner.head.and_then(|head| head.name()),
            Some("Short number 2-byte b2")
        );
        // 5 has the character's place; the item starts before it.
        let inner = Inner::of(Form::Text, b"-AAC0HAAAA!A", 0);
        assert_eq!((inner.at, inner.groups.len()), (4, 1));
        // A group that is closed is left out, also an empty one and one that ends with its outer one.
        let inner = Inner::of(Form::Text, b"-AAC-AAA-AAAMQAA", 0);
        assert_eq!((inner.at, inner.groups.len()), (12, 0));
    }
}
