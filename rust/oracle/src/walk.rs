//! The walk: items at all depths, outer before inner, one step at a time.

use crate::form::Form;
use crate::frame::{frame_by, require_genus_version, Frame};
use crate::judge::{judge_group_itself, judge_indexed, judge_primitive, MOST_GROUPS};
use crate::refusal::{Refusal, UNFIT_STATE};
use crate::registry::{Code, Table};

/// The walk's state, a value. All numbers are in the stream's own measure.
#[derive(Clone, Copy, Debug, PartialEq, Eq)]
pub struct Walk {
    /// Ends of the open groups, outermost first; unused slots are 0.
    pub ends: [usize; MOST_GROUPS],
    /// How many groups are open.
    pub open: usize,
    pub position: usize,
    /// Is the next item first in an overrideable group?
    pub first: bool,
    /// 02 a: "its state says whether the innermost open group is one" that
    /// holds indexed items.
    pub indexed: bool,
}

/// What a step finds.
#[derive(Clone, Copy, Debug, PartialEq, Eq)]
pub enum Found {
    Item {
        offset: usize,
        size: usize,
        /// The number of groups the item stands within.
        depth: usize,
        code: Code,
    },
    Refused {
        number: u8,
        place: usize,
    },
    End,
}

/// One step: 1, 13, the end, else the next item framed and judged. At a
/// refusal or the end the state stays as it was.
pub fn step(state: Walk, stream: &[u8], form: Form) -> (Walk, Found) {
    match state.next_item(stream, form) {
        Ok(None) => (state, Found::End),
        Ok(Some(framed)) => {
            let item = Found::Item {
                offset: framed.offset,
                size: framed.size,
                depth: state.open,
                code: framed.code,
            };
            (state.behind(&framed), item)
        }
        Err(Refusal { number, place }) => (state, Found::Refused { number, place }),
    }
}

impl Walk {
    /// The state at a stream's start.
    pub fn start() -> Walk {
        Walk {
            ends: [0; MOST_GROUPS],
            open: 0,
            position: 0,
            first: false,
            indexed: false,
        }
    }

    /// 1, then 13.
    pub(crate) fn check(&self, stream: &[u8], form: Form) -> Result<(), Refusal> {
        form.check_length(stream)?;
        if self.fits(stream) {
            return Ok(());
        }
        Err(Refusal::new(UNFIT_STATE, 0))
    }

    /// The next item, framed and judged; nothing at the end.
    fn next_item(&self, stream: &[u8], form: Form) -> Result<Option<Frame>, Refusal> {
        self.check(stream, form)?;
        // A fit position at the stream's end has no group open.
        if self.position == stream.len() {
            return Ok(None);
        }
        let end = self.innermost().unwrap_or(stream.len());
        let table = if self.indexed {
            Table::Indexed
        } else {
            Table::Master
        };
        let framed = frame_by(table, stream, form, self.position, end)?;
        if self.open == 0 || self.first {
            require_genus_version(stream, form, &framed)?;
        }
        match framed.code {
            Code::Fixed(_) | Code::Variable { .. } => judge_primitive(stream, form, &framed)?,
            Code::Group { .. } => judge_group_itself(&framed, self.open)?,
            Code::Genus => {}
            Code::Indexed(row) => judge_indexed(stream, form, &framed, row)?,
        }
        Ok(Some(framed))
    }

    /// The end of the innermost open group, if one is open.
    fn innermost(&self) -> Option<usize> {
        let last = self.open.checked_sub(1)?;
        self.ends.get(last).copied()
    }

    /// None of 13's conditions holds. Nothing asks for whole units (D35);
    /// equal ends are fit (D36). 02 a: "that mark with none open is 13".
    fn fits(&self, stream: &[u8]) -> bool {
        if self.open > MOST_GROUPS {
            return false;
        }
        let (used, unused) = self.ends.split_at(self.open);
        unused.iter().all(|slot| *slot == 0)
            && self.innermost().is_none_or(|end| self.position < end)
            && self.position <= stream.len()
            && used.windows(2).all(|pair| pair[1] <= pair[0])
            && used.first().is_none_or(|end| *end <= stream.len())
            && !((self.first || self.indexed) && self.open == 0)
    }

    /// The state behind a yielded item: a group is opened, anything else is
    /// stepped over; then groups whose end is reached close.
    fn behind(self, framed: &Frame) -> Walk {
        let opens = matches!(framed.code, Code::Group { .. });
        let mut next = self;
        next.first = opens && framed.code.is_overrideable() && framed.count > 0;
        if opens {
            next.ends[next.open] = framed.end();
            next.open += 1;
            next.indexed = framed.code.holds_indexed();
            next.position = framed.behind_header();
        } else {
            next.position = framed.end();
        }
        next.close_finished()
    }

    /// Closing cascades and writes 0 into each slot (D39). A group around one
    /// that closes holds no indexed items, since those are no groups (D155).
    fn close_finished(mut self) -> Walk {
        while self.innermost().is_some_and(|end| end <= self.position) {
            self.open -= 1;
            self.ends[self.open] = 0;
            self.indexed = false;
        }
        self
    }
}

#[cfg(test)]
mod tests {
    use super::*;

    fn state(ends: &[usize], position: usize, first: bool) -> Walk {
        let mut walk = Walk::start();
        walk.ends[..ends.len()].copy_from_slice(ends);
        walk.open = ends.len();
        walk.position = position;
        walk.first = first;
        walk
    }

    fn after(from: Walk, stream: &str) -> (Walk, Found) {
        step(from, stream.as_bytes(), Form::Text)
    }

    fn refused(from: Walk, stream: &str) -> (u8, usize) {
        let (same, found) = after(from, stream);
        assert_eq!(same, from);
        match found {
            Found::Refused { number, place } => (number, place),
            other => panic!("{other:?}"),
        }
    }

    #[test]
    fn a_group_opens_and_closes() {
        let stream = "-AABMAABXAAA";
        let (inside, group) = after(Walk::start(), stream);
        assert_eq!(inside, state(&[8], 4, true));
        assert!(matches!(
            group,
            Found::Item {
                offset: 0,
                size: 8,
                depth: 0,
                ..
            }
        ));
        let (behind, number) = after(inside, stream);
        assert_eq!(behind, state(&[], 8, false));
        assert!(matches!(
            number,
            Found::Item {
                offset: 4,
                size: 4,
                depth: 1,
                ..
            }
        ));
        let (last, _) = after(behind, stream);
        assert_eq!(last, state(&[], 12, false));
        // D36: the end again and again.
        assert_eq!(after(last, stream), (last, Found::End));
    }

    #[test]
    fn the_first_mark_is_set_by_a_b_c_only() {
        for (header, first) in [
            ("-A", true),
            ("-B", true),
            ("-C", true),
            ("-D", false),
            ("-J", false),
        ] {
            let stream = format!("{header}ABMAAB");
            let (inside, _) = after(Walk::start(), &stream);
            assert_eq!(inside, state(&[8], 4, first));
        }
        let large = format!("--AAABAA{}", "1AAK".repeat(4096));
        let (inside, _) = after(Walk::start(), &large);
        assert_eq!(inside, state(&[16_392], 8, true));
    }

    #[test]
    fn empty_groups_close_at_once() {
        let (behind, _) = after(Walk::start(), "-AAAMAAB");
        assert_eq!(behind, state(&[], 4, false));
        // D39: an empty group at the end of its outer closes both.
        let (inside, _) = after(Walk::start(), "-AAB-AAAMAAB");
        assert_eq!(inside, state(&[8], 4, true));
        let (behind, _) = after(inside, "-AAB-AAAMAAB");
        assert_eq!(behind, state(&[], 8, false));
    }

    /// The state with the mark of a group that holds indexed items.
    fn indexed(ends: &[usize], position: usize, first: bool) -> Walk {
        Walk {
            indexed: true,
            ..state(ends, position, first)
        }
    }

    #[test]
    fn signature_groups_are_opened() {
        // Two signatures of 22 units: `-KAs`.
        let one = format!("A_{}", "A".repeat(86));
        for letter in ["K", "L"] {
            let stream = format!("-{letter}As{one}{one}MAAB");
            let (inside, group) = after(Walk::start(), &stream);
            assert_eq!(inside, indexed(&[180], 4, false));
            let whole = matches!(
                group,
                Found::Item {
                    size: 180,
                    depth: 0,
                    ..
                }
            );
            assert!(whole, "{group:?}");
            let (between, item) = after(inside, &stream);
            assert_eq!(between, indexed(&[180], 92, false));
            let Found::Item {
                offset,
                size,
                depth,
                code,
            } = item
            else {
                panic!("{item:?}");
            };
            assert_eq!((offset, size, depth), (4, 88, 1));
            assert_eq!(code.name(), "Ed25519 indexed sig, both same");
            let (behind, _) = after(between, &stream);
            assert_eq!(behind, state(&[], 180, false));
            assert_eq!(after(behind, &stream).0, state(&[], 184, false));
        }
    }

    #[test]
    fn of_a_signature_group_itself() {
        // Its contents are not judged when the group is yielded.
        let (inside, _) = after(Walk::start(), "-KAB_A!A");
        assert_eq!(refused(inside, "-KAB_A!A"), (5, 6));
        let (inside, _) = after(Walk::start(), "-KAB_A+A");
        assert_eq!(refused(inside, "-KAB_A+A"), (19, 6));
        // An empty one is closed at once, and as first item clears the mark
        // (D12).
        assert_eq!(after(Walk::start(), "-KAA").0, state(&[], 4, false));
        let (behind, _) = after(state(&[16], 4, true), "-AAD-KAA-_AAABAA");
        assert_eq!(behind, state(&[16], 8, false));
    }

    #[test]
    fn the_mark_of_indexed_items_decides() {
        // D155: the mark alone, whatever the group was. `-J` around two seeds
        // of 44 characters, which by the other table are one signature.
        let stream = format!("-JAW{}", "A".repeat(88));
        let (behind, found) = after(indexed(&[92], 4, false), &stream);
        assert_eq!(behind, state(&[], 92, false));
        assert!(matches!(found, Found::Item { size: 88, .. }));
        let (behind, found) = after(state(&[92], 4, false), &stream);
        assert_eq!(behind, state(&[92], 48, false));
        assert!(matches!(found, Found::Item { size: 44, .. }));
        // Nothing but indexed items: a group is 6 and not 11, a genus 6 and not
        // 7, with the other mark too.
        for stream in ["-AAA", "-KAA", "MAAB", "_AAA"] {
            assert_eq!(refused(indexed(&[4], 0, false), stream), (6, 0));
            assert_eq!(refused(indexed(&[4; 64], 0, true), stream), (6, 0));
        }
        assert_eq!(refused(indexed(&[8], 0, true), "-_AAABAA"), (6, 0));
        assert_eq!(refused(indexed(&[8], 0, true), "-_AAACAA"), (6, 0));
        // Both marks set is fit; the step clears the first-item mark and keeps
        // the other while the group is open.
        let two = "A".repeat(176);
        let (behind, _) = after(indexed(&[176], 0, true), &two);
        assert_eq!(behind, indexed(&[176], 88, false));
        // Closing clears it, whatever the group around is: given states may
        // have two open.
        let (behind, _) = after(indexed(&[176, 88], 0, false), &two);
        assert_eq!(behind, state(&[176], 88, false));
    }

    #[test]
    fn eighteen_directly_after_eleven() {
        // 02 h, "in the walk too".
        assert_eq!(refused(Walk::start(), "--AAAAABMAAB"), (18, 0));
        assert_eq!(refused(Walk::start(), "--KAAAAB_A!A"), (18, 0));
        assert_eq!(refused(Walk::start(), "7AABAAAA"), (18, 0));
        assert_eq!(refused(state(&[12], 4, true), "MAAB--AAAAAA"), (18, 4));
        assert_eq!(refused(state(&[8; 64], 0, false), "--AAAAAA"), (11, 0));
        let short = format!("--JAAA__{}", "!!!!".repeat(4095));
        assert_eq!(refused(Walk::start(), &short), (18, 0));
    }

    #[test]
    fn of_an_ordinary_group_the_contents_are_not_judged() {
        let (inside, _) = after(Walk::start(), "-JAB!!!!");
        assert_eq!(inside, state(&[8], 4, false));
        assert_eq!(refused(inside, "-JAB!!!!"), (5, 4));
        assert_eq!(refused(inside, "-JAB=!!!"), (19, 4));
    }

    #[test]
    fn seven_by_place_and_mark() {
        assert_eq!(refused(Walk::start(), "-_AAABAA"), (7, 0));
        // D37: the mark alone asks, whatever the group was.
        let stream = "-JAC-_AAABAA";
        assert_eq!(refused(state(&[12], 4, true), stream), (7, 4));
        let (behind, _) = after(state(&[12], 4, false), "-AAC-_AAABAA");
        assert_eq!(behind, state(&[], 12, false));
    }

    #[test]
    fn every_condition_of_thirteen() {
        let stream = "MAABMAABMAAB";
        let mut many = state(&[12; 64], 0, false);
        many.open = 65;
        let mut slot = state(&[12], 0, false);
        slot.ends[63] = 1;
        let unfit = [
            many,
            slot,
            state(&[8], 8, false),
            state(&[8], 9, false),
            state(&[], 13, false),
            state(&[8, 9], 4, false),
            state(&[13], 4, false),
            state(&[], 0, true),
            state(&[], 12, true),
            indexed(&[], 0, false),
            indexed(&[], 12, false),
            indexed(&[], 0, true),
        ];
        for walk in unfit {
            assert_eq!(refused(walk, stream), (13, 0), "{walk:?}");
        }
        many.open = usize::MAX;
        assert_eq!(refused(many, stream), (13, 0));
    }

    #[test]
    fn one_before_thirteen() {
        let long = vec![b'A'; 4_194_305];
        let unfit = state(&[], 0, true);
        let refused = Found::Refused {
            number: 1,
            place: 0,
        };
        assert_eq!(step(unfit, &long, Form::Text), (unfit, refused));
    }

    #[test]
    fn fit_states_that_no_walk_gives() {
        // D36: equal ends, and the outermost at the stream's end.
        let (behind, _) = after(state(&[8, 8, 8], 4, false), "MAABMAAB");
        assert_eq!(behind, state(&[], 8, false));
        // D35: no whole units asked; less than a unit before the end is 4.
        assert_eq!(refused(state(&[7], 4, false), "MAABMAAB"), (4, 4));
        let (behind, _) = after(state(&[6], 1, false), "xMAABxxx");
        assert_eq!(behind, state(&[6], 5, false));
        assert_eq!(refused(behind, "xMAABxxx"), (4, 5));
    }

    #[test]
    fn sixty_four_open_and_one_more_group() {
        let deep = state(&[4; 64], 0, false);
        let (behind, found) = after(deep, "MAAB");
        assert_eq!(behind, state(&[], 4, false));
        assert!(matches!(found, Found::Item { depth: 64, .. }));
        assert_eq!(refused(deep, "-AAA"), (11, 0));
        assert_eq!(refused(deep, "-KAA"), (11, 0));
        // D20: framing comes before 11.
        assert_eq!(refused(deep, "-AABMAAB"), (4, 0));
    }

    #[test]
    fn binary_steps_in_bytes() {
        // `-AAB` `MAAB`: F8 00 01, 30 00 01.
        let stream = [0xF8, 0x00, 0x01, 0x30, 0x00, 0x01];
        let (inside, _) = step(Walk::start(), &stream, Form::Binary);
        assert_eq!(inside, state(&[6], 3, true));
        let (behind, found) = step(inside, &stream, Form::Binary);
        assert_eq!(behind, state(&[], 6, false));
        assert!(matches!(
            found,
            Found::Item {
                offset: 3,
                size: 3,
                depth: 1,
                ..
            }
        ));
    }
}
