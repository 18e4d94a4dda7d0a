//! Where an offset stands in a stream: the report's row says in which item, and
//! the walk of that item which of its items starts there.
//!
//! For display only, and by the library's answers alone.

use crate::inner::{innermost, is_indexed, position, Inner};
use crate::part::Part;
use cesr::{judge, Head, Item, Refusal, Step, Walk};

/// What is known of an offset.
#[derive(Debug, Default)]
pub struct Place {
    /// Where no item is known to start there: what is said of it.
    pub said: Option<String>,
    /// Within a signature group, where items are indexed ones: the group's end.
    pub signatures: Option<usize>,
}

impl Place {
    pub fn of(part: &Part, at: usize) -> Place {
        let Ok(report) = judge(part.form, part.bytes) else {
            return Place::default();
        };
        let on = |item: Item| {
            let offset = item.offset.saturating_add(part.start);
            Item { offset, ..item }
        };
        if let Some(item) = report
            .items()
            .map(on)
            .find(|item| item.range().contains(&at))
        {
            return Place::within(part, &item, at);
        }
        let rest = report
            .remainder()
            .map(|rest| rest.offset.saturating_add(part.start));
        let rest = rest.filter(|rest| (*rest..part.end()).contains(&at) && *rest < at);
        Place {
            said: rest.map(|rest| format!("of no item: in the remainder from {rest}")),
            signatures: None,
        }
    }

    fn within(part: &Part, item: &Item, at: usize) -> Place {
        let walked = Walked::of(part, item, at);
        let group = |end: Option<usize>| end.filter(|end| at < *end);
        match (walked.last, walked.stop) {
            (Some((step, end)), _) if step.offset == at => Place {
                said: None,
                signatures: group(end),
            },
            (_, Some((refusal, end))) if walked.reached <= at => Place {
                said: (walked.reached < at).then(|| {
                    let bytes = part.of(item.range().start, item.range().end);
                    let inner = Inner::of(part.form, bytes, item.offset);
                    behind(&inner, refusal, at)
                }),
                signatures: group(end),
            },
            (Some((step, end)), _) => Place {
                said: Some(inside(&step.head, step.offset)),
                signatures: group(end.filter(|_| !step.head.code().is_group())),
            },
            (None, _) => Place::default(),
        }
    }
}

/// A walk of an item as far as an offset, in the stream's own places.
struct Walked {
    /// The last item that starts there or before, and the end of the signature
    /// group that it stands within.
    last: Option<(Step, Option<usize>)>,
    /// The refusal that stops the walk, and the same of what is refused.
    stop: Option<(Refusal, Option<usize>)>,
    /// Where the walk stands.
    reached: usize,
}

impl Walked {
    fn of(part: &Part, item: &Item, at: usize) -> Walked {
        let (form, range) = (part.form, item.range());
        let on = |offset: usize| offset.saturating_add(item.offset);
        let mut walk = Walk::new(form, part.of(range.start, range.end));
        let (mut last, mut stop) = (None, None);
        loop {
            let group = is_indexed(&walk).then(|| innermost(form, &walk)).flatten();
            let group = group.map(on);
            match walk.next() {
                Some(Ok(step)) if on(step.offset) <= at => {
                    let offset = on(step.offset);
                    last = Some((Step { offset, ..step }, group));
                }
                Some(Err(refusal)) => {
                    let place = on(refusal.place);
                    stop = Some((Refusal { place, ..refusal }, group));
                }
                _ => break,
            }
        }
        Walked {
            last,
            stop,
            reached: on(position(form, &walk)),
        }
    }
}

/// Behind the start of what is refused: within it, as far as its size is known.
fn behind(refused: &Inner, refusal: Refusal, at: usize) -> String {
    let whole = refused.size().filter(|size| {
        let end = refused.at.saturating_add(*size);
        (refused.at..end).contains(&at)
    });
    match (whole, &refused.head) {
        (Some(_), Some(head)) if !head.code().is_group() => inside(head, refused.at),
        _ => {
            let Refusal { number, place } = refusal;
            let stop = refused.at;
            format!(
                "of no item that is known: the walk stops at {stop}, refused {number} at {place}"
            )
        }
    }
}

fn inside(head: &Head, from: usize) -> String {
    let name = head.name().unwrap_or_default();
    format!("of no item: within {head} {name} from {from}")
}
