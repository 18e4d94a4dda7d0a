//! A report of either kind, with rows alike: an item of a text or a binary has
//! the stream's form.

use cesr::{Form, Item, ItemForm, MixedItem, MixedReport, Refusal, Refusals, Remainder, Report};

#[derive(Debug)]
pub enum Judged {
    Cesr(Form, Report<'static>),
    Mixed(MixedReport<'static>),
}

/// Items in stream order.
type Items<'r> = Box<dyn ExactSizeIterator<Item = MixedItem> + 'r>;

impl Judged {
    pub fn items(&self) -> Items<'_> {
        match self {
            Judged::Cesr(form, report) => {
                let form = *form;
                Box::new(report.items().map(move |item| formed(form, item)))
            }
            Judged::Mixed(report) => Box::new(report.items()),
        }
    }

    pub fn item(&self, index: usize) -> Option<MixedItem> {
        match self {
            Judged::Cesr(form, report) => report.item(index).map(|item| formed(*form, item)),
            Judged::Mixed(report) => report.item(index),
        }
    }

    pub fn refusals(&self) -> Refusals<'_> {
        match self {
            Judged::Cesr(_, report) => report.refusals(),
            Judged::Mixed(report) => report.refusals(),
        }
    }

    pub fn remainder(&self) -> Option<Remainder> {
        match self {
            Judged::Cesr(_, report) => report.remainder(),
            Judged::Mixed(report) => report.remainder(),
        }
    }

    /// The remainder's refusal, with the place of a character.
    pub fn refusal_of(&self, rest: Remainder, stream: &[u8]) -> Refusal {
        match self {
            Judged::Cesr(form, _) => rest.refusal(*form, stream),
            Judged::Mixed(_) => rest.refusal_in_mixed(stream),
        }
    }

    /// The form in which the remainder is shown: that of its first byte.
    pub fn form_of(&self, rest: &[u8]) -> ItemForm {
        match (self, rest.first()) {
            (Judged::Cesr(form, _), _) => ItemForm::Cesr(*form),
            (_, Some(b'{')) => ItemForm::Json,
            (_, Some(b'-')) => ItemForm::Cesr(Form::Text),
            (_, Some(0xF8..=0xFB)) => ItemForm::Cesr(Form::Binary),
            _ => ItemForm::Cesr(Form::told_from(rest)),
        }
    }

    pub fn accepted(&self) -> usize {
        match self {
            Judged::Cesr(_, report) => report.accepted(),
            Judged::Mixed(report) => report.accepted(),
        }
    }

    pub fn refused(&self) -> usize {
        match self {
            Judged::Cesr(_, report) => report.refused(),
            Judged::Mixed(report) => report.refused(),
        }
    }

    /// JSON items, whose bodies nobody judged; none where the stream is not mixed.
    pub fn unjudged(&self) -> Option<usize> {
        match self {
            Judged::Cesr(..) => None,
            Judged::Mixed(report) => Some(report.unjudged()),
        }
    }

    pub fn accepts_all(&self, length: usize) -> bool {
        match self {
            Judged::Cesr(_, report) => report.accepts_all(length),
            Judged::Mixed(report) => report.accepts_all(length),
        }
    }

    pub fn as_bytes(&self) -> &[u8] {
        match self {
            Judged::Cesr(_, report) => report.as_bytes(),
            Judged::Mixed(report) => report.as_bytes(),
        }
    }
}

pub fn formed(form: Form, item: Item) -> MixedItem {
    let Item {
        index,
        offset,
        size,
        verdict,
    } = item;
    MixedItem {
        index,
        offset,
        size,
        verdict,
        form: ItemForm::Cesr(form),
    }
}
