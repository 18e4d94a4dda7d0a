//! A stream drawn as a band: its items in proportion, accepted, refused, and
//! the remainder; below them, row by row, what stands in groups. What is
//! thinner than a pixel is drawn together. Fills and marks say what colours
//! say.

mod row;

use crate::inner::{end_of, position};
use crate::input::Input;
use crate::judged::Judged;
use crate::markup::escaped;
use crate::memory::Gathered;
use crate::outcome::code_and_name;
use crate::readable;
use crate::words::{counted, measured};
use cesr::{Form, Head, ItemForm, MixedItem, Step, Verdict, Walk};
use row::{Kind, Piece, Row, WHOLE};
use std::io::{self, Write};
use std::ops::Range;

/// Rows below the band; what stands deeper is said and not drawn.
const DEEP: usize = 6;

/// The top of the band, below the marks; its height; that of the rows below.
const TOP: usize = 14;
const HIGH: usize = 30;
const LOW: usize = 12;

/// The width of a page in pixels: the least that is drawn by itself is one of
/// them. Where a page has many bands each is drawn more coarsely.
pub fn columns(streams: usize) -> usize {
    match streams {
        0..=50 => 1_000,
        _ => 250,
    }
}

/// Rows as they are drawn, the band first.
struct Band<'s> {
    input: &'s Input,
    rows: Vec<Row>,
    columns: usize,
    /// What stands deeper than the rows.
    deeper: usize,
}

pub fn drawn(input: &Input, report: &Judged, columns: usize) -> io::Result<Vec<u8>> {
    let mut band = Band {
        input,
        rows: vec![Row::new(TOP, HIGH, columns)],
        columns,
        deeper: 0,
    };
    for item in report.items() {
        band.item(&item);
        let Some(form) = item.form.cesr() else {
            continue;
        };
        if item.size > form.unit() && is_group(form, item.of(&input.bytes)) {
            band.contents(form, &item);
        }
    }
    if let Some(rest) = report.remainder() {
        let part = rest.offset..input.bytes.len();
        let said = format!("remainder {} from {}", rest.number, rest.offset);
        band.piece(0, Kind::Remainder, part, || ("?".to_string(), said));
    }
    band.whole(report)
}

/// Spares other items the walk.
fn is_group(form: Form, item: &[u8]) -> bool {
    let dash = match (form, item.first()) {
        (Form::Text, first) => first == Some(&b'-'),
        // The sextet of `-` is 62.
        (Form::Binary, first) => first.is_some_and(|byte| byte >> 2 == 62),
    };
    dash && Head::of(form, item).is_some_and(|head| head.code().is_group())
}

impl Band<'_> {
    /// In which row, of which kind, where; and, if it is drawn by itself, the
    /// code that stands on it and what it is.
    fn piece(
        &mut self,
        row: usize,
        kind: Kind,
        part: Range<usize>,
        said: impl FnOnce() -> (String, String),
    ) {
        if row > DEEP {
            self.deeper = self.deeper.saturating_add(1);
            return;
        }
        while self.rows.len() <= row {
            let below = self.rows.len().saturating_sub(1).saturating_mul(LOW);
            let top = TOP.saturating_add(HIGH).saturating_add(2);
            let (top, height) = (top.saturating_add(below), LOW.saturating_sub(2));
            self.rows.push(Row::new(top, height, self.columns));
        }
        let (from, to) = (self.along(part.start), self.along(part.end));
        if let Some(row) = self.rows.get_mut(row) {
            row.add(Piece { kind, from, to }, said);
        }
    }

    /// How far along the band an offset lies.
    fn along(&self, offset: usize) -> usize {
        let length = self.input.bytes.len();
        offset
            .saturating_mul(WHOLE)
            .checked_div(length)
            .unwrap_or(0)
    }

    fn item(&mut self, item: &MixedItem) {
        let (input, index, range) = (self.input, item.index, item.range());
        let kind = match (item.verdict, item.form) {
            (Verdict::Refused(_), _) => Kind::Refused,
            (Verdict::Accepted, ItemForm::Json) => Kind::Unjudged,
            (Verdict::Accepted, ItemForm::Cesr(_)) => Kind::Accepted,
        };
        self.piece(0, kind, item.range(), || {
            let (code, name) = code_and_name(item, &input.bytes);
            let form = readable::formed(input, item.form);
            let verdict = match item.verdict {
                Verdict::Accepted => "accepted".to_string(),
                Verdict::Refused(number) => format!("refused {number}"),
            };
            let size = measured(input.form, item.size);
            let from = range.start;
            let said = format!("item {index}: {form}{code} {name}, {size} from {from}, {verdict}");
            (code, said)
        });
    }

    /// What stands in a group, up to the first refusal: from there to the end
    /// of the innermost group.
    fn contents(&mut self, form: Form, group: &MixedItem) {
        let base = group.offset;
        let part = group.of(&self.input.bytes);
        let mut walk = Walk::new(form, part);
        let mut open: Vec<Step> = Vec::new();
        while let Some(Ok(step)) = walk.next() {
            open.retain(|group| end_of(group) > step.offset);
            if step.head.code().is_group() {
                open.push(step);
            }
            if step.depth > 0 {
                self.step(base, &step);
            }
        }
        let at = position(form, &walk);
        open.retain(|group| end_of(group) > at);
        // None is open at the end, nor where the group itself is refused.
        let Some(end) = open.last().map(end_of) else {
            return;
        };
        let place = base.saturating_add(at);
        let said = || unlabelled(format!("refused at {place}; behind it nothing was judged"));
        self.piece(
            open.len(),
            Kind::Refused,
            place..base.saturating_add(end),
            said,
        );
    }

    fn step(&mut self, base: usize, step: &Step) {
        let from = base.saturating_add(step.offset);
        let part = from..from.saturating_add(step.size);
        let size = measured(self.input.form, step.size);
        let name = step.head.name().unwrap_or_default();
        let said = || unlabelled(format!("{} {name}, {size} from {from}", step.head));
        self.piece(step.depth, Kind::Accepted, part, said);
    }

    fn whole(mut self, report: &Judged) -> io::Result<Vec<u8>> {
        let (form, length) = (self.input.form, self.input.bytes.len());
        let said = format!("The stream in proportion: {}", readable::sums(report));
        let below = self.rows.len().saturating_mul(LOW);
        let height = TOP.saturating_add(HIGH).saturating_add(below);
        let (caption, mut out) = (self.caption(), Gathered::default());
        write!(out, "<figure>\n<svg class=\"band\" role=\"img\" ")?;
        write!(out, "aria-label=\"{}\" ", escaped(&said))?;
        writeln!(out, "width=\"100%\" height=\"{height}\">")?;
        for row in self.rows.drain(..) {
            out.write_all(row.whole().as_bytes())?;
        }
        let end = measured(form, length);
        writeln!(
            out,
            "</svg>\n<p class=\"scale\"><span>0</span><span>{end}</span></p>"
        )?;
        writeln!(out, "<figcaption>{caption}</figcaption>\n</figure>")?;
        Ok(out.0)
    }

    /// What fills, marks and rows mean, of those that are there.
    fn caption(&self) -> String {
        let is_there = |kind| self.rows.iter().any(|row| row.has(kind));
        let mut said = vec![key("accepted", "accepted")];
        for (kind, class, words) in [
            (Kind::Unjudged, "unjudged", "JSON, its body not judged"),
            (Kind::Refused, "refused", "refused, with \u{25BC} above"),
            (Kind::Remainder, "remainder", "remainder, not judged"),
        ] {
            said.extend(is_there(kind).then(|| key(class, words)));
        }
        if self.rows.len() > 1 {
            said.push("<span>Below the band: what stands in groups.</span>".to_string());
        }
        if self.deeper > 0 {
            let items = counted(self.deeper, "item");
            said.push(format!(
                "<span>{items} deeper than {DEEP} groups not drawn.</span>"
            ));
        }
        said.join(" ")
    }
}

/// Rows below the band are too low for a code.
fn unlabelled(said: String) -> (String, String) {
    (String::new(), said)
}

/// A piece as it is drawn, and what it means.
fn key(class: &str, said: &str) -> String {
    let piece = format!("<rect class=\"{class}\" x=\"1\" y=\"1\" width=\"20\" height=\"10\"/>");
    let drawn = format!("<svg width=\"22\" height=\"12\" aria-hidden=\"true\">{piece}</svg>");
    format!("<span class=\"key\">{drawn} {said}</span>")
}
