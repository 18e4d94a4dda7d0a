//! A stream's outcome for people.

use crate::excerpt;
use crate::hint;
use crate::inner::Inner;
use crate::input::Input;
use crate::json_head;
use crate::judged::Judged;
use crate::kind::Kind;
use crate::outcome::{code_and_name, Found, Outcome};
use crate::standing::Standing;
use crate::terminal::Paint;
use crate::words::{counted, measured};
use cesr::{
    Code, Form, Head, ItemForm, MixedItem, Number, Refusal, RefusalRow, Remainder, Verdict,
};
use std::io::{self, Write};
use std::ops::Range;

/// Refused items that are shown where not all are asked for.
const SCREENFUL: usize = 8;

/// The line of a stream among many; the first fault stands in it.
pub fn line(out: &mut dyn Write, outcome: &Outcome, paint: Paint) -> io::Result<()> {
    let (word, text) = (word(outcome.standing(), paint), in_a_line(outcome));
    writeln!(out, "{word}{}: {text}", outcome.name)
}

/// What came of a stream, without its name and the word in front.
pub fn in_a_line(outcome: &Outcome) -> String {
    match (&outcome.found, outcome.complaint()) {
        (Found::Judged(input, report), None) => {
            let detected = if input.detected { " (detected)" } else { "" };
            let mut parts = vec![format!("{}{detected}, {}", input.form, sums(report))];
            parts.extend(first_fault(report));
            parts.extend(unjudged(report.unjudged().unwrap_or(0)));
            parts.extend(beware(input).map(str::to_string));
            parts.extend(outcome.engine.in_words().map(str::to_string));
            parts.join("; ")
        }
        (_, complaint) => complaint.unwrap_or_default(),
    }
}

/// The word that opens a line, with colour, in a column of its own.
fn word(standing: Standing, paint: Paint) -> String {
    let padded = format!("{:<8}", standing.word());
    match standing {
        Standing::Passed => paint.good(&padded),
        Standing::Failed | Standing::Error => paint.bad(&padded),
        Standing::Empty => paint.doubtful(&padded),
    }
}

pub fn sums(report: &Judged) -> String {
    let items = counted(report.items().len(), "item");
    let (accepted, refused) = (report.accepted(), report.refused());
    let rest = match report.remainder() {
        Some(rest) => format!("remainder {} from {}", rest.number, rest.offset),
        None => "no remainder".to_string(),
    };
    format!("{items}, {accepted} accepted, {refused} refused, {rest}")
}

/// The bodies that nobody judged, of so many JSON items.
pub fn bodies(items: usize) -> Option<String> {
    match items {
        0 => None,
        1 => Some("the body of 1 JSON item".to_string()),
        _ => Some(format!("the bodies of {items} JSON items")),
    }
}

/// The same for a line.
pub fn unjudged(items: usize) -> Option<String> {
    bodies(items).map(|bodies| format!("{bodies} not judged"))
}

fn first_fault(report: &Judged) -> Option<String> {
    let Refusal { number, place } = report.refusals().next()?.refusal;
    Some(format!("first refused {number} at {place}"))
}

/// What a person must weigh beside the verdict.
pub fn beware(input: &Input) -> Option<&'static str> {
    input.is_all_zeros().then_some("every byte is 0")
}

/// One stream in full: sums, with `all` every item, then refused items and the
/// remainder with the bytes there. Without `all` no more of them than a screen
/// has room for, and the number of the others.
pub fn block(out: &mut dyn Write, outcome: &Outcome, all: bool, paint: Paint) -> io::Result<()> {
    let (Found::Judged(input, report), None) = (&outcome.found, outcome.complaint()) else {
        return line(out, outcome, paint);
    };
    let word = word(outcome.standing(), paint);
    let length = measured(input.form, input.bytes.len());
    writeln!(out, "{word}{}: {}", outcome.name, sums(report))?;
    write!(out, "        {}, {length}", input.form_in_words())?;
    match outcome.engine.in_words() {
        Some(engine) => writeln!(out, ", judged {engine}")?,
        None => writeln!(out)?,
    }
    if let Some(part) = unjudged(report.unjudged().unwrap_or(0)) {
        writeln!(out, "        {part}")?;
    }
    if let Some(part) = beware(input) {
        writeln!(out, "        {part}")?;
    }
    if all {
        table(out, input, report, paint)?;
    }
    let (most, mut hints) = (if all { usize::MAX } else { SCREENFUL }, Hints::default());
    for row in report.refusals().take(most) {
        refused(out, input, report, &row, paint)?;
        hints.tell(out, row.refusal.number)?;
    }
    match report.refusals().len().saturating_sub(most) {
        0 => {}
        1 => writeln!(out, "\n1 more item is refused: --all lists it")?,
        more => writeln!(out, "\n{more} more items are refused: --all lists them")?,
    }
    match report.remainder() {
        Some(rest) => {
            remainder(out, input, report, rest, paint)?;
            hints.tell(out, rest.number)
        }
        None => Ok(()),
    }
}

/// What is usually behind a number, told once in a stream's block.
#[derive(Default)]
struct Hints(Vec<Number>);

impl Hints {
    fn tell(&mut self, out: &mut dyn Write, number: Number) -> io::Result<()> {
        if self.0.contains(&number) {
            return Ok(());
        }
        self.0.push(number);
        usually(out, number)
    }
}

pub fn usually(out: &mut dyn Write, number: Number) -> io::Result<()> {
    writeln!(out, "        usually {}", hint::usually(number))
}

/// Every item with its code's name; in a mixed stream with its form too, and of a
/// JSON item protocol and version.
fn table(out: &mut dyn Write, input: &Input, report: &Judged, paint: Paint) -> io::Result<()> {
    let is_mixed = input.form == Kind::Mixed;
    let form = if is_mixed { "form    " } else { "" };
    writeln!(out)?;
    writeln!(
        out,
        "  item   offset     size  verdict     {form}code  name"
    )?;
    for item in report.items() {
        let MixedItem {
            index,
            offset,
            size,
            verdict,
            form,
        } = item;
        let (code, name) = code_and_name(&item, &input.bytes);
        let form = match is_mixed {
            true => format!("{:<8}", form.to_string()),
            false => String::new(),
        };
        let verdict = match verdict {
            Verdict::Accepted => paint.good(&format!("{:<10}", "accepted")),
            Verdict::Refused(number) => paint.bad(&format!("refused {number:<2}")),
        };
        writeln!(
            out,
            "{index:>6} {offset:>8} {size:>8}  {verdict}  {form}{code:<4}  {name}"
        )?;
    }
    Ok(())
}

fn refused(
    out: &mut dyn Write,
    input: &Input,
    report: &Judged,
    row: &RefusalRow,
    paint: Paint,
) -> io::Result<()> {
    let (number, place) = (row.refusal.number, row.refusal.place);
    let verdict = paint.bad(&format!("refused {number} at {place}"));
    writeln!(out, "\nitem {}: {verdict}, {}", row.index, number.words())?;
    let Some(item) = report.item(row.index) else {
        return Ok(());
    };
    let (code, name) = code_and_name(&item, &input.bytes);
    let size = measured(input.form, item.size);
    let form = formed(input, item.form);
    writeln!(
        out,
        "        {form}{code} {name}, {size} from {}",
        item.offset
    )?;
    let Some(form) = item.form.cesr() else {
        return Ok(());
    };
    bytes_at(out, form, &input.bytes, item.range(), row.refusal)?;
    let inner = || Inner::of(form, item.of(&input.bytes), item.offset);
    asked(out, inner, row.refusal)
}

/// An item's form in front of its code, where the stream is mixed.
pub fn formed(input: &Input, form: ItemForm) -> String {
    match input.form {
        Kind::Mixed => format!("{form} "),
        Kind::Cesr(_) => String::new(),
    }
}

/// For 4: how much is asked for and how much is left.
pub fn asked(out: &mut dyn Write, inner: impl Fn() -> Inner, refusal: Refusal) -> io::Result<()> {
    if refusal.number != Number::PastEnd {
        return Ok(());
    }
    match inner().asked(refusal) {
        Some(asked) => writeln!(out, "        {asked}"),
        None => Ok(()),
    }
}

fn remainder(
    out: &mut dyn Write,
    input: &Input,
    report: &Judged,
    rest: Remainder,
    paint: Paint,
) -> io::Result<()> {
    let Remainder { offset, number } = rest;
    let refusal = report.refusal_of(rest, &input.bytes);
    let part = input.bytes.get(offset..).unwrap_or_default();
    let left = measured(input.form, input.bytes.len().saturating_sub(offset));
    let verdict = paint.bad(&format!("remainder {number} from {offset}"));
    writeln!(out, "\n{verdict}: {}", number.words())?;
    writeln!(out, "        {left} not judged")?;
    let form = shown_in(report.form_of(part));
    bytes_at(out, form, &input.bytes, offset..refusal.place, refusal)?;
    if let Some(note) = mixed_note(input, rest) {
        writeln!(out, "        {note}")?;
        if input.form == Kind::Mixed {
            return Ok(());
        }
    }
    asked(out, || Inner::of(form, part, offset), refusal)
}

/// JSON is shown as characters.
pub fn shown_in(form: ItemForm) -> Form {
    form.cesr().unwrap_or(Form::Text)
}

/// What is to be said of a remainder that begins with `{`: in a mixed stream what
/// is wrong with it, and elsewhere that there are mixed streams.
pub fn mixed_note(input: &Input, rest: Remainder) -> Option<String> {
    let part = input.bytes.get(rest.offset..)?;
    match input.form {
        Kind::Mixed => json_head::note(rest.number, part, rest.offset),
        Kind::Cesr(_) if part.first() == Some(&b'{') => Some(MIXED.to_string()),
        Kind::Cesr(_) => None,
    }
}

const MIXED: &str = "with { JSON may begin: --form mixed judges JSON and CESR by turns";

/// The bytes of an item with a caret, and a note where one helps.
pub fn bytes_at(
    out: &mut dyn Write,
    form: Form,
    stream: &[u8],
    item: Range<usize>,
    refusal: Refusal,
) -> io::Result<()> {
    let lines = excerpt::at(form, stream, item, refusal.place);
    out.write_all(lines.unwrap_or_default().as_bytes())?;
    match note(form, stream, refusal) {
        Some(note) => writeln!(out, "        {note}"),
        None => Ok(()),
    }
}

/// What a person would ask next.
pub fn note(form: Form, stream: &[u8], refusal: Refusal) -> Option<String> {
    let Refusal { number, place } = refusal;
    let byte = *stream.get(place)?;
    let ends_line = stream.ends_with(b"\n");
    let last = place.saturating_add(2) >= stream.len();
    match (number, form) {
        _ if place == 0 && stream.starts_with(b"\xEF\xBB\xBF") => {
            Some("the stream opens with a byte order mark, which is no part of it".to_string())
        }
        (Number::MixedStart, _) if byte == b'{' => None,
        (Number::Character | Number::MixedStart, _) => {
            let kind = kind_of(byte);
            Some(format!(
                "the byte at {place} is {byte:02X} hexadecimal{kind}"
            ))
        }
        (Number::OrdinaryBase64, _) => Some(format!("{} at {place}", url_safe(byte)?)),
        (Number::TextFill, form) => fill(form, stream.get(place..)?),
        (Number::NotShort, form) => {
            let short = short_header(form, stream.get(place..)?)?;
            Some(format!("the small code's header is {short}"))
        }
        (Number::PastEnd | Number::NotWholeUnits, Form::Text) if ends_line && last => {
            Some("the stream ends with a line feed, which is no character of it".to_string())
        }
        _ => None,
    }
}

/// The `A` in front of a text that its selector asks for, and what stands there.
fn fill(form: Form, item: &[u8]) -> Option<String> {
    let head = Head::of(form, item)?;
    let header = match head.code() {
        Code::Small { .. } => form.unit(),
        Code::Large { .. } => form.unit().saturating_mul(2),
        _ => return None,
    };
    let value = item.get(header..)?.get(..form.unit())?;
    let first = match form {
        Form::Text => value.to_vec(),
        Form::Binary => cesr::to_text(value).ok()?,
    };
    // 4 and 7 take off one, 5 and 8 two, 6 and 9 three.
    let asked = "AAA".get(..usize::from(head.lead()).saturating_add(1))?;
    let there = first.get(..asked.len())?.escape_ascii().to_string();
    Some(match there == asked {
        true => format!("behind the fill {asked} the text starts with A"),
        false => format!("the fill of {head} is {asked}, here stands {there}"),
    })
}

/// The header that a large one stands for: the small code, and the last two
/// digits, which the others are zeros before.
fn short_header(form: Form, item: &[u8]) -> Option<String> {
    let head = Head::of(form, item)?;
    let code = match head.code() {
        Code::Large { letter } => Code::Small { letter },
        Code::LargeGroup { letter } => Code::SmallGroup { letter },
        _ => return None,
    };
    let header = match form {
        Form::Text => item.get(..8)?.to_vec(),
        Form::Binary => cesr::to_text(item.get(..6)?).ok()?,
    };
    let digits = header.get(6..)?.escape_ascii();
    let short = Head::new(code, head.lead())?;
    Some(format!("{short}{digits}"))
}

/// Strangers that are often met.
fn kind_of(byte: u8) -> &'static str {
    match byte {
        b'\n' => ", a line feed",
        b'\r' => ", a carriage return",
        b' ' => ", a space",
        _ => "",
    }
}

/// What stands in a stream for a character of ordinary Base64.
fn url_safe(ordinary: u8) -> Option<&'static str> {
    match ordinary {
        b'+' => Some("URL-safe Base64 has - for the +"),
        b'/' => Some("URL-safe Base64 has _ for the /"),
        b'=' => Some("a stream has no padding: nothing stands for the ="),
        _ => None,
    }
}
