//! `cesr show`: one item at an offset, as a stream by itself.

use crate::arguments::Show;
use crate::inner::Inner;
use crate::input::{self, Input};
use crate::judged::Judged;
use crate::kind::{Kind, Told};
use crate::part::Part;
use crate::place::Place;
use crate::standing::Standing;
use crate::terminal::{Paint, Progress};
use crate::words::measured;
use crate::{complain, readable};
use cesr::{
    judge, judge_mixed, Code, Form, Head, IndexedItem, ItemForm, MixedItem, Number, Primitive,
    Refusal, Remainder, Report, Step, Value, Walk,
};
use std::io::{self, Write};

/// Bytes of a raw value, and characters of a text, on a line.
const RAW: usize = 32;
const TEXT: usize = 2 * RAW;

/// Levels of a group that are shown by blanks; below them an item's line says
/// how deep it stands.
const INDENTED: usize = 16;

/// The verdict where no item is known to start.
const NONE: &str = "none: no item is known to start here";

pub fn run(task: &Show, out: &mut dyn Write) -> io::Result<Standing> {
    let name = task.source.name();
    let input = match input::read(&task.source, task.form, &mut Progress::told()) {
        Ok(input) if input.bytes.is_empty() => {
            complain(&format!("{name}: the stream is empty: nothing to show"));
            return Ok(Standing::Empty);
        }
        Ok(input) => input,
        Err(why) => {
            complain(&format!("{name}: {why}"));
            return Ok(Standing::Error);
        }
    };
    if input.bytes.len() > input.form.limit() {
        let (number, place) = (Number::TooLong, 0);
        complain(&format!("{name}: {}", Refusal { number, place }));
        return Ok(Standing::Error);
    }
    writeln!(out, "stream   {name}: {}", input.form_in_words())?;
    writeln!(out, "offset   {}", task.at)?;
    match input.form {
        Kind::Mixed => mixed(out, &input, task.at),
        Kind::Cesr(form) => {
            let bytes = &input.bytes[..];
            let start = 0;
            of_part(out, &input, Part { form, bytes, start }, task.at)
        }
    }
}

/// An offset of a mixed stream: in which item it lies, or that it lies in none.
fn mixed(out: &mut dyn Write, input: &Input, at: usize) -> io::Result<Standing> {
    let report = match judge_mixed(&input.bytes) {
        Ok(report) => Judged::Mixed(report),
        // Its length was looked at, and the room is enough.
        Err(refusal) => {
            complain(&refusal.to_string());
            return Ok(Standing::Error);
        }
    };
    if let Some(item) = report.items().find(|item| item.range().contains(&at)) {
        return of_item(out, input, &item, at);
    }
    match report.remainder() {
        Some(rest) if at < input.bytes.len() => of_remainder(out, input, &report, rest, at),
        _ => {
            let (number, place) = (Number::PastEnd, at);
            refused(out, Refusal { number, place })?;
            readable::usually(out, number)?;
            Ok(Standing::Failed)
        }
    }
}

fn of_item(
    out: &mut dyn Write,
    input: &Input,
    item: &MixedItem,
    at: usize,
) -> io::Result<Standing> {
    let (index, start) = (item.index, item.offset);
    let size = measured(Kind::Mixed, item.size);
    writeln!(out, "item     {index}: {}, {size} from {start}", item.form)?;
    match item.form {
        ItemForm::Json => json(out, input, item, at),
        ItemForm::Cesr(form) => {
            let bytes = item.of(&input.bytes);
            of_part(out, input, Part { form, bytes, start }, at)
        }
    }
}

fn of_remainder(
    out: &mut dyn Write,
    input: &Input,
    report: &Judged,
    rest: Remainder,
    at: usize,
) -> io::Result<Standing> {
    writeln!(out, "item     none: {rest}")?;
    let start = rest.offset;
    let bytes = input.bytes.get(start..).unwrap_or_default();
    match report.form_of(bytes) {
        ItemForm::Cesr(form) if rest.number != Number::MixedStart => {
            of_part(out, input, Part { form, bytes, start }, at)
        }
        _ => no_item(out, input, rest, at),
    }
}

/// A JSON item, which has a header and a body that is not judged.
fn json(out: &mut dyn Write, input: &Input, item: &MixedItem, at: usize) -> io::Result<Standing> {
    if let Some(head) = item.json(&input.bytes) {
        writeln!(out, "protocol {}", head.protocol())?;
        writeln!(out, "version  {}", head.version())?;
        writeln!(out, "length   {}", measured(Kind::Mixed, head.length))?;
    }
    let paint = Paint::told();
    if at == item.offset {
        writeln!(
            out,
            "verdict  {}, its body not judged",
            paint.good("accepted")
        )?;
        return Ok(Standing::Passed);
    }
    writeln!(out, "start    of no item: within JSON from {}", item.offset)?;
    writeln!(out, "verdict  {}", paint.bad(NONE))?;
    Ok(Standing::Failed)
}

/// What starts no item of a mixed stream.
fn no_item(out: &mut dyn Write, input: &Input, rest: Remainder, at: usize) -> io::Result<Standing> {
    let (number, place) = (rest.number, rest.offset);
    let refusal = Refusal { number, place };
    if place < at {
        writeln!(out, "start    of no item: in the remainder from {place}")?;
    }
    refused(out, refusal)?;
    let bytes = input.bytes.get(place..).unwrap_or_default();
    let form = Form::told_from(bytes);
    readable::bytes_at(out, form, &input.bytes, place..place, refusal)?;
    if let Some(note) = readable::mixed_note(input, rest) {
        writeln!(out, "        {note}")?;
    }
    readable::usually(out, number)?;
    Ok(Standing::Failed)
}

fn refused(out: &mut dyn Write, refusal: Refusal) -> io::Result<()> {
    let Refusal { number, place } = refusal;
    let refused = Paint::told().bad(&format!("refused {number} at {place}"));
    writeln!(out, "verdict  {refused}, {}", number.words())
}

/// What stands at an offset of a part that has one form.
fn of_part(out: &mut dyn Write, input: &Input, part: Part, at: usize) -> io::Result<Standing> {
    let place = Place::of(&part, at);
    if let Some(said) = &place.said {
        writeln!(out, "start    {said}")?;
    }
    let verdict = match place.signatures {
        Some(end) => signature(out, &part, at, end)?,
        None => shown(out, &part, at)?,
    };
    tell(out, input, at, part, &place, verdict)
}

/// What is accepted, or why it is not.
type Read = Result<(), Refusal>;

/// An indexed item, in its group as far as that goes.
fn signature(out: &mut dyn Write, part: &Part, at: usize, end: usize) -> io::Result<Read> {
    match part.read_indexed(at, end) {
        Ok(item) => indexed(out, part.form, &item).map(Ok),
        Err(refusal) => {
            if let Some(head) = Head::of_indexed(part.form, part.of(at, end)) {
                named(out, &head)?;
            }
            Ok(Err(refusal))
        }
    }
}

fn indexed(out: &mut dyn Write, form: Form, item: &IndexedItem) -> io::Result<()> {
    writeln!(out, "code     {}", item.code)?;
    writeln!(out, "name     {}", item.code.name().unwrap_or_default())?;
    writeln!(out, "size     {}", measured(form, item.size))?;
    writeln!(out, "index    {}", item.index)?;
    writeln!(out, "ondex    {}", item.ondex)?;
    let lines: Vec<String> = item.raw.chunks(RAW).map(hexadecimal).collect();
    listed(out, "raw ", &lines)?;
    writeln!(out, "length   {}", measured(Form::Binary, item.raw.len()))
}

fn shown(out: &mut dyn Write, part: &Part, at: usize) -> io::Result<Read> {
    match part.item_at(at) {
        Err(refusal) => {
            let rest = part.of(at, part.end());
            if let Some(head) = Head::of(part.form, rest) {
                named(out, &head)?;
            }
            Ok(Err(refusal))
        }
        Ok(step) => {
            named(out, &step.head)?;
            writeln!(out, "size     {}", measured(part.form, step.size))?;
            match part.read(at) {
                Ok(primitive) => value(out, &primitive).map(Ok),
                Err(_) => inside(out, part, &step),
            }
        }
    }
}

fn named(out: &mut dyn Write, head: &Head) -> io::Result<()> {
    writeln!(out, "code     {head}")?;
    writeln!(out, "name     {}", head.name().unwrap_or_default())
}

/// The tag characters, the text's, or the raw value in hexadecimal.
fn value(out: &mut dyn Write, primitive: &Primitive) -> io::Result<()> {
    if !primitive.tag.as_bytes().is_empty() {
        return writeln!(out, "tag      {}", primitive.tag);
    }
    let value = primitive.value.as_bytes();
    let (word, form, lines): (_, _, Vec<String>) = match &primitive.value {
        Value::Raw(raw) => (
            "raw ",
            Form::Binary,
            raw.chunks(RAW).map(hexadecimal).collect(),
        ),
        Value::Text(_) => (
            "text",
            Form::Text,
            value.chunks(TEXT).map(characters).collect(),
        ),
    };
    listed(out, word, &lines)?;
    writeln!(out, "length   {}", measured(form, value.len()))
}

fn listed(out: &mut dyn Write, word: &str, lines: &[String]) -> io::Result<()> {
    let mut lines = lines.iter();
    let first = lines.next().map_or("(empty)", |first| first);
    writeln!(out, "{word}     {first}")?;
    for line in lines {
        writeln!(out, "         {line}")?;
    }
    Ok(())
}

fn characters(text: &[u8]) -> String {
    text.escape_ascii().to_string()
}

fn hexadecimal(bytes: &[u8]) -> String {
    bytes.iter().map(|byte| format!("{byte:02X}")).collect()
}

/// A group's items at all depths, up to the first refusal, and its verdict as
/// a stream by itself.
fn inside(out: &mut dyn Write, part: &Part, step: &Step) -> io::Result<Read> {
    let form = part.form;
    let item = part.of(step.offset, step.offset.saturating_add(step.size));
    if step.head.code() == Code::GenusVersion {
        let text = match form {
            Form::Text => item.to_vec(),
            Form::Binary => cesr::to_text(item).unwrap_or_default(),
        };
        let characters = text.get(2..).unwrap_or_default().escape_ascii();
        writeln!(out, "version  {characters}")?;
    }
    for inner in Walk::new(form, item).skip(1).map_while(Result::ok) {
        let indent = indented(inner.depth);
        let offset = step.offset.saturating_add(inner.offset);
        let size = measured(form, inner.size);
        let name = inner.head.name().unwrap_or_default();
        writeln!(
            out,
            "inside   {offset:>8}  {indent}{} {name}, {size}",
            inner.head
        )?;
    }
    let report = match judge(form, item) {
        Ok(report) => report,
        Err(refusal) => return Ok(Err(refusal)),
    };
    Ok(by_itself(form, item, &report, step.offset))
}

fn indented(depth: usize) -> String {
    match depth {
        0..=INDENTED => "  ".repeat(depth.saturating_sub(1)),
        _ => format!("{}{depth} deep: ", "  ".repeat(INDENTED)),
    }
}

/// What the report of the item's own bytes says; places counted on from its
/// offset.
fn by_itself(form: Form, item: &[u8], report: &Report, offset: usize) -> Read {
    let first = report.refusals().next().map(|row| row.refusal);
    let rest = || report.remainder();
    match first.or_else(|| rest().map(|rest| rest.refusal(form, item))) {
        None => Ok(()),
        Some(refusal) => Err(Refusal {
            place: refusal.place.saturating_add(offset),
            ..refusal
        }),
    }
}

fn tell(
    out: &mut dyn Write,
    input: &Input,
    at: usize,
    part: Part,
    place: &Place,
    verdict: Read,
) -> io::Result<Standing> {
    let paint = Paint::told();
    // What no item starts with is not accepted, however it reads.
    let (none, accepted) = match place.said {
        None => (String::new(), Standing::Passed),
        Some(_) => (paint.bad(NONE) + "; as one it is ", Standing::Failed),
    };
    let Err(Refusal { number, place: to }) = verdict else {
        writeln!(out, "verdict  {none}{}", paint.good("accepted"))?;
        return Ok(accepted);
    };
    let refused = paint.bad(&format!("refused {number} at {to}"));
    writeln!(out, "verdict  {none}{refused}, {}", number.words())?;
    let refusal = Refusal { number, place: to };
    readable::bytes_at(out, part.form, &input.bytes, at..to, refusal)?;
    let inner = || match place.signatures {
        Some(end) => Inner::indexed(part.form, part.of(at, end), at),
        None => Inner::of(part.form, part.of(at, part.end()), at),
    };
    readable::asked(out, inner, refusal)?;
    readable::usually(out, number)?;
    Ok(Standing::Failed)
}
