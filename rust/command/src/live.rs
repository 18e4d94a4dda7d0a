//! `cesr judge --live`: a stream judged while it is being written. Items are told
//! as they come to their end; what comes behind the last one is what `judge` says
//! of the whole.
//!
//! The bytes are kept, as `judge` keeps them: what is said at the end shows some of
//! them.

use crate::arguments::{Judge, Style};
use crate::engine::Engine;
use crate::expected::Case;
use crate::input::{self, Input, Source};
use crate::json::{quoted, why};
use crate::judged::{formed, Judged};
use crate::kind::{Kind, Told as _};
use crate::memory::Gathered;
use crate::outcome::{code_and_name, no_memory, Found, Outcome};
use crate::terminal::{Paint, Progress};
use crate::words::{measured, of_error};
use crate::{memory, say};
use cesr::{Form, Item, Live, Number, Refusal, RefusalRow, Remainder, Told, Verdict};
use std::io::{self, ErrorKind, Read, Write};

/// The most that is read at once. Less is read where less is there.
const PIECE: usize = 1 << 16;

/// A stream that begins with `{` is taken for mixed where no form is said.
const MIXED: &str =
    "begins with {, as a mixed stream does, and --live judges none: nothing was judged";

/// What came of the stream, with its items told meanwhile. An error is one of
/// standard output.
pub fn outcome(
    case: Case,
    task: &Judge,
    out: &mut dyn Write,
    (paint, progress): (Paint, &mut Progress),
) -> io::Result<Outcome> {
    let (name, found) = match case {
        Case::Trouble(name, why) => (name, Found::Unread(why)),
        Case::Stream(source, _) => {
            let told = Telling {
                out,
                style: task.style,
                paint,
                any: false,
            };
            let typed = source == Source::Standard && progress.waits();
            // Mixed was refused in words.
            let form = match task.form {
                Some(Kind::Cesr(form)) => Some(form),
                _ => None,
            };
            let found = judged(&source, form, told);
            if typed {
                say("\n");
            }
            (source.name(), found?)
        }
    };
    Ok(Outcome {
        name,
        engine: Engine::First,
        found,
    })
}

/// Why there is no verdict: it could not be read, or not be written.
enum Trouble {
    Unread(String),
    Unwritten(io::Error),
}

impl Trouble {
    fn unread(error: io::Error) -> Trouble {
        Trouble::Unread(of_error(&error))
    }

    fn memory(error: io::Error) -> Trouble {
        Trouble::Unread(no_memory(&error))
    }
}

fn judged(source: &Source, form: Option<Form>, mut told: Telling) -> io::Result<Found> {
    match taken_in(source, form, &mut told) {
        Ok(found) => told.ended().map(|()| found),
        Err(Trouble::Unread(why)) => told.ended().map(|()| Found::Unread(why)),
        Err(Trouble::Unwritten(error)) => Err(error),
    }
}

/// All of the stream, piece by piece.
fn taken_in(source: &Source, form: Option<Form>, told: &mut Telling) -> Result<Found, Trouble> {
    let (mut reader, watch) = input::opened(source).map_err(Trouble::unread)?;
    let mut buffer = memory::zeros(PIECE).map_err(Trouble::memory)?;
    let mut came = Came::new(form);
    let mut answer = Ok(());
    while answer.is_ok() {
        let room = buffer.get_mut(..came.asked()).unwrap_or_default();
        let length = read(&mut reader, room).map_err(Trouble::unread)?;
        let piece = buffer.get(..length).unwrap_or_default();
        answer = came.take(piece, told)?;
        if length == 0 {
            break;
        }
    }
    let (input, live) = came.ended();
    let form = live.pieces().form();
    let past = input.form.limit().saturating_add(1);
    let steady = watch.end(input.bytes.len(), past);
    steady.map_err(Trouble::unread)?;
    let report = answer.and_then(|()| live.end());
    match report {
        Ok(report) => {
            let rest = report.remainder();
            told.remainder(rest).map_err(Trouble::Unwritten)?;
            Ok(Found::Judged(input, Judged::Cesr(form, report)))
        }
        Err(refusal) => Ok(Found::Refused(input, refusal)),
    }
}

/// What is there, at least a byte; none at the end, which is taken at its first
/// word.
fn read(reader: &mut dyn Read, room: &mut [u8]) -> io::Result<usize> {
    loop {
        match reader.read(room) {
            Err(error) if error.kind() == ErrorKind::Interrupted => {}
            answer => return answer,
        }
    }
}

/// What came so far, and its judge once the form is known.
struct Came {
    bytes: Gathered,
    form: Option<Form>,
    live: Option<Live>,
}

impl Came {
    fn new(form: Option<Form>) -> Came {
        Came {
            bytes: Gathered::default(),
            form,
            live: form.map(Live::new),
        }
    }

    /// As much as may be read at once: up to the limit, and then the one byte past
    /// it that is refused.
    fn asked(&self) -> usize {
        let left = |live: &Live| {
            let pieces = live.pieces();
            pieces.form().limit().saturating_sub(pieces.taken())
        };
        self.live.as_ref().map_or(PIECE, left).clamp(1, PIECE)
    }

    /// A piece, which is empty at the end. Judging starts where the form is known:
    /// once sixteen bytes, or the end, have come.
    fn take(&mut self, piece: &[u8], told: &mut Telling) -> Result<Result<(), Refusal>, Trouble> {
        self.bytes.write_all(piece).map_err(Trouble::memory)?;
        let bytes = &self.bytes.0;
        if self.live.is_none() && bytes.len() < Form::TELLING && !piece.is_empty() {
            return Ok(Ok(()));
        }
        if self.live.is_none() && Kind::told_from(bytes) == Kind::Mixed {
            return Err(Trouble::Unread(MIXED.to_string()));
        }
        let live = self
            .live
            .get_or_insert_with(|| Live::new(Form::told_from(bytes)));
        let form = live.pieces().form();
        let new = bytes.get(live.pieces().taken()..).unwrap_or_default();
        let memory = live.try_reserve(new.len());
        memory.map_err(|_| Trouble::memory(ErrorKind::OutOfMemory.into()))?;
        match live.feed(new) {
            Ok(rows) => {
                told.rows(form, bytes, rows).map_err(Trouble::Unwritten)?;
                Ok(Ok(()))
            }
            Err(refusal) => Ok(Err(refusal)),
        }
    }

    fn ended(self) -> (Input, Live) {
        let bytes = self.bytes.0;
        let live = self
            .live
            .unwrap_or_else(|| Live::new(Form::told_from(&bytes)));
        let input = Input {
            bytes,
            form: Kind::Cesr(live.pieces().form()),
            detected: self.form.is_none(),
        };
        (input, live)
    }
}

/// How rows are told: to people, or to machines, or, of a report's bytes, not
/// before the end.
struct Telling<'o> {
    out: &'o mut dyn Write,
    style: Style,
    paint: Paint,
    /// Was any told?
    any: bool,
}

impl Telling<'_> {
    /// The rows of a piece, which leave at once.
    fn rows(&mut self, form: Form, stream: &[u8], rows: Told) -> io::Result<()> {
        if rows.is_empty() || self.style == Style::Report {
            return Ok(());
        }
        self.any = true;
        let mut refusals = rows.refusals();
        for item in rows.items() {
            let refused = match item.verdict {
                Verdict::Accepted => None,
                Verdict::Refused(_) => refusals.next(),
            };
            match self.style {
                Style::Json { .. } => self.object(form, stream, &item, refused)?,
                _ => self.line(form, stream, &item, refused)?,
            }
        }
        self.out.flush()
    }

    /// `item 2: refused 8 at 80, pad bit or lead byte not zero: E Blake3-256 Digest,
    /// 44 characters from 80`.
    fn line(
        &mut self,
        form: Form,
        stream: &[u8],
        item: &Item,
        refused: Option<RefusalRow>,
    ) -> io::Result<()> {
        let (code, name) = code_and_name(&formed(form, *item), stream);
        let size = measured(Kind::Cesr(form), item.size);
        let verdict = match refused.map(|row| row.refusal) {
            None => self.paint.good("accepted"),
            Some(Refusal { number, place }) => {
                let verdict = self.paint.bad(&format!("refused {number} at {place}"));
                format!("{verdict}, {}", number.words())
            }
        };
        let Item { index, offset, .. } = item;
        writeln!(
            self.out,
            "item {index}: {verdict}: {code} {name}, {size} from {offset}"
        )
    }

    /// A line for the item's row, and one for its refusal's.
    fn object(
        &mut self,
        form: Form,
        stream: &[u8],
        item: &Item,
        refused: Option<RefusalRow>,
    ) -> io::Result<()> {
        let (code, name) = code_and_name(&formed(form, *item), stream);
        let (code, name) = (quoted(&code), quoted(&name));
        let verdict = item.verdict.number().map_or(0, Number::get);
        let Item {
            index,
            offset,
            size,
            ..
        } = item;
        writeln!(
            self.out,
            "{{\"live\":\"item\",\"item\":{index},\"offset\":{offset},\"size\":{size},\
             \"code\":{code},\"name\":{name},\"verdict\":{verdict}}}"
        )?;
        match refused.map(|row| row.refusal) {
            None => Ok(()),
            Some(Refusal { number, place }) => writeln!(
                self.out,
                "{{\"live\":\"refusal\",\"item\":{index},{},\"place\":{place}}}",
                why(number)
            ),
        }
    }

    /// The remainder's row, for machines: people see it in what is said at the end.
    fn remainder(&mut self, rest: Option<Remainder>) -> io::Result<()> {
        match (self.style, rest) {
            (Style::Json { .. }, Some(Remainder { offset, number })) => writeln!(
                self.out,
                "{{\"live\":\"remainder\",\"offset\":{offset},{}}}",
                why(number)
            ),
            _ => Ok(()),
        }
    }

    /// For people, an empty line between the items and what is said at the end.
    fn ended(&mut self) -> io::Result<()> {
        match self.any && self.style.is_for_people() {
            true => writeln!(self.out),
            false => Ok(()),
        }
    }
}
