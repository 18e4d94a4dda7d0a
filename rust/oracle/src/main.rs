//! The oracle as a program for scripts. See `--help`.

use oracle::convert;
use oracle::form::Form;
use oracle::group;
use oracle::indexed::{self, IndexedItem};
use oracle::mixed;
use oracle::pieces::Pieces;
use oracle::primitive::{self, Named, Primitive, Tag};
use oracle::refusal::Refusal;
use oracle::report::{report, write_report};
use oracle::walk::{step, Found, Walk};
use std::io::{self, Read, Write};
use std::process::ExitCode;

const HELP: &str = "\
oracle: an independent second opinion on CESR streams

usage, with FORM = text or binary; the stream comes from standard input:
  oracle report FORM [--room N]       the report's bytes
  oracle report mixed [--room N]      those of a stream that changes form at top level
  oracle convert to-binary [--room N] the stream's bytes in binary
  oracle convert to-text [--room N]   the stream's characters in text
  oracle read FORM OFFSET [--room N]  one line: code=C tag=T raw=HEX text=T size=N
  oracle read-indexed FORM OFFSET [--room N]
                                      one line: code=C index=N ondex=N raw=HEX size=N
  oracle walk FORM                    one line an item: OFFSET SIZE DEPTH CODE
  oracle pieces FORM SIZE             the stream in pieces of SIZE bytes: a line for
                                      each piece and the end, with the rows that it
                                      gives in hexadecimal, `-` for none
  oracle group FORM LETTER [--length N] [--room N]
                                      the body in a group; N characters or bytes of
                                      it, in a buffer of N
  oracle step FORM OPEN POSITION FIRST INDEXED [END ...]
                                      one step from a given state, FIRST and
                                      INDEXED 0 or 1, up to 64 slots (the rest 0); two lines:
                                      what is found (as in walk, or `end`), and
                                      the next state in the same order
without a stream:
  oracle write FORM CODE [--tag S] [--raw HEX] [--room N]
  oracle write FORM small|large TYPE [--raw HEX | --text S] [--room N]
                                      the item's characters or bytes; type A
                                      takes text
  oracle write-indexed FORM CODE [--index N] [--ondex N] [--raw HEX] [--room N]
                                      the item's characters or bytes; CODE A to D,
                                      0A, 0B, 2A to 2D, 3A, 3B

N of --room is the room lent, in bytes (for read of the raw value or the text, for
group of header and body); without it the room is enough. In binary, read asks room for text only. Offsets and sizes are in characters
for text and bytes for binary. CODE names in answers: M 0A 1AAM 4B 7AAB -A --A -_

exit 0: done. exit 1: refused, and `refused NUMBER PLACE` on standard error
(walk has then printed the items before it). exit 2: wrong usage.
";

/// Why there is no answer: a refusal by the papers, or no sense in the call.
enum Failure {
    Refused(Refusal),
    Usage(&'static str),
    Io(io::Error),
}

impl From<Refusal> for Failure {
    fn from(refused: Refusal) -> Self {
        Failure::Refused(refused)
    }
}

impl From<io::Error> for Failure {
    fn from(error: io::Error) -> Self {
        Failure::Io(error)
    }
}

type Answer = Result<Vec<u8>, Failure>;

fn main() -> ExitCode {
    let words = std::env::args_os().skip(1);
    let words: Vec<Vec<u8>> = words.map(|w| w.into_encoded_bytes()).collect();
    let done = run(&words).and_then(|answer| Ok(io::stdout().write_all(&answer)?));
    match done {
        Ok(()) => ExitCode::SUCCESS,
        Err(Failure::Refused(Refusal { number, place })) => {
            eprintln!("refused {number} {place}");
            ExitCode::from(1)
        }
        Err(Failure::Usage(why)) => {
            eprintln!("usage: {why}; see oracle --help");
            ExitCode::from(2)
        }
        Err(Failure::Io(error)) => {
            eprintln!("input or output: {error}");
            ExitCode::from(2)
        }
    }
}

fn run(words: &[Vec<u8>]) -> Answer {
    let words: Vec<&[u8]> = words.iter().map(Vec::as_slice).collect();
    let (plain, options) = Options::split(&words)?;
    match plain.as_slice() {
        [b"--help" | b"-h" | b"help"] => Ok(HELP.into()),
        [b"report", b"mixed"] => run_report_mixed(&options),
        [b"report", name] => run_report(form(name)?, &options),
        [b"convert", way] => run_convert(way, &options),
        [b"read", name, offset] => run_read(form(name)?, number(offset)?, &options),
        [b"read-indexed", name, offset] => run_read_indexed(form(name)?, number(offset)?, &options),
        [b"write-indexed", name, code] => run_write_indexed(form(name)?, code, &options),
        [b"group", name, letter] => run_group(form(name)?, letter, &options),
        [b"walk", name] => run_walk(form(name)?),
        [b"pieces", name, size] => run_pieces(form(name)?, number(size)?),
        [b"step", name, rest @ ..] => run_step(form(name)?, rest),
        [b"write", name, b"small", letter] => {
            run_write(form(name)?, typed(letter, false)?, &options)
        }
        [b"write", name, b"large", letter] => {
            run_write(form(name)?, typed(letter, true)?, &options)
        }
        [b"write", name, code] => run_write(form(name)?, Named::Fixed(code), &options),
        _ => Err(Failure::Usage("no such command")),
    }
}

/// The `--name value` pairs among the words.
#[derive(Default)]
struct Options {
    room: Option<usize>,
    tag: Vec<u8>,
    raw: Vec<u8>,
    index: usize,
    ondex: usize,
    length: Option<usize>,
}

impl Options {
    fn split<'w>(words: &[&'w [u8]]) -> Result<(Vec<&'w [u8]>, Options), Failure> {
        let mut plain = Vec::new();
        let mut options = Options::default();
        let mut words = words.iter();
        while let Some(word) = words.next() {
            let mut given = || words.next().ok_or(Failure::Usage("a value is missing"));
            match *word {
                b"--room" => options.room = Some(number(given()?)?),
                b"--length" => options.length = Some(number(given()?)?),
                b"--index" => options.index = number(given()?)?,
                b"--ondex" => options.ondex = number(given()?)?,
                b"--tag" => options.tag = given()?.to_vec(),
                b"--raw" => options.raw = bytes_of_hex(given()?)?,
                b"--text" => options.raw = given()?.to_vec(),
                other => plain.push(other),
            }
        }
        Ok((plain, options))
    }

    /// A buffer of the asked room, or of `enough`. More than enough makes no
    /// difference to any answer, so it is not taken.
    fn buffer(&self, enough: usize) -> Vec<u8> {
        vec![0; self.room.map_or(enough, |room| room.min(enough))]
    }
}

fn run_report(form: Form, options: &Options) -> Answer {
    let stream = standard_input()?;
    let mut out = options.buffer(report(&stream, form)?.room());
    let length = write_report(&stream, form, &mut out)?;
    out.truncate(length);
    Ok(out)
}

fn run_report_mixed(options: &Options) -> Answer {
    let stream = standard_input()?;
    let mut out = options.buffer(mixed::report(&stream)?.room());
    let length = mixed::write_report(&stream, &mut out)?;
    out.truncate(length);
    Ok(out)
}

fn run_convert(way: &[u8], options: &Options) -> Answer {
    let stream = standard_input()?;
    let mut out = options.buffer(stream.len() / 3 * 4);
    let length = match way {
        b"to-binary" => convert::to_binary(&stream, &mut out)?,
        b"to-text" => convert::to_text(&stream, &mut out)?,
        _ => return Err(Failure::Usage("to-binary or to-text")),
    };
    out.truncate(length);
    Ok(out)
}

fn run_read(form: Form, offset: usize, options: &Options) -> Answer {
    let stream = standard_input()?;
    // A binary's text has four characters for three bytes.
    let mut out = options.buffer(stream.len() / 3 * 4 + 4);
    if form == Form::Binary {
        let (found, raw) = primitive::read_binary(&stream, offset, &mut out)?;
        return Ok(read_line(&found, raw, &out[..found.text]));
    }
    let found = primitive::read_text(&stream, offset, &mut out)?;
    Ok(read_line(&found, &out[..found.raw], &out[..found.text]))
}

fn read_line(found: &Primitive, raw: &[u8], text: &[u8]) -> Vec<u8> {
    let tag = String::from_utf8_lossy(&found.tag.characters[..found.tag.number]);
    let raw: String = raw.iter().map(|byte| format!("{byte:02x}")).collect();
    let text = String::from_utf8_lossy(text);
    let code = found.code.characters();
    format!(
        "code={code} tag={tag} raw={raw} text={text} size={}\n",
        found.size
    )
    .into()
}

fn run_read_indexed(form: Form, offset: usize, options: &Options) -> Answer {
    let stream = standard_input()?;
    if form == Form::Binary {
        let (found, raw) = indexed::read_binary(&stream, offset)?;
        return Ok(indexed_line(&found, raw));
    }
    let mut out = options.buffer(stream.len());
    let found = indexed::read_text(&stream, offset, &mut out)?;
    Ok(indexed_line(&found, &out[..found.raw]))
}

fn indexed_line(found: &IndexedItem, raw: &[u8]) -> Vec<u8> {
    let raw: String = raw.iter().map(|byte| format!("{byte:02x}")).collect();
    let IndexedItem {
        row,
        size,
        index,
        ondex,
        ..
    } = found;
    let code = row.code;
    format!("code={code} index={index} ondex={ondex} raw={raw} size={size}\n").into()
}

fn run_write_indexed(form: Form, code: &[u8], options: &Options) -> Answer {
    let (index, ondex) = (options.index as u64, options.ondex as u64);
    let mut out = options.buffer(256);
    let length = indexed::write(code, index, ondex, &options.raw, form, &mut out)?;
    out.truncate(length);
    Ok(out)
}

fn run_group(form: Form, letter: &[u8], options: &Options) -> Answer {
    let [letter] = *letter else {
        return Err(Failure::Usage("a group's letter is one character"));
    };
    let mut buffer = standard_input()?;
    let length = options.length.unwrap_or(buffer.len());
    // The largest header has eight characters.
    let enough = buffer.len() + 8;
    buffer.resize(options.room.unwrap_or(enough).min(enough), 0);
    let size = group::write(letter, form, length, &mut buffer)?;
    buffer.truncate(size);
    Ok(buffer)
}

fn run_write(form: Form, named: Named, options: &Options) -> Answer {
    // Enough for any item: the largest header, lead, fixed item and value.
    let mut out = options.buffer(256 + options.raw.len() / 3 * 4);
    let tag = Tag::of(&options.tag);
    let length = primitive::write(named, &tag, &options.raw, form, &mut out)?;
    out.truncate(length);
    Ok(out)
}

fn run_walk(form: Form) -> Answer {
    let stream = standard_input()?;
    let mut lines = String::new();
    let mut state = Walk::start();
    loop {
        let (next, found) = step(state, &stream, form);
        match found {
            Found::Item { .. } => lines += &found_line(&found),
            Found::End => return Ok(lines.into()),
            Found::Refused { number, place } => {
                io::stdout().write_all(lines.as_bytes())?;
                return Err(Refusal::new(number, place).into());
            }
        }
        state = next;
    }
}

fn run_pieces(form: Form, size: usize) -> Answer {
    let stream = standard_input()?;
    let mut lines = String::new();
    let mut state = Pieces::start(form);
    // A piece completes no more items than it has bytes.
    let room = 9 * size.min(stream.len());
    for piece in stream.chunks(size.max(1)) {
        let (mut items, mut refusals) = (vec![0; room], vec![0; room]);
        let (n, m) = state.feed(piece, &mut items, &mut refusals)?;
        lines += &format!("{} {}\n", hex(&items[..n]), hex(&refusals[..m]));
    }
    let mut rest = [0; 5];
    let length = state.end(&mut rest)?;
    Ok((lines + &hex(&rest[..length]) + "\n").into())
}

fn hex(bytes: &[u8]) -> String {
    match bytes {
        [] => "-".to_string(),
        _ => bytes.iter().map(|byte| format!("{byte:02x}")).collect(),
    }
}

fn found_line(found: &Found) -> String {
    match found {
        Found::Item {
            offset,
            size,
            depth,
            code,
        } => format!("{offset} {size} {depth} {}\n", code.characters()),
        Found::Refused { number, place } => format!("refused {number} {place}\n"),
        Found::End => "end\n".to_string(),
    }
}

fn run_step(form: Form, words: &[&[u8]]) -> Answer {
    let numbers: Result<Vec<usize>, Failure> = words.iter().map(|w| number(w)).collect();
    let numbers = numbers?;
    let [open, position, first, indexed, ends @ ..] = numbers.as_slice() else {
        return Err(Failure::Usage(
            "step FORM OPEN POSITION FIRST INDEXED [END ...]",
        ));
    };
    let mut state = Walk::start();
    if ends.len() > state.ends.len() || *first > 1 || *indexed > 1 {
        return Err(Failure::Usage("at most 64 ends, FIRST and INDEXED 0 or 1"));
    }
    state.ends[..ends.len()].copy_from_slice(ends);
    (state.open, state.position) = (*open, *position);
    (state.first, state.indexed) = (*first == 1, *indexed == 1);
    let (next, found) = step(state, &standard_input()?, form);
    if let Found::Refused { number, place } = found {
        return Err(Refusal::new(number, place).into());
    }
    let ends: String = next.ends.iter().map(|end| format!(" {end}")).collect();
    let (first, indexed) = (u8::from(next.first), u8::from(next.indexed));
    let line = format!("{} {} {first} {indexed}{ends}\n", next.open, next.position);
    Ok((found_line(&found) + &line).into())
}

fn form(name: &[u8]) -> Result<Form, Failure> {
    match name {
        b"text" => Ok(Form::Text),
        b"binary" => Ok(Form::Binary),
        _ => Err(Failure::Usage("text or binary")),
    }
}

fn typed(letter: &[u8], large: bool) -> Result<Named<'static>, Failure> {
    match *letter {
        [letter] => Ok(Named::Variable { letter, large }),
        // Not one letter: no type at all, so it is 6 like any unknown one.
        _ => Err(Refusal::new(oracle::refusal::UNKNOWN_CODE, 0).into()),
    }
}

fn number(word: &[u8]) -> Result<usize, Failure> {
    let word = std::str::from_utf8(word).ok();
    word.and_then(|word| word.parse().ok())
        .ok_or(Failure::Usage("a number was expected"))
}

fn bytes_of_hex(word: &[u8]) -> Result<Vec<u8>, Failure> {
    let wrong = || Failure::Usage("an even number of hexadecimal digits was expected");
    let digit = |character: &u8| (*character as char).to_digit(16).ok_or_else(wrong);
    let digits = word.iter().map(digit).collect::<Result<Vec<u32>, _>>()?;
    if !digits.len().is_multiple_of(2) {
        return Err(wrong());
    }
    let pairs = digits.chunks_exact(2);
    Ok(pairs.map(|pair| (pair[0] * 16 + pair[1]) as u8).collect())
}

fn standard_input() -> Result<Vec<u8>, Failure> {
    let mut stream = Vec::new();
    io::stdin().read_to_end(&mut stream)?;
    Ok(stream)
}
