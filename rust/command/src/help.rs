//! The texts of `--help`, `--version` and `numbers`.

use crate::hint;
use cesr::Number;

pub const HELP: &str = "\
cesr: judges, converts, shows, compares and writes CESR streams

  cesr judge [--form text|binary|mixed] [--engine first|second|both]
             [--manifest LIST] [--live] [--all] [--json | --report]
             [--html FILE] [--junit FILE] [--sarif FILE] [--] [FILE...]
  cesr convert [--to text|binary] [--out FILE] [--] [FILE]
  cesr show [--form text|binary|mixed] OFFSET [--] [FILE]
  cesr group --form text|binary LETTER [--out FILE] [--] [FILE]
  cesr write CODE --form text|binary [--index N] [--ondex N]
             [--raw HEX | --tag T | --text T] [--out FILE]
  cesr manifest [--form text|binary|mixed] [--] FILE...
  cesr compare [--json] [--] EXPECTED [REPORT]
  cesr expect [--form text|binary] [--out FILE] [--] [FILE]
  cesr numbers

judge     One FILE: items, accepted, refused, remainder; then refused items, eight
          at most, with number, meaning, place and bytes. Many: a line each and a
          total. A mixed stream has groups in text and in binary, and JSON, at
          its top level by turns; the bodies of JSON items are not judged, and
          every output says so.
          --all       every item with its code's name and every refused one; in a
                      mixed stream with its form, of JSON protocol and version
          --json      one object a line, for machines; with --all every item too
          --report    the report's bytes
          --engine    second judges by a plain engine that shares little with the
                      first; both by either, and where their reports differ that
                      is an error and nothing is passed. A mixed stream is judged
                      by the first alone
          --manifest  the streams of LIST, or the given ones held against it: 0
                      only if every stream of LIST is there, is the one that is
                      listed, and passed
          --live      one stream, of standard input or a pipe, while it is being
                      written: items as they come to their end, then what judge
                      says of the whole; with --json a line for each row too
          Beside that, a file that is replaced when all is judged:
          --html      a page to look at and print, with a drawing of each stream
          --junit     a suite for build servers, a case for each stream
          --sarif     a log for build servers, a result for each refusal
convert   The whole stream in the other form, to standard output or --out FILE,
          which is replaced when all is written. It looks at no codes: a
          converted stream has not been judged.
show      One item at an offset, as a stream by itself: code, name, raw value in
          hexadecimal, text or tag characters; a group with the items inside; a
          signature of a group -K or -L with index and ondex. An offset where no
          item starts is said to be none, and what it lies in.
group     The items of FILE in a group, to standard output or --out FILE. LETTER is
          the group's, K for -K. The items are judged as its contents, those of K
          and L as indexed items, and what is refused there is not written. An
          empty FILE makes an empty group.
write     One item, to standard output or --out FILE. With --index it is an indexed
          item, for a group -K or -L, without it a primitive: both have codes A to
          D, 0A and 0B. CODE is like M, 0H, 1AAM, 4B or 7AAB; the selector of a
          variable value follows from its length.
          --raw    the raw value, in hexadecimal digits
          --tag    tag characters
          --text   the text of type A
          --index, --ondex   places in the current and in the next key list
manifest  A line for each FILE: SHA256 LENGTH FORM NAME. Names in a manifest are
          relative to its folder. It looks at no codes.
compare   An expectation file held against a report's bytes (judge --report, of a
          text or a binary): how many verdicts passed, failed or were not reached, items beyond them,
          and whether the remainders agree. --json: one object.
expect    An expectation file, of a stream's own verdicts, or of a list: a number
          a line, 0 for accepted, then 'remainder N' or nothing. With --form it
          is a stream; without, a list if it reads as one.
numbers   What each number of a refusal means.

No FILE or REPORT, or -, is standard input. Behind -- every word is a file's name, - too:
put it before names that come from a list or a pattern. Without it a word that
could be an option and is a file's name is an error. Without --form the form is
detected from the first sixteen bytes (text if all are printable; judge, show and
manifest take a stream that begins with { for mixed), and the output says so; group
and write guess nothing. Items are counted from 0. Offsets, sizes and places count
characters in text and bytes in binary and mixed streams, from 0 too.

Exit status
  0  every byte of every stream lies in an accepted item
  1  an item is refused, or a remainder is left
  2  a call was refused (a stream over the limit), a stream is empty, changed
     while it was read or is other than listed, the two engines differ, or
     something could not be read or written
show says so of its one item, and gives 1 where no item starts. convert, group,
write, manifest and expect give 0 if all was written. compare gives 0 if all is as
expected, 1 if anything is otherwise, and 2 for a file or report that is not well
made, or nothing expected and nothing there.
--help behind a command gives 2: nothing was judged.
";

pub const VERSION: &str = concat!("cesr ", env!("CARGO_PKG_VERSION"), "\n");

pub fn numbers() -> String {
    let line = |number: Number| {
        let (words, usually) = (number.words(), hint::usually(number));
        format!("{number:>2}  {words}\n    usually {usually}\n")
    };
    Number::all().map(line).collect()
}
