//! The walk's table of the specification, typed in from 01, asked of this
//! program: each step finds what the row says and leaves its state.

use oracle::form::Form;
use oracle::registry::Code;
use oracle::walk::{step, Found, Walk};

const TABLE: &str = include_str!("../../../crates/walk_deck/specs/Deck.antt");

/// A term of a row: a word, or terms in brackets.
#[derive(Debug)]
enum Term {
    Word(String),
    Terms(Vec<Term>),
}

impl Term {
    fn of_row(row: &str) -> Vec<Term> {
        let spaced = row.replace('(', " ( ").replace(')', " ) ");
        terms(&mut spaced.split_whitespace())
    }

    fn word(&self) -> &str {
        match self {
            Term::Word(word) => word,
            Term::Terms(_) => panic!("brackets for a word: {self:?}"),
        }
    }

    fn number(&self) -> usize {
        let word = self.word();
        word.parse().unwrap_or_else(|_| panic!("no number: {word}"))
    }

    fn terms(&self) -> &[Term] {
        match self {
            Term::Word(_) => std::slice::from_ref(self),
            Term::Terms(terms) => terms,
        }
    }

    /// `1 ∷ 2 ∷ []`, `replicate 64 2`, or so many `A` behind others: `65 ∷ 66 ∷
    /// (filler 86 ++ (51 ∷ []))`.
    fn list(&self) -> Vec<usize> {
        let mut list = Vec::new();
        let mut terms = self.terms().iter();
        while let Some(term) = terms.next() {
            let mut next = || terms.next().expect("one more").number();
            match term {
                Term::Terms(_) => list.extend(term.list()),
                Term::Word(word) => match word.as_str() {
                    "∷" | "[]" | "++" => {}
                    "filler" => list.extend(vec![usize::from(b'A'); next()]),
                    "replicate" => {
                        let (times, value) = (next(), next());
                        list.extend(vec![value; times]);
                    }
                    _ => list.push(term.number()),
                },
            }
        }
        list
    }

    /// `start`, `state ENDS DEPTH AT FIRST`, or `signatures` and the same within
    /// a group of indexed items. Ends and position count units.
    fn state(&self, unit: usize) -> Walk {
        let mut walk = Walk::start();
        let [name, ends, depth, at, first] = self.terms() else {
            assert_eq!(self.word(), "start");
            return walk;
        };
        for (slot, end) in walk.ends.iter_mut().zip(ends.list()) {
            *slot = end * unit;
        }
        walk.open = depth.number();
        walk.position = at.number() * unit;
        walk.first = first.flag();
        walk.indexed = match name.word() {
            "state" => false,
            "signatures" => true,
            other => panic!("no state: {other}"),
        };
        walk
    }

    fn flag(&self) -> bool {
        match self.word() {
            "true" => true,
            "false" => false,
            other => panic!("neither true nor false: {other}"),
        }
    }
}

fn terms<'a>(words: &mut impl Iterator<Item = &'a str>) -> Vec<Term> {
    let mut all = Vec::new();
    while let Some(word) = words.next() {
        match word {
            ")" => return all,
            "(" => all.push(Term::Terms(terms(words))),
            _ => all.push(Term::Word(word.to_owned())),
        }
    }
    all
}

/// What stands before the letter of an indexed code.
fn selector_of(sort: &str) -> &str {
    match sort {
        "letter_indexed" => "",
        "zero_indexed" => "0",
        "two_indexed" => "2",
        "three_indexed" => "3",
        other => panic!("no sort of indexed codes: {other}"),
    }
}

/// A code as the table tells it: `Group 3`, `Genus`, `Fixed ROW`, `Variable
/// LETTER LEAD COUNT`, `Indexed (two_indexed LETTER CURRENT)`, of an item of so
/// many units.
fn is_told(kind: &Term, head: usize, units: usize, code: Code) -> bool {
    let letter = |l: usize| b'A' + u8::try_from(l).expect("a letter");
    let told = match (kind.terms()[0].word(), code) {
        ("Genus", Code::Genus) => true,
        ("Group", Code::Group { letter: l, .. }) => l == letter(kind.terms()[1].number()),
        ("Variable", Code::Variable { letter: l, .. }) => {
            let [_, told, lead, count] = kind.terms() else {
                panic!("{kind:?}")
            };
            l == letter(told.number())
                && [code.lead(), units - head] == [lead.number(), count.number()]
        }
        ("Fixed", Code::Fixed(row)) => {
            let [_, l, size, lead, tag] = kind.terms()[1].terms() else {
                panic!("{kind:?}")
            };
            row.code.as_bytes() == [letter(l.number())]
                && row.full == size.number()
                && [row.lead, row.tag] == [lead.number(), tag.number()]
        }
        ("Indexed", Code::Indexed(row)) => {
            let [selector, l, current] = kind.terms()[1].terms() else {
                panic!("{kind:?}")
            };
            let letter = char::from(letter(l.number()));
            row.code == format!("{}{letter}", selector_of(selector.word()))
                && row.is_current_only() == (current.number() == 1)
        }
        _ => false,
    };
    told && code.header_units() == head
}

#[test]
fn steps_of_the_table() {
    let mut rows = 0;
    for row in TABLE
        .lines()
        .filter_map(|line| line.strip_prefix("    asked "))
    {
        let row = row.split("  --").next().expect("a row");
        let [form, stream, from, gives, ..] = &Term::of_row(row)[..] else {
            panic!("{row}")
        };
        let (form, unit) = match form.word() {
            "text" => (Form::Text, 4),
            _ => (Form::Binary, 3),
        };
        let stream: Vec<u8> = stream
            .list()
            .iter()
            .map(|&b| u8::try_from(b).expect("a byte"))
            .collect();
        let from = from.state(unit);
        let (next, found) = step(from, &stream, form);
        let gives = gives.terms();
        let right = match (gives[0].word(), found) {
            (
                "yields",
                Found::Item {
                    offset,
                    size,
                    depth,
                    code,
                },
            ) => {
                [offset, size, depth] == [gives[1].number(), gives[2].number(), gives[3].number()]
                    && is_told(&gives[4], gives[5].number(), size / unit, code)
                    && next == gives[6].state(unit)
            }
            ("refuses", Found::Refused { number, place }) => {
                [usize::from(number), place] == [gives[1].number(), gives[2].number()]
                    && next == from
            }
            ("ends", Found::End) => next == from,
            _ => false,
        };
        assert!(right, "{row}\n{found:?}\n{next:?}");
        rows += 1;
    }
    assert!(rows >= 70, "{rows}");
}
