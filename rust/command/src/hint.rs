//! The numbers for who has not read the papers: what each says in plain words,
//! and what is usually behind it. The papers' own words are `Number::words`.

use cesr::Number;

/// What the number says, as a sentence.
pub fn plain(number: Number) -> &'static str {
    of(number).1
}

/// What is usually behind it, as the rest of a line.
pub fn usually(number: Number) -> &'static str {
    of(number).2
}

fn of(number: Number) -> (Number, &'static str, &'static str) {
    let row = WORDS.iter().find(|row| row.0 == number);
    row.copied().unwrap_or((number, "", ""))
}

/// A number, what it says, what is usually behind it.
#[rustfmt::skip]
const WORDS: &[(Number, &str, &str)] = &[
    (
        Number::TooLong,
        "The stream is longer than any that is judged.",
        "several decks in one file, or a file that is no stream",
    ),
    (
        Number::NotWholeUnits,
        "The stream does not end with a whole unit of 4 characters or 3 bytes.",
        "a stream that was cut off, or a line feed at its end",
    ),
    (
        Number::Room,
        "The buffer for the answer is too small.",
        "room for the values alone, without headers and rows",
    ),
    (
        Number::PastEnd,
        "The item asks for more than is left.",
        "a stream cut off, items counted instead of units, or a line feed at the end",
    ),
    (
        Number::Character,
        "A character that no stream may hold.",
        "a line feed, a blank, or a byte of another encoding",
    ),
    (
        Number::UnknownCode,
        "No item starts like this.",
        "a code of an older draft or another table, or a byte order mark in front",
    ),
    (
        Number::GenusVersion,
        "The version that is stated here is another than 2.00.",
        "-_AAABAA, which is version 1.00",
    ),
    (
        Number::NotZero,
        "Bits or bytes in front of the value must be zero and are not.",
        "a value padded behind its end, as older drafts had it",
    ),
    (
        Number::LeadWithoutValue,
        "A value without bytes is said to open with lead bytes.",
        "an empty value with another selector than 4 or 7",
    ),
    (
        Number::Prepad,
        "The character in front of a tag must be _ and is not.",
        "a tag filled up with A, or with one character too many",
    ),
    (
        Number::TooDeep,
        "A group stands deeper in others than any may.",
        "a writer that puts its own output into one more group each time",
    ),
    (
        Number::UnfitLength,
        "The value is too long or too short for its code.",
        "a digest or key of another kind than the code's",
    ),
    (
        Number::UnfitState,
        "The walk, or a stream in pieces, can't go on from this state.",
        "the state of another stream, one that is damaged, or a piece after the end",
    ),
    (
        Number::NotAPrimitive,
        "A group stands where a single value is asked for.",
        "the offset of a group: its items stand behind its header",
    ),
    (
        Number::Ondex,
        "A signature for the current keys alone says a place among the next ones.",
        "a code for the current key list with the ondex of one that has both",
    ),
    (
        Number::TextFill,
        "Text must be filled up in front with A, and may not start with A itself.",
        "text filled up behind its end, or another selector than its length asks for",
    ),
    (
        Number::MixedStart,
        "No item of a mixed stream starts like this.",
        "a value outside a group, a line feed, or JSON without a version 1 string",
    ),
    (
        Number::NotShort,
        "A large code stands where the small one has room.",
        "a writer that takes the large code for every size",
    ),
    (
        Number::OrdinaryBase64,
        "A character of ordinary Base64, which no stream may hold.",
        "an encoder of ordinary Base64 in place of its URL-safe kind",
    ),
    (
        Number::Malformed,
        "The expectation or the report is not well made.",
        "a file that was cut off, or is another kind of file",
    ),
];

#[cfg(test)]
mod tests {
    use super::*;

    /// Every number has both, in a line that a terminal has room for.
    #[test]
    fn every_number_has_its_words() {
        for number in Number::all() {
            let (_, plain, usually) = of(number);
            assert!(
                plain.ends_with('.') && plain.len() < 80,
                "{number}: {plain}"
            );
            assert!(!usually.is_empty() && !usually.ends_with('.'), "{number}");
            assert!(usually.len() < 80, "{number}: {usually}");
            assert!(plain.is_ascii() && usually.is_ascii(), "{number}");
        }
    }
}
