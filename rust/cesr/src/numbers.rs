// Made by tools/numbers from include/numbers.txt: change that, and make it anew.
numbers! {
    /// Stream longer than 4,194,304 characters or 3,145,728 bytes, a mixed one
    /// than 4,194,304 bytes.
    TooLong = 1,
    "stream longer than 4,194,304 characters or 3,145,728 bytes, a mixed one than 4,194,304 bytes";
    /// Whole-stream conversion: not whole units.
    NotWholeUnits = 2,
    "whole-stream conversion: not whole units";
    /// Output room too small.
    Room = 3,
    "output room too small";
    /// Header or full size passes the end of stream or enclosing group.
    PastEnd = 4,
    "header or full size passes the end of stream or enclosing group";
    /// Character outside the alphabet but `+`, `/`, `=` (in T, or a character
    /// of a tag or text given to a writer).
    Character = 5,
    "character outside the alphabet but `+`, `/`, `=` (in T, or a character of a tag or text given to a writer)";
    /// Code unknown or reserved.
    UnknownCode = 6,
    "code unknown or reserved";
    /// Genus/version required but not `AAACAA`.
    GenusVersion = 7,
    "genus/version required but not `AAACAA`";
    /// Pad bit or lead byte not zero.
    NotZero = 8,
    "pad bit or lead byte not zero";
    /// Selector 5, 6, 8, 9 with n = 0.
    LeadWithoutValue = 9,
    "selector 5, 6, 8, 9 with n = 0";
    /// Tag prepad not `_`.
    Prepad = 10,
    "tag prepad not `_`";
    /// Group standing within 64 groups already.
    TooDeep = 11,
    "group standing within 64 groups already";
    /// Writer: raw length, tag length, index or ondex unfit for the code.
    UnfitLength = 12,
    "writer: raw length, tag length, index or ondex unfit for the code";
    /// Walk state unfit for the stream, or state of pieces unfit or ended.
    UnfitState = 13,
    "walk state unfit for the stream, or state of pieces unfit or ended";
    /// Primitive asked for, group or genus/version found.
    NotAPrimitive = 14,
    "primitive asked for, group or genus/version found";
    /// Ondex digits not zero in a code for the current key list only.
    Ondex = 15,
    "ondex digits not zero in a code for the current key list only";
    /// Type `A` without its full fill, or text that itself starts with `A`.
    TextFill = 16,
    "type `A` without its full fill, or text that itself starts with `A`";
    /// Mixed stream: first byte not `-`, F8 to FB or `{`, or a JSON header that
    /// is malformed or states a length below 23.
    MixedStart = 17,
    "mixed stream: first byte not `-`, F8 to FB or `{`, or a JSON header that is malformed or states a length below 23";
    /// Large variable code or large group whose size fits the small code.
    NotShort = 18,
    "large variable code or large group whose size fits the small code";
    /// `+`, `/` or `=` of ordinary Base64 (in T, or a character of a tag or
    /// text given to a writer).
    OrdinaryBase64 = 19,
    "`+`, `/` or `=` of ordinary Base64 (in T, or a character of a tag or text given to a writer)";
    /// Expectation file or report with a missing count, a section shorter than
    /// its count says, a remainder count above 1, or bytes left over.
    Malformed = 20,
    "expectation file or report with a missing count, a section shorter than its count says, a remainder count above 1, or bytes left over";
}
