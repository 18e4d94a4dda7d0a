//! What 01 itself answers to its deck and 02 to its cases, typed in from the
//! papers.

/// 01's answers: the text, its items (offset, size, verdict), refusals (index,
/// number, place) and remainder (offset, number).
pub type Told = (
    &'static str,
    &'static [[usize; 3]],
    &'static [[usize; 3]],
    &'static [[usize; 2]],
);

#[rustfmt::skip]
pub const TOLD: &[Told] = &[
    ("", &[], &[], &[]),
    ("MAAB", &[[0, 4, 0]], &[], &[]),
    ("MP__", &[[0, 4, 0]], &[], &[]),
    ("MQAA", &[[0, 4, 8]], &[[0, 8, 0]], &[]),
    ("0HD_____", &[[0, 8, 0]], &[], &[]),
    ("0HEAAAAA", &[[0, 8, 8]], &[[0, 8, 0]], &[]),
    ("4BAA", &[[0, 4, 0]], &[], &[]),
    ("5BAA", &[[0, 4, 9]], &[[0, 9, 0]], &[]),
    ("5BABAPAA", &[[0, 8, 0]], &[], &[]),
    ("5BABAQAA", &[[0, 8, 8]], &[[0, 8, 0]], &[]),
    ("0J_A", &[[0, 4, 0]], &[], &[]),
    ("0JAA", &[[0, 4, 10]], &[[0, 10, 0]], &[]),
    ("-0AA", &[], &[], &[[0, 6]]),
    ("-AAA", &[[0, 4, 0]], &[], &[]),
    ("-AABMAAB", &[[0, 8, 0]], &[], &[]),
    ("-AACMAAB", &[], &[], &[[0, 4]]),
    ("-AAC-_AAABAA", &[[0, 12, 7]], &[[0, 7, 4]], &[]),
    ("-JAC-_AAABAA", &[[0, 12, 0]], &[], &[]),
    ("-AAB0AAAMAAB", &[[0, 8, 4], [8, 4, 0]], &[[0, 4, 4]], &[]),
    ("--AAAAAA", &[[0, 8, 18]], &[[0, 18, 0]], &[]),
    ("MA!+", &[], &[], &[[0, 5]]),
    ("MA+!", &[], &[], &[[0, 19]]),
    ("0HEAA/!A", &[[0, 8, 19]], &[[0, 19, 5]], &[]),
    ("-KAB_A=!", &[[0, 8, 19]], &[[0, 19, 6]], &[]),
    ("8AABAAAAMAAB", &[[0, 8, 18], [8, 4, 0]], &[[0, 18, 0]], &[]),
    ("-AAC--JAAAAA", &[[0, 12, 18]], &[[0, 18, 4]], &[]),
    ("4AAA", &[[0, 4, 0]], &[], &[]),
    ("4AABAAAA", &[[0, 8, 16]], &[[0, 16, 0]], &[]),
    ("4AAB-4-5", &[[0, 8, 0]], &[], &[]),
    ("4AADA-a-personal", &[[0, 16, 0]], &[], &[]),
    ("5AAEAA-4-5-legalName", &[[0, 20, 0]], &[], &[]),
    ("6AAEAAA-a-personal-1", &[[0, 20, 0]], &[], &[]),
    ("-AAC4AABAAAAMAAB", &[[0, 12, 16], [12, 4, 0]], &[[0, 16, 4]], &[]),
];

/// 01's raw values: the text and what is read of it.
pub const RAW: &[(&str, &[u8])] = &[
    ("MAAB", &[0x00, 0x01]),
    ("MP__", &[0xFF, 0xFF]),
    ("VABh", &[0x61]),
    ("WGhp", &[0x68, 0x69]),
    ("4BAA", &[]),
    ("5BABAGhp", &[0x68, 0x69]),
    ("6BABAABh", &[0x61]),
];

/// 001's table of paths, and 02's empty text: the item and its characters.
pub const TEXTS: &[(&str, &str)] = &[
    ("6AABAAA-", "-"),
    ("4AADA-a-personal", "-a-personal"),
    ("4AAB-4-5", "-4-5"),
    ("5AAEAA-4-5-legalName", "-4-5-legalName"),
    ("6AAEAAA-a-personal-1", "-a-personal-1"),
    ("4AAB-p-1", "-p-1"),
    ("5AACAA-a-LEI", "-a-LEI"),
    ("4AAC-p-0-0-d", "-p-0-0-d"),
    ("5AAGAA-p-0-certifiedLender-i", "-p-0-certifiedLender-i"),
    ("4AAA", ""),
];

/// 01: the report of `-AAB0AAAMAAB`, 39 bytes; room 53.
pub const REPORT: (&str, [u8; 39], usize) = (
    "-AAB0AAAMAAB",
    [
        0, 0, 0, 2, 0, 0, 0, 0, 0, 0, 0, 8, 4, 0, 0, 0, 8, 0, 0, 0, 4, 0, 0, 0, 0, 1, 0, 0, 0, 0,
        4, 0, 0, 0, 4, 0, 0, 0, 0,
    ],
    53,
);

/// A letter, a body, and the group in text, or number and place in units.
pub type Group = (u8, &'static str, Result<&'static str, (u8, usize)>);

/// 02 e by 01's deck: the body, taken out of a group there, in the group again;
/// what 01 and 02 a say of the same contents refuses it, at the same place
/// without the header.
#[rustfmt::skip]
pub const GROUPS: &[Group] = &[
    (b'A', "", Ok("-AAA")),
    (b'K', "", Ok("-KAA")),
    (b'A', "MAAB", Ok("-AABMAAB")),
    (b'J', "-_AAABAA", Ok("-JAC-_AAABAA")),
    (b'A', "-_AAABAA", Err((7, 0))),
    (b'A', "MAAB-_AAABAA", Ok("-AADMAAB-_AAABAA")),
    (b'A', "-_AAACAA", Ok("-AAC-_AAACAA")),
    (b'A', "0AAA", Err((4, 0))),
    (b'A', "MAAB0AAA", Err((4, 1))),
    (b'J', "-AAC-_AAABAA", Err((7, 1))),
    (b'A', "4AABAAAA", Err((16, 0))),
    (b'J', "--JAAAAA", Err((18, 0))),
    (b'J', "MAAB_AAA", Err((6, 1))),
    (b'K', "MAAB", Err((6, 0))),
    (b'K', "-KAA", Err((6, 0))),
    (b'K', "-_AAACAA", Err((6, 0))),
    (b'0', "MAAB", Err((6, 0))),
    (b'-', "", Err((6, 0))),
    (b'd', "_AAA", Err((6, 0))),
];
