//! Examples of the papers that more than one test runs.

/// 002: raw value, text and binary of short numbers.
pub const SHORTS_OF_002: [(&str, &str, &str); 3] = [
    ("0000", "MAAA", "300000"),
    ("0001", "MAAB", "300001"),
    ("FFFF", "MP__", "30FFFF"),
];

/// 001, "SAD Path Examples": Table 1's nine paths, then those of its two
/// signature groups. The path, its code and its encoding.
pub const SAD_PATHS: [(&str, &str, &str); 11] = [
    ("-", "6A", "6AABAAA-"),
    ("-a-personal", "4A", "4AADA-a-personal"),
    ("-4-5", "4A", "4AAB-4-5"),
    ("-4-5-legalName", "5A", "5AAEAA-4-5-legalName"),
    ("-a-personal-1", "6A", "6AAEAAA-a-personal-1"),
    ("-p-1", "4A", "4AAB-p-1"),
    ("-a-LEI", "5A", "5AACAA-a-LEI"),
    ("-p-0-0-d", "4A", "4AAC-p-0-0-d"),
    (
        "-p-0-certifiedLender-i",
        "5A",
        "5AAGAA-p-0-certifiedLender-i",
    ),
    ("-a-credential", "6A", "6AAEAAA-a-credential"),
    ("-a", "5A", "5AABAA-a"),
];

/// 001's digests, keys and signature whose second (third) character is `Q` or
/// later: post-padded, so a pad bit is set. First the two SAIDs of "Example
/// Computation" and "Example Python dict", the schema's, then those of the
/// ACDC figures and the signature groups.
pub const POST_PADDED_OF_001: [&str; 17] = [
    "E8wYuBjhslETYaLZcxMkWrhVbMcA8RS1pKYl7nJ77ntA",
    "EnKa0ALimLL8eQdZGzglJG_SxvncxkmvwFDhIyLFchUk",
    "EZT9Idj7zLA0Ek6o8oevixdX20607CljNg4zrf_NQINY",
    "EmkPreYpZfFk66jpf3uFv7vklXKhzBrAqjsKAn2EDIPM",
    "E46jrVPTzlSkUPqGGeIZ8a8FWS7a6s4reAXRZOkogZ2A",
    "EgveY4-9XgOcLxUderzwLIr9Bf7V_NHwY1lkFrn9y2PY",
    "EQzFVaMasUf4cZZBKA0pUbRc9T8yUXRFLyM1JDASYqAA",
    "Et2DOOu4ivLsjpv89vgv6auPntSLx4CvOhGUxMhxPS24",
    "EglG9JLG6UhkLrrv012NPuLEc1F3ne5vPH_sHGP_QPN0",
    "E8YrUcVIqrMtDJHMHDde7LHsrBOpvN38PLKe_JCDzVrA",
    "E_T2_p83_gRSuAYvGhqV3S0JzYEF2dIa-OCPLbIhBO7Y",
    "EwmQtlcszNoEIDfqD-Zih3N6o5B3humRKvBBln2juTEM",
    "BmMfUwIOywRkyc5GyQXfgDA4UOAMvjvnXcaK9G939ArM",
    "E2X8OLaLnM0XRQEYgM5UV3bZmWg3UUn7CP4SoKkvsl-s",
    "E-0luqYSg6cPcMFmhiAz8VBQObZLmTQPrgsr7Z1j6CA4",
    "E6lty8H2sA_1acq8zg89_kqF194DbF1cDpwA7UPtwjPQ",
    "0BT7b5PzUBmts-lblgOBzdThIQjKCbq8gMinhymgr4_dD0JyfN6CjZhsOqqUYFmRhABQ-vPywggLATxBDnqQ3aBg",
];

/// 001's digests whose second character, `B` or `I`, is below `Q`.
pub const DIGESTS_OF_001: [&str; 2] = [
    "EBdXt3gIXOf2BBWNHdSXCJnFJL5OuQPyM5K0neuniccM",
    "EIl3MORH3dCdoFOLe71iheqcywJcnjtJtQIYPvAu6DZA",
];

/// 001's sequence number behind its old count.
pub const NUMBER: &str = "-EAB0AAAAAAAAAAAAAAAAAAAAAAB";

/// 01's deck as streams, with its verdicts: the number of the first item's
/// refusal, or of the remainder.
pub const DECK: [(&str, u8); 25] = [
    ("", 0),
    ("MAAB", 0),
    ("MP__", 0),
    ("MQAA", 8),
    ("0HD_____", 0),
    ("0HEAAAAA", 8),
    ("VABh", 0),
    ("WGhp", 0),
    ("1AAM", 0),
    ("4BAA", 0),
    ("5BAA", 9),
    ("5BABAGhp", 0),
    ("6BABAABh", 0),
    ("5BABAPAA", 0),
    ("5BABAQAA", 8),
    ("0J_A", 0),
    ("0JAA", 10),
    ("-0AA", 6),
    ("-AAA", 0),
    ("-AABMAAB", 0),
    ("-AACMAAB", 4),
    ("-AAC-_AAABAA", 7),
    ("-JAC-_AAABAA", 0),
    ("--AAABAA", 4),
    ("E8wYuBjhslETYaLZcxMkWrhVbMcA8RS1pKYl7nJ77ntA", 8),
];
