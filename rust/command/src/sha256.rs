//! SHA-256 as FIPS 180-4 has it: the digest by which a manifest knows a stream.
//! The standard library has none.

use std::fmt;

/// A digest; it is shown as 64 hexadecimal digits.
#[derive(Clone, Copy, Debug, PartialEq, Eq)]
pub struct Digest([u8; 32]);

/// Bytes of a block.
const BLOCK: usize = 64;
/// Bytes of the last block that tell the length in bits.
const LENGTH: usize = 8;

/// The working variables a to h.
type State = [u32; 8];

/// The digest of these bytes.
pub fn of(bytes: &[u8]) -> Digest {
    let (blocks, rest) = bytes.as_chunks::<BLOCK>();
    let state = blocks.iter().fold(START, compressed);
    let padded = padded(rest, bytes.len());
    let state = padded.as_chunks().0.iter().fold(state, compressed);
    let mut digest = [0; 32];
    for (four, word) in digest.as_chunks_mut().0.iter_mut().zip(state) {
        *four = word.to_be_bytes();
    }
    Digest(digest)
}

/// The bytes behind the last whole block, a one bit, zeros, and the length of
/// all bytes in bits: one block, or two.
fn padded(rest: &[u8], length: usize) -> Vec<u8> {
    let mut padded = rest.to_vec();
    padded.push(0x80);
    while !padded.len().saturating_add(LENGTH).is_multiple_of(BLOCK) {
        padded.push(0);
    }
    let length = u64::try_from(length).unwrap_or(u64::MAX);
    padded.extend(length.wrapping_mul(8).to_be_bytes());
    padded
}

/// One block taken into the state: 64 rounds, each with the next word of the
/// schedule, of which sixteen are kept.
fn compressed(state: State, block: &[u8; BLOCK]) -> State {
    let mut words = [0; 16];
    for (word, four) in words.iter_mut().zip(block.as_chunks().0) {
        *word = u32::from_be_bytes(*four);
    }
    let mut working = state;
    for sixteen in CONSTANTS {
        for (constant, word) in sixteen.iter().zip(words) {
            working = turned(working, constant.wrapping_add(word));
        }
        words = scheduled(words);
    }
    let mut sums = state;
    for (sum, word) in sums.iter_mut().zip(working) {
        *sum = sum.wrapping_add(word);
    }
    sums
}

/// One round.
fn turned([a, b, c, d, e, f, g, h]: State, taken: u32) -> State {
    let big1 = e.rotate_right(6) ^ e.rotate_right(11) ^ e.rotate_right(25);
    let choice = (e & f) ^ (!e & g);
    let first = h
        .wrapping_add(big1)
        .wrapping_add(choice)
        .wrapping_add(taken);
    let big0 = a.rotate_right(2) ^ a.rotate_right(13) ^ a.rotate_right(22);
    let majority = (a & b) ^ (a & c) ^ (b & c);
    let second = big0.wrapping_add(majority);
    let (a1, e1) = (first.wrapping_add(second), d.wrapping_add(first));
    [a1, a, b, c, e1, e, f, g]
}

/// The schedule's next sixteen words, each of the one sixteen back and three
/// others.
fn scheduled(words: [u32; 16]) -> [u32; 16] {
    let [w0, w1, w2, w3, w4, w5, w6, w7, w8, w9, w10, w11, w12, w13, w14, w15] = words;
    let n0 = next(w0, w1, w9, w14);
    let n1 = next(w1, w2, w10, w15);
    let n2 = next(w2, w3, w11, n0);
    let n3 = next(w3, w4, w12, n1);
    let n4 = next(w4, w5, w13, n2);
    let n5 = next(w5, w6, w14, n3);
    let n6 = next(w6, w7, w15, n4);
    let n7 = next(w7, w8, n0, n5);
    let n8 = next(w8, w9, n1, n6);
    let n9 = next(w9, w10, n2, n7);
    let n10 = next(w10, w11, n3, n8);
    let n11 = next(w11, w12, n4, n9);
    let n12 = next(w12, w13, n5, n10);
    let n13 = next(w13, w14, n6, n11);
    let n14 = next(w14, w15, n7, n12);
    let n15 = next(w15, n0, n8, n13);
    [
        n0, n1, n2, n3, n4, n5, n6, n7, n8, n9, n10, n11, n12, n13, n14, n15,
    ]
}

fn next(back16: u32, back15: u32, back7: u32, back2: u32) -> u32 {
    let small0 = back15.rotate_right(7) ^ back15.rotate_right(18) ^ (back15 >> 3);
    let small1 = back2.rotate_right(17) ^ back2.rotate_right(19) ^ (back2 >> 10);
    back16
        .wrapping_add(small0)
        .wrapping_add(back7)
        .wrapping_add(small1)
}

impl Digest {
    /// A digest by its 64 digits.
    pub fn parse(digits: &[u8]) -> Option<Digest> {
        let (pairs, rest) = digits.as_chunks::<2>();
        let mut digest = [0; 32];
        if !rest.is_empty() || pairs.len() != digest.len() {
            return None;
        }
        for (byte, [high, low]) in digest.iter_mut().zip(pairs) {
            *byte = digit(*high)?.checked_mul(16)?.checked_add(digit(*low)?)?;
        }
        Some(Digest(digest))
    }
}

fn digit(character: u8) -> Option<u8> {
    let value = char::from(character).to_digit(16)?;
    u8::try_from(value).ok()
}

impl fmt::Display for Digest {
    fn fmt(&self, f: &mut fmt::Formatter<'_>) -> fmt::Result {
        self.0.iter().try_for_each(|byte| write!(f, "{byte:02x}"))
    }
}

/// The first 32 bits of the fractions of the square roots of the first eight
/// primes.
const START: State = [
    0x6a09e667, 0xbb67ae85, 0x3c6ef372, 0xa54ff53a, 0x510e527f, 0x9b05688c, 0x1f83d9ab, 0x5be0cd19,
];

/// The same of the cube roots of the first 64 primes, by sixteens.
#[rustfmt::skip]
const CONSTANTS: [[u32; 16]; 4] = [
    [
        0x428a2f98, 0x71374491, 0xb5c0fbcf, 0xe9b5dba5, 0x3956c25b, 0x59f111f1, 0x923f82a4, 0xab1c5ed5,
        0xd807aa98, 0x12835b01, 0x243185be, 0x550c7dc3, 0x72be5d74, 0x80deb1fe, 0x9bdc06a7, 0xc19bf174,
    ],
    [
        0xe49b69c1, 0xefbe4786, 0x0fc19dc6, 0x240ca1cc, 0x2de92c6f, 0x4a7484aa, 0x5cb0a9dc, 0x76f988da,
        0x983e5152, 0xa831c66d, 0xb00327c8, 0xbf597fc7, 0xc6e00bf3, 0xd5a79147, 0x06ca6351, 0x14292967,
    ],
    [
        0x27b70a85, 0x2e1b2138, 0x4d2c6dfc, 0x53380d13, 0x650a7354, 0x766a0abb, 0x81c2c92e, 0x92722c85,
        0xa2bfe8a1, 0xa81a664b, 0xc24b8b70, 0xc76c51a3, 0xd192e819, 0xd6990624, 0xf40e3585, 0x106aa070,
    ],
    [
        0x19a4c116, 0x1e376c08, 0x2748774c, 0x34b0bcb5, 0x391c0cb3, 0x4ed8aa4a, 0x5b9cca4f, 0x682e6ff3,
        0x748f82ee, 0x78a5636f, 0x84c87814, 0x8cc70208, 0x90befffa, 0xa4506ceb, 0xbef9a3f7, 0xc67178f2,
    ],
];

#[cfg(test)]
mod tests {
    use super::*;
    use std::io::Write;
    use std::process::{Command, Stdio};

    /// FIPS 180's examples: one block, two blocks, a million letters; and the
    /// vectors of no byte and of a long message, as NIST's page has them.
    #[test]
    fn the_standards_examples() {
        let long = b"abcdefghbcdefghicdefghijdefghijkefghijklfghijklmghijklmn\
                     hijklmnoijklmnopjklmnopqklmnopqrlmnopqrsmnopqrstnopqrstu";
        for (message, digest) in [
            (
                &b"abc"[..],
                "ba7816bf8f01cfea414140de5dae2223b00361a396177a9cb410ff61f20015ad",
            ),
            (
                b"abcdbcdecdefdefgefghfghighijhijkijkljklmklmnlmnomnopnopq",
                "248d6a61d20638b8e5c026930c3e6039a33ce45964ff2167f6ecedd419db06c1",
            ),
            (
                &b"a".repeat(1_000_000),
                "cdc76e5c9914fb9281a1c7e284d73e67f1809a48a497200e046d39ccc7112cd0",
            ),
            (
                b"",
                "e3b0c44298fc1c149afbf4c8996fb92427ae41e4649b934ca495991b7852b855",
            ),
            (
                long,
                "cf5b16a778af8380036ce59e7b0492370b249b11e8f07a51afac45037afee9d1",
            ),
        ] {
            assert_eq!(of(message).to_string(), digest);
        }
    }

    /// Each length around the ends of blocks, beside another program, where
    /// that is installed.
    #[test]
    fn as_sha256sum_has_it() {
        let bytes: Vec<u8> = (0..=255).cycle().take(100_000).collect();
        let lengths = (0..=200).chain([4_095, 4_096, 65_599, 100_000]);
        for length in lengths {
            let Some(digits) = by_sha256sum(&bytes[..length]) else {
                return;
            };
            assert_eq!(of(&bytes[..length]).to_string(), digits, "{length} bytes");
            assert_eq!(Digest::parse(digits.as_bytes()), Some(of(&bytes[..length])));
        }
    }

    fn by_sha256sum(bytes: &[u8]) -> Option<String> {
        let mut command = Command::new("sha256sum");
        let child = command.stdin(Stdio::piped()).stdout(Stdio::piped()).spawn();
        let mut child = child.ok()?;
        let mut input = child.stdin.take().expect("a pipe");
        input.write_all(bytes).expect("all is read");
        drop(input);
        let said = child.wait_with_output().expect("an answer").stdout;
        let digits = said.split(|byte| *byte == b' ').next()?;
        Some(String::from_utf8(digits.to_vec()).expect("digits"))
    }

    #[test]
    fn what_is_no_digest() {
        let digits = "0123456789abcdefABCDEF9876543210".repeat(2);
        assert!(Digest::parse(digits.as_bytes()).is_some());
        for wrong in [
            &digits[1..],
            &format!("{digits}0"),
            &digits.replace('0', "g"),
            "",
        ] {
            assert_eq!(Digest::parse(wrong.as_bytes()), None);
        }
    }
}
