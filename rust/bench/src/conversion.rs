//! The tables of the two conversions. Sizes are those of the output.

use crate::race::{Contender, Race, Rate, REFUSED};
use crate::SIZES;
use streams::Random;

static TO_BINARY: [Contender; 4] = [
    Contender {
        name: "Rattle",
        call: |text, out| proved::to_binary(text, out).unwrap_or(REFUSED),
    },
    Contender {
        name: "plain loop",
        call: |text, out| baseline::plain_to_binary(text, out).unwrap_or(REFUSED),
    },
    Contender {
        name: "baseline",
        call: |text, out| baseline::to_binary(text, out).unwrap_or(REFUSED),
    },
    MEMCPY,
];

static TO_TEXT: [Contender; 4] = [
    Contender {
        name: "Rattle",
        call: |binary, out| proved::to_text(binary, out).unwrap_or(REFUSED),
    },
    Contender {
        name: "plain loop",
        call: |binary, out| baseline::plain_to_text(binary, out).unwrap_or(REFUSED),
    },
    Contender {
        name: "baseline",
        call: |binary, out| baseline::to_text(binary, out).unwrap_or(REFUSED),
    },
    MEMCPY,
];

/// Copies as many bytes as the answer has: the input, and from its start again
/// if the answer is longer.
const MEMCPY: Contender = Contender {
    name: "memcpy",
    call: |input, out| {
        for part in out.chunks_mut(input.len()) {
            part.copy_from_slice(&input[..part.len()]);
        }
        out.len()
    },
};

/// All but the last contender write the same bytes.
const EQUAL: usize = 3;

pub fn races() -> Vec<Race> {
    let mut random = Random::new(1);
    let mut races = Vec::new();
    for (name, size) in SIZES {
        let room = size / 3 * 3;
        let text = random.characters(room / 3 * 4);
        let title = format!("Text to binary, {name} of output");
        let rate = Rate::Bytes(room);
        races.push(Race::new(title, &TO_BINARY, EQUAL, text, room, rate));
    }
    for (name, size) in SIZES {
        let binary = random.bytes(size / 4 * 3);
        let title = format!("Binary to text, {name} of output");
        let rate = Rate::Bytes(size);
        races.push(Race::new(title, &TO_TEXT, EQUAL, binary, size, rate));
    }
    races
}
