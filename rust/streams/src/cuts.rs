//! Streams cut into pieces: the lengths of pieces that make up a stream, empty
//! ones among them.

use crate::random::Random;

/// How many ways of cutting there are, and the one into few pieces.
pub const WAYS: usize = 7;
pub const FEW: usize = 5;

/// The lengths of the pieces of a stream of this length, cut in the way with this
/// number. A unit has so many elements.
pub fn lengths(random: &mut Random, length: usize, unit: usize, way: usize) -> Vec<usize> {
    let mut edges: Vec<usize> = match way % WAYS {
        // Each element by itself, and nothing cut.
        0 => (0..=length).collect(),
        1 => Vec::new(),
        // At a unit's edge, one before it and one behind it.
        2 => (0..=length / unit).map(|at| at * unit).collect(),
        3 => (1..=length / unit).map(|at| at * unit - 1).collect(),
        4 => (0..=length / unit).map(|at| at * unit + 1).collect(),
        // Few cuts, and many.
        FEW => some(random, length, 3),
        _ => some(random, length, 1 + length / 3),
    };
    // An edge that comes twice makes an empty piece.
    for _ in 0..random.below(3) {
        edges.push(random.below(length + 1));
        edges.extend(edges.last().copied());
    }
    edges.retain(|edge| *edge <= length);
    edges.sort_unstable();
    edges.push(length);
    let mut from = 0;
    let piece = |edge| edge - std::mem::replace(&mut from, edge);
    edges.into_iter().map(piece).collect()
}

fn some(random: &mut Random, length: usize, most: usize) -> Vec<usize> {
    let cuts = random.below(most + 1);
    (0..cuts).map(|_| random.below(length + 1)).collect()
}

/// The pieces of these lengths.
pub fn pieces<'s>(stream: &'s [u8], lengths: &[usize]) -> Vec<&'s [u8]> {
    let mut rest = stream;
    let mut pieces = Vec::new();
    for length in lengths {
        let (piece, more) = rest.split_at((*length).min(rest.len()));
        pieces.push(piece);
        rest = more;
    }
    pieces
}

#[cfg(test)]
mod tests {
    use super::*;

    /// In every way all of the stream comes, in order; and empty pieces and such
    /// within a unit are met.
    #[test]
    fn pieces_make_up_the_stream() {
        let mut random = Random::new(0xF);
        let (mut empty, mut within) = (0, 0);
        for length in 0..60 {
            let stream = random.bytes(length);
            for way in 0..2 * WAYS {
                for unit in [3, 4] {
                    let lengths = lengths(&mut random, length, unit, way);
                    let pieces = pieces(&stream, &lengths);
                    assert_eq!(pieces.concat(), stream);
                    assert_eq!(pieces.len(), lengths.len());
                    empty += lengths.iter().filter(|length| **length == 0).count();
                    within += usize::from(!lengths[0].is_multiple_of(unit));
                }
            }
        }
        assert!(empty > 500 && within > 500, "{empty} {within}");
    }
}
