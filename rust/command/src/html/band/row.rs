//! One row of a band: pieces side by side, each by itself where it is a pixel
//! wide, else with its neighbours.

use crate::markup::escaped;
use crate::words::counted;

/// A band's width, in thousandths of a hundredth.
pub const WHOLE: usize = 100_000;

/// The least width at which a refused piece, or a remainder, is drawn: nobody
/// may overlook it.
const SEEN: usize = 350;
/// From this width on a piece has room for a code.
const LABELLED: usize = 7_000;
/// Marks that are nearer to each other are one.
const APART: usize = 2_000;
/// The widest gap between two pieces.
const GAP: usize = 120;

/// From best to worst: of what is drawn together the worst is told.
#[derive(Clone, Copy, Debug, PartialEq, Eq, PartialOrd, Ord)]
pub enum Kind {
    Accepted,
    /// Accepted by its header, its body not judged.
    Unjudged,
    Remainder,
    Refused,
}

impl Kind {
    fn class(self) -> &'static str {
        match self {
            Kind::Accepted => "accepted",
            Kind::Unjudged => "unjudged",
            Kind::Remainder => "remainder",
            Kind::Refused => "refused",
        }
    }
}

#[derive(Clone, Copy, Debug)]
pub struct Piece {
    pub kind: Kind,
    pub from: usize,
    pub to: usize,
}

/// Pieces that are drawn together.
#[derive(Clone, Copy, Debug)]
struct Thin {
    piece: Piece,
    count: usize,
}

pub struct Row {
    top: usize,
    height: usize,
    /// A pixel, in parts of the width.
    pixel: usize,
    /// What is drawn, and what is drawn over that.
    under: String,
    over: String,
    thin: Option<Thin>,
    kinds: Vec<Kind>,
    /// The last mark.
    marked: Option<usize>,
}

impl Row {
    pub fn new(top: usize, height: usize, columns: usize) -> Row {
        Row {
            top,
            height,
            pixel: WHOLE.checked_div(columns).unwrap_or(WHOLE),
            under: String::new(),
            over: String::new(),
            thin: None,
            kinds: Vec::new(),
            marked: None,
        }
    }

    pub fn has(&self, kind: Kind) -> bool {
        self.kinds.contains(&kind)
    }

    /// The next piece, which stands behind all before it.
    pub fn add(&mut self, piece: Piece, said: impl FnOnce() -> (String, String)) {
        if !self.has(piece.kind) {
            self.kinds.push(piece.kind);
        }
        if piece.to.saturating_sub(piece.from) < self.pixel {
            return self.join(piece);
        }
        self.flush();
        let (label, said) = said();
        self.draw(piece, &said);
        self.label(piece, &label);
    }

    /// A thin piece joins those before it, if it stands beside them. One of
    /// another kind starts anew where they are a pixel wide already.
    fn join(&mut self, piece: Piece) {
        if let Some(thin) = &mut self.thin {
            let wide = thin.piece.to.saturating_sub(thin.piece.from) >= self.pixel;
            let beside = piece.from.saturating_sub(thin.piece.to) < self.pixel;
            if beside && (!wide || thin.piece.kind == piece.kind) {
                thin.piece.to = piece.to;
                thin.piece.kind = thin.piece.kind.max(piece.kind);
                thin.count = thin.count.saturating_add(1);
                return;
            }
        }
        self.flush();
        self.thin = Some(Thin { piece, count: 1 });
    }

    fn flush(&mut self) {
        if let Some(Thin { piece, count }) = self.thin.take() {
            let said = match count {
                1 => "1 item".to_string(),
                _ => format!("{} drawn together", counted(count, "item")),
            };
            self.draw(piece, &said);
        }
    }

    fn draw(&mut self, piece: Piece, said: &str) {
        let Piece { kind, from, to } = piece;
        let width = to.saturating_sub(from);
        let (from, width) = match kind {
            Kind::Refused | Kind::Remainder if width < SEEN => {
                (from.min(WHOLE.saturating_sub(SEEN)), SEEN)
            }
            _ => (from, width.saturating_sub(GAP.min(width / 5))),
        };
        let (top, height, class) = (self.top, self.height, kind.class());
        let (x, w) = (percent(from), percent(width));
        let rect = format!(
            "<rect class=\"{class}\" x=\"{x}\" y=\"{top}\" width=\"{w}\" height=\"{height}\"><title>{}</title></rect>\n",
            escaped(said)
        );
        match kind {
            Kind::Accepted | Kind::Unjudged => self.under.push_str(&rect),
            Kind::Refused | Kind::Remainder => self.over.push_str(&rect),
        }
        if kind == Kind::Refused {
            self.mark(from.saturating_add(width / 2));
        }
    }

    /// A mark over what is refused, in the band itself.
    fn mark(&mut self, at: usize) {
        let near = self
            .marked
            .is_some_and(|last| at.saturating_sub(last) < APART);
        if self.height < self.top || near {
            return;
        }
        self.marked = Some(at);
        let (x, y) = (percent(at), self.top.saturating_sub(3));
        self.over.push_str(&format!(
            "<text class=\"mark\" x=\"{x}\" y=\"{y}\">\u{25BC}</text>\n"
        ));
    }

    fn label(&mut self, piece: Piece, label: &str) {
        let width = piece.to.saturating_sub(piece.from);
        if label.is_empty() || width < LABELLED {
            return;
        }
        let x = percent(piece.from.saturating_add(width / 2));
        let y = self.top.saturating_add(self.height / 2).saturating_add(4);
        let (class, label) = (piece.kind.class(), escaped(label));
        self.over.push_str(&format!(
            "<text class=\"label on-{class}\" x=\"{x}\" y=\"{y}\">{label}</text>\n"
        ));
    }

    pub fn whole(mut self) -> String {
        self.flush();
        format!("<g>{}{}</g>\n", self.under, self.over)
    }
}

fn percent(part: usize) -> String {
    let (whole, rest) = (part / 1_000, part % 1_000);
    format!("{whole}.{rest:03}%")
}

#[cfg(test)]
mod tests {
    use super::*;

    fn row(pieces: &[(Kind, usize, usize)]) -> String {
        let mut row = Row::new(14, 30, 1_000);
        for (kind, from, to) in pieces {
            let piece = Piece {
                kind: *kind,
                from: *from,
                to: *to,
            };
            row.add(piece, Default::default);
        }
        row.whole()
    }

    /// A hundred thousand pieces are no more than a thousand, and one that is
    /// refused is seen among them.
    #[test]
    fn thin_pieces_are_drawn_together() {
        let all: Vec<_> = (0..WHOLE).map(|at| (Kind::Accepted, at, at + 1)).collect();
        let drawn = row(&all);
        assert_eq!(drawn.matches("<rect").count(), 1);
        assert!(drawn.contains("100000 items drawn together"), "{drawn}");
        let one = |at| {
            if at == 50_000 {
                Kind::Refused
            } else {
                Kind::Accepted
            }
        };
        let one: Vec<_> = (0..WHOLE).map(|at| (one(at), at, at + 1)).collect();
        let drawn = row(&one);
        assert_eq!(drawn.matches("<rect").count(), 3);
        assert_eq!(
            (
                drawn.matches("\"refused\"").count(),
                drawn.matches('\u{25BC}').count()
            ),
            (1, 1)
        );
        let every = |at| {
            if at % 2 == 0 {
                Kind::Refused
            } else {
                Kind::Accepted
            }
        };
        let every: Vec<_> = (0..WHOLE).map(|at| (every(at), at, at + 1)).collect();
        assert!(row(&every).matches("<rect").count() <= 1_000);
    }

    /// A piece of a pixel stands by itself; one that is refused has its least
    /// width also at the end.
    #[test]
    fn pieces_by_themselves() {
        let drawn = row(&[(Kind::Accepted, 0, 100), (Kind::Accepted, 100, 200)]);
        assert_eq!(drawn.matches("<rect").count(), 2);
        let drawn = row(&[(Kind::Accepted, 0, 99_999), (Kind::Refused, 99_999, WHOLE)]);
        assert!(
            drawn.contains("x=\"99.650%\" y=\"14\" width=\"0.350%\""),
            "{drawn}"
        );
        assert!(row(&[(Kind::Remainder, 0, WHOLE)]).contains("width=\"99.880%\""));
    }
}
