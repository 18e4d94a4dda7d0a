//! A part of a stream that has one form: all of a text or a binary, one item or
//! the remainder of a mixed stream. Offsets and places are the stream's.

use cesr::{Form, IndexedItem, Primitive, Refusal, Step};

#[derive(Clone, Copy, Debug)]
pub struct Part<'s> {
    pub form: Form,
    pub bytes: &'s [u8],
    /// Where it starts in the stream.
    pub start: usize,
}

impl<'s> Part<'s> {
    /// From an offset of the stream to another.
    pub fn of(&self, from: usize, to: usize) -> &'s [u8] {
        let [from, to] = [from, to].map(|offset| offset.saturating_sub(self.start));
        self.bytes.get(from..to).unwrap_or_default()
    }

    /// Where it ends in the stream.
    pub fn end(&self) -> usize {
        self.start.saturating_add(self.bytes.len())
    }

    pub fn item_at(&self, at: usize) -> Result<Step, Refusal> {
        let step = cesr::item_at(self.form, self.bytes, at.saturating_sub(self.start));
        let step = step.map_err(|refusal| self.placed(refusal))?;
        let offset = step.offset.saturating_add(self.start);
        Ok(Step { offset, ..step })
    }

    pub fn read(&self, at: usize) -> Result<Primitive<'s>, Refusal> {
        cesr::read(self.form, self.bytes, at.saturating_sub(self.start))
            .map_err(|refusal| self.placed(refusal))
    }

    /// An indexed item, in its group that ends there.
    pub fn read_indexed(&self, at: usize, end: usize) -> Result<IndexedItem<'s>, Refusal> {
        let group = self.of(self.start, end);
        cesr::read_indexed(self.form, group, at.saturating_sub(self.start))
            .map_err(|refusal| self.placed(refusal))
    }

    fn placed(&self, refusal: Refusal) -> Refusal {
        let place = refusal.place.saturating_add(self.start);
        Refusal { place, ..refusal }
    }
}
