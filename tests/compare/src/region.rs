//! The same bytes twice: once for the model, once, guarded, for what is compared with it.

use std::ops::Range;

use crate::guarded::Guarded;

/// Where in the guarded memory a slice is lent; past either end nothing can be read.
#[derive(Clone, Copy, Debug, PartialEq, Eq)]
pub enum Edge {
    Start,
    End,
    /// One byte from the start, at an odd address.
    Odd,
}

pub struct Region {
    model: Vec<u8>,
    subject: Guarded,
    lent: Range<usize>,
}

impl Region {
    pub fn new(capacity: usize) -> Region {
        let subject = Guarded::new(capacity);
        let model = vec![0; subject.len()];
        let mut region = Region { model, subject, lent: 0..0 };
        region.lend(capacity, Edge::End);
        region
    }

    /// Chooses how many bytes are lent, and where.
    pub fn lend(&mut self, length: usize, edge: Edge) {
        let capacity = self.model.len();
        self.lent = match edge {
            Edge::Start => 0..length,
            Edge::End => capacity - length..capacity,
            Edge::Odd => 1..1 + length,
        };
    }

    pub fn length(&self) -> usize {
        self.lent.len()
    }

    /// What the model is lent, to read.
    pub fn bytes(&self) -> &[u8] {
        &self.model[self.lent.clone()]
    }

    pub fn model(&mut self) -> &mut [u8] {
        &mut self.model[self.lent.clone()]
    }

    pub fn subject(&mut self) -> &mut [u8] {
        &mut self.subject[self.lent.clone()]
    }

    pub fn subject_bytes(&self) -> &[u8] {
        &self.subject[self.lent.clone()]
    }

    /// Writes the same bytes to both, from byte `at` of what is lent.
    pub fn write(&mut self, at: usize, bytes: &[u8]) {
        let range = self.lent.start + at..self.lent.start + at + bytes.len();
        self.model[range.clone()].copy_from_slice(bytes);
        self.subject[range].copy_from_slice(bytes);
    }

    /// Fills both, what is not lent included.
    pub fn fill(&mut self, fill: impl FnOnce(&mut [u8])) {
        fill(&mut self.model);
        self.subject.copy_from_slice(&self.model);
    }

    /// The first byte that differs, counted from the first lent one, with both values.
    pub fn difference(&self) -> Option<(isize, u8, u8)> {
        if self.model[..] == self.subject[..] {
            return None;
        }
        let mut pairs = self.model.iter().zip(self.subject.iter());
        let at = pairs.position(|(model, subject)| model != subject)?;
        let from_lent = at as isize - self.lent.start as isize;
        Some((from_lent, self.model[at], self.subject[at]))
    }
}
