//! Elimination over the field of two elements.

use crate::bits::Bits;

/// The span of vectors, kept so that no two kept ones have the same lowest one.
pub struct Span {
    /// At each place the kept vector whose lowest one is there.
    led: Vec<Option<Bits>>,
}

impl Span {
    pub fn of(len: usize, vectors: impl IntoIterator<Item = Bits>) -> Span {
        let mut span = Span { led: vec![None; len] };
        for vector in vectors {
            span.add(vector);
        }
        span
    }

    pub fn add(&mut self, mut vector: Bits) {
        while let Some(lowest) = vector.lowest() {
            match &self.led[lowest] {
                Some(kept) => vector.add(kept),
                None => {
                    self.led[lowest] = Some(vector);
                    return;
                }
            }
        }
    }

    /// The lowest ones of all vectors in the span but zero, ascending.
    pub fn leads(&self) -> impl Iterator<Item = usize> + '_ {
        (0..self.led.len()).filter(|&place| self.led[place].is_some())
    }

    pub fn rank(&self) -> usize {
        self.leads().count()
    }

    /// The vector without ones at the leads that differs from the given one by a vector in the span.
    pub fn rest(&self, mut vector: Bits) -> Bits {
        for (place, kept) in self.led.iter().enumerate() {
            match kept {
                Some(kept) if vector.get(place) => vector.add(kept),
                _ => {}
            }
        }
        vector
    }

    /// The vector orthogonal to the span that has the given ones off the leads.
    pub fn orthogonal(&self, mut vector: Bits) -> Bits {
        for place in (0..self.led.len()).rev() {
            if let Some(kept) = &self.led[place] {
                if kept.odd(&vector) {
                    vector.flip(place);
                }
            }
        }
        vector
    }

    /// A basis of the vectors orthogonal to the span.
    pub fn kernel(&self) -> Vec<Bits> {
        let len = self.led.len();
        (0..len)
            .filter(|&place| self.led[place].is_none())
            .map(|place| self.orthogonal(Bits::of(len, [place])))
            .collect()
    }
}
