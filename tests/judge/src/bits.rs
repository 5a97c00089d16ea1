//! Bit vectors over u64 words, also used as sets of numbers.

#[derive(Clone, PartialEq, Eq, Debug)]
pub struct Bits {
    words: Vec<u64>,
}

impl Bits {
    pub fn new(len: usize) -> Bits {
        Bits { words: vec![0; len.div_ceil(64)] }
    }

    /// The sum modulo 2 of the given places.
    pub fn of(len: usize, places: impl IntoIterator<Item = usize>) -> Bits {
        let mut bits = Bits::new(len);
        for place in places {
            bits.flip(place);
        }
        bits
    }

    pub fn get(&self, place: usize) -> bool {
        self.words[place / 64] >> (place % 64) & 1 == 1
    }

    pub fn flip(&mut self, place: usize) {
        self.words[place / 64] ^= 1 << (place % 64);
    }

    pub fn insert(&mut self, place: usize) {
        self.words[place / 64] |= 1 << (place % 64);
    }

    /// Drops what the other has.
    pub fn remove(&mut self, other: &Bits) {
        for (word, without) in self.words.iter_mut().zip(&other.words) {
            *word &= !without;
        }
    }

    /// Adds modulo 2.
    pub fn add(&mut self, other: &Bits) {
        for (word, with) in self.words.iter_mut().zip(&other.words) {
            *word ^= with;
        }
    }

    pub fn lowest(&self) -> Option<usize> {
        let at = self.words.iter().position(|&word| word != 0)?;
        Some(at * 64 + self.words[at].trailing_zeros() as usize)
    }

    pub fn count(&self) -> usize {
        self.words.iter().map(|w| w.count_ones() as usize).sum()
    }

    pub fn is_empty(&self) -> bool {
        self.words.iter().all(|&word| word == 0)
    }

    /// Whether the two share an odd number of ones.
    pub fn odd(&self, other: &Bits) -> bool {
        let both = self.words.iter().zip(&other.words);
        both.fold(0, |sum, (a, b)| sum ^ (a & b)).count_ones() % 2 == 1
    }

    pub fn inside(&self, other: &Bits) -> bool {
        self.words.iter().zip(&other.words).all(|(a, b)| a & !b == 0)
    }

    pub fn ones(&self) -> Vec<usize> {
        let mut places = Vec::with_capacity(self.count());
        for (at, &word) in self.words.iter().enumerate() {
            let mut rest = word;
            while rest != 0 {
                places.push(at * 64 + rest.trailing_zeros() as usize);
                rest &= rest - 1;
            }
        }
        places
    }
}
