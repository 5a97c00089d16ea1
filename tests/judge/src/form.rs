//! A form: a settled qubit's value in terms of the live guesses.

use std::ops::BitXor;

pub const WORDS: usize = 4;
pub const BITS: usize = 64 * WORDS;

/// Bit 0 is the constant, bit k the k-th live guess: bit k modulo 64 of word k / 64.
#[derive(Clone, Copy, PartialEq, Eq, Debug)]
pub struct Form(pub [u64; WORDS]);

impl Form {
    pub const ZERO: Form = Form([0; WORDS]);
    pub const ONE: Form = Form([1, 0, 0, 0]);

    /// One bit alone.
    pub fn bit(bit: usize) -> Form {
        let mut words = [0; WORDS];
        words[bit / 64] = 1 << (bit % 64);
        Form(words)
    }

    pub fn get(&self, bit: usize) -> bool {
        self.0[bit / 64] >> (bit % 64) & 1 == 1
    }

    pub fn highest(&self) -> Option<usize> {
        let at = self.0.iter().rposition(|&word| word != 0)?;
        Some(64 * at + self.0[at].ilog2() as usize)
    }

    /// One bit taken out, later ones a place lower.
    pub fn without(self, bit: usize) -> Form {
        let Form(mut words) = self;
        let (at, below) = (bit / 64, (1 << (bit % 64)) - 1);
        words[at] = words[at] & below | words[at] >> 1 & !below;
        for next in at + 1..WORDS {
            words[next - 1] |= words[next] << 63;
            words[next] >>= 1;
        }
        Form(words)
    }
}

/// The sum modulo 2.
impl BitXor for Form {
    type Output = Form;

    fn bitxor(self, other: Form) -> Form {
        Form(std::array::from_fn(|at| self.0[at] ^ other.0[at]))
    }
}

#[cfg(test)]
mod tests {
    use super::*;
    use crate::random::Random;

    fn bits(form: Form) -> Vec<bool> {
        (0..BITS).map(|bit| form.get(bit)).collect()
    }

    #[test]
    fn a_bit_by_itself() {
        for bit in 0..BITS {
            let form = Form::bit(bit);
            assert_eq!(form.highest(), Some(bit));
            assert_eq!(bits(form).iter().filter(|&&one| one).count(), 1);
        }
        assert_eq!((Form::ZERO.highest(), Form::bit(0)), (None, Form::ONE));
    }

    #[test]
    fn later_bits_move_down() {
        let mut random = Random::new(1);
        for bit in 0..BITS {
            let form = Form([(); WORDS].map(|()| random.word()));
            let mut expected = bits(form);
            expected.remove(bit);
            expected.push(false);
            assert_eq!(bits(form.without(bit)), expected);
        }
    }
}
