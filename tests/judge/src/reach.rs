//! What the halves that are drawn reach: live guesses in every word of a form, and guesses that are replaced there.

use crate::form::WORDS;
use crate::half::{Asked, Word};
use crate::machine::{course, Replaced};
use crate::shot::Decode;
use crate::wrong::Wrong;

#[derive(Default)]
pub struct Reach {
    /// Halves that had so many live guesses at once that they are in each word.
    live: [usize; WORDS],
    /// Halves that had as many as can be, and were spent or finished.
    spent: usize,
    finished: usize,
    replaced: Replaced,
}

impl Reach {
    pub fn add(&mut self, decode: &Decode) {
        for half in &decode.halves() {
            let course = course(Wrong::Nothing, half, decode.asked);
            self.live[course.live / 64] += 1;
            let most = course.live == Asked::AMPLE.budget;
            self.spent += usize::from(most && course.word == Word::Spent);
            self.finished += usize::from(most && course.word.finished());
            let Replaced { words, borders } = course.replaced;
            add(&mut self.replaced.words, &words);
            add(&mut self.replaced.borders, &borders);
        }
    }

    /// How often each was met.
    pub fn counts(&self) -> [(&'static str, usize); 12] {
        let [_, live_1, live_2, live_3] = self.live;
        let [word_0, word_1, word_2, word_3] = self.replaced.words;
        let [border_64, border_128, border_192] = self.replaced.borders;
        [
            ("64 to 127 live guesses", live_1),
            ("128 to 191 live guesses", live_2),
            ("192 to 255 live guesses", live_3),
            ("255 live guesses, spent", self.spent),
            ("255 live guesses, finished", self.finished),
            ("a guess of word 0 replaced", word_0),
            ("a guess of word 1 replaced", word_1),
            ("a guess of word 2 replaced", word_2),
            ("a guess of word 3 replaced", word_3),
            ("a guess moved from bit 64 to 63", border_64),
            ("a guess moved from bit 128 to 127", border_128),
            ("a guess moved from bit 192 to 191", border_192),
        ]
    }
}

fn add(sums: &mut [usize], counts: &[usize]) {
    sums.iter_mut().zip(counts).for_each(|(sum, count)| *sum += count);
}
