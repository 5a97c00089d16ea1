//! Rows of bits in words of 64, brought to echelon form in place.

use std::ops::Range;

const NO_ROW: u16 = u16::MAX;

/// Rows on some columns, with one column more for the lit bits.
#[derive(Default)]
pub struct Matrix {
    columns: usize,
    /// Words a row.
    width: usize,
    words: Vec<u64>,
    /// The rows that have a one, a bit each.
    filled: Vec<u64>,
    /// At each column the row whose first one is there.
    leaders: Vec<u16>,
    solution: Vec<u64>,
}

/// What rows come to.
#[derive(Default)]
pub struct Reduced {
    pub rank: usize,
    /// Whether some sum of them is a lit bit alone.
    pub contradiction: bool,
}

impl Matrix {
    pub fn start(&mut self, rows: usize, columns: usize) {
        self.columns = columns;
        self.width = columns / 64 + 1;
        refill(&mut self.words, rows * self.width, 0);
        refill(&mut self.filled, rows.div_ceil(64), 0);
        refill(&mut self.leaders, columns, NO_ROW);
    }

    pub fn set(&mut self, row: usize, column: usize) {
        self.words[row * self.width + column / 64] |= 1 << (column % 64);
        self.filled[row / 64] |= 1 << (row % 64);
    }

    /// Moves a row to a later place that is empty.
    pub fn shift(&mut self, from: usize, to: usize) {
        let filled = self.filled[from / 64] >> (from % 64) & 1;
        self.filled[from / 64] &= !(1 << (from % 64));
        self.filled[to / 64] |= filled << (to % 64);
        let start = from * self.width;
        self.words.copy_within(start..start + self.width, to * self.width);
    }

    /// Reduces rows, each by all those before it. The range is of multiples of 64.
    pub fn reduce(&mut self, rows: Range<usize>) -> Reduced {
        let mut reduced = Reduced::default();
        for block in rows.start / 64..rows.end / 64 {
            let mut filled = self.filled[block];
            while filled != 0 {
                self.reduce_row(block * 64 + filled.trailing_zeros() as usize, &mut reduced);
                filled &= filled - 1;
            }
        }
        reduced
    }

    /// Adds rows that lead to this one until it leads itself or no column is left.
    fn reduce_row(&mut self, row: usize, reduced: &mut Reduced) {
        let (earlier, rest) = self.words.split_at_mut(row * self.width);
        let words = &mut rest[..self.width];
        let mut at = 0;
        while at < words.len() {
            if words[at] == 0 {
                at += 1;
                continue;
            }
            let column = at * 64 + words[at].trailing_zeros() as usize;
            if column == self.columns {
                reduced.contradiction = true;
                return;
            }
            let leader = &mut self.leaders[column];
            if *leader == NO_ROW {
                *leader = row as u16;
                reduced.rank += 1;
                return;
            }
            let start = usize::from(*leader) * self.width;
            let with = &earlier[start + at..start + self.width];
            words[at..].iter_mut().zip(with).for_each(|(word, with)| *word ^= with);
        }
    }

    /// The columns of a solution of the rows that lead, last column first.
    pub fn solve(&mut self, mut chosen: impl FnMut(usize)) {
        refill(&mut self.solution, self.width, 0);
        self.solution[self.columns / 64] |= 1 << (self.columns % 64);
        for column in (0..self.columns).rev() {
            let leader = self.leaders[column];
            if leader == NO_ROW {
                continue;
            }
            let (from, start) = (column / 64, usize::from(leader) * self.width);
            let row = &self.words[start + from..start + self.width];
            let both = row.iter().zip(&self.solution[from..]);
            if both.fold(0, |sum, (a, b)| sum ^ (a & b)).count_ones() % 2 == 1 {
                self.solution[from] |= 1 << (column % 64);
                chosen(column);
            }
        }
    }
}

fn refill<T: Copy>(list: &mut Vec<T>, length: usize, with: T) {
    list.clear();
    list.resize(length, with);
}
