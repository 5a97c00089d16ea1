//! Families of codes, small and large.

use crate::bits::Bits;
use crate::codes::{fair, span, Code, QUBITS, ROWS, WEIGHT};
use crate::half::Row;
use crate::known::{bicycle, four, gross, seven, surface, tensor, toric};
use crate::random::Random;

#[derive(Clone, Copy, PartialEq, Eq, PartialOrd, Ord, Debug)]
pub enum Family {
    Bench,
    Pair,
    Single,
    Surface,
    Toric,
    Product,
    Bicycle,
    Joined,
    Late,
}

impl Family {
    pub const ALL: [Family; 9] = [
        Family::Bench,
        Family::Pair,
        Family::Single,
        Family::Surface,
        Family::Toric,
        Family::Product,
        Family::Bicycle,
        Family::Joined,
        Family::Late,
    ];

    pub fn name(self) -> &'static str {
        match self {
            Family::Bench => "bench",
            Family::Pair => "pair",
            Family::Single => "single",
            Family::Surface => "surface",
            Family::Toric => "toric",
            Family::Product => "product",
            Family::Bicycle => "bicycle",
            Family::Joined => "joined",
            Family::Late => "late",
        }
    }

    pub fn draw(self, random: &mut Random) -> Code {
        let large = random.percent(4);
        let code = match self {
            Family::Bench => random.pick(&[four, seven])(),
            Family::Pair => pair(random),
            Family::Single => single(random),
            Family::Surface if large => surface(random.within(20, 32)),
            Family::Surface => surface(random.within(2, 7)),
            Family::Toric if large => toric(random.within(16, 22)),
            Family::Toric => toric(random.within(2, 6)),
            Family::Product if large => product(random, 22),
            Family::Product => product(random, 5),
            Family::Bicycle if large => wheel(random, 10, 22),
            Family::Bicycle if random.percent(20) => wheel(random, 2, 6),
            Family::Bicycle => gross(random.pick(&[0, 0, 0, 0, 1, 2])),
            Family::Joined if large => joined(random, QUBITS),
            Family::Joined => joined(random, 100),
            Family::Late => late(random),
        };
        let code = if random.percent(10) { crowded(random, code) } else { code };
        let code = if random.percent(50) { code.mixed(random) } else { code };
        let code = if random.percent(50) { code.turned() } else { code };
        assert!(code.legal(), "{} makes an illegal code", self.name());
        code
    }
}

fn sum(n: usize, rows: &[&Row]) -> Row {
    Bits::of(n, rows.iter().flat_map(|row| row.iter().copied())).ones()
}

/// Random X rows and Z rows orthogonal to them, with repeated and dependent rows.
fn pair(random: &mut Random) -> Code {
    let sparse = random.percent(20);
    let n = if sparse { random.within(25, 64) } else { random.within(1, 24) };
    let count = if sparse { random.within(n / 3, n / 2) } else { random.within(0, n.min(10)) };
    let mut code = Code::new(n);
    for _ in 0..count {
        let most = if sparse { 4 } else { random.pick(&[2, 4, WEIGHT]) };
        code.x.push(random.subset(n, if sparse { 2 } else { 1 }, most));
    }
    let kernel: Vec<Row> = span(n, &code.x).kernel().iter().map(Bits::ones).collect();
    for _ in 0..random.within(0, kernel.len().min(10)) {
        let mut draw = || &kernel[random.below(kernel.len())];
        code.z.extend([sum(n, &[draw(), draw(), draw()]), draw().clone()]);
    }
    code.z.retain(fair);
    crowded(random, code)
}

/// With repeated rows and sums of two.
fn crowded(random: &mut Random, mut code: Code) -> Code {
    for rows in [&mut code.x, &mut code.z] {
        for _ in 0..random.below(4) {
            if rows.is_empty() || rows.len() == ROWS {
                break;
            }
            let first = rows[random.below(rows.len())].clone();
            let both = sum(code.n, &[&first, &rows[random.below(rows.len())]]);
            rows.push(if fair(&both) && random.percent(70) { both } else { first });
        }
        random.shuffle(rows);
    }
    code
}

/// Heavy rows of one kind, which need many guesses and leave few.
fn single(random: &mut Random) -> Code {
    let n = random.within(64, 200);
    let weight = random.within(6, WEIGHT);
    let rows = random.within(n / 2, n);
    let x = (0..rows).map(|_| random.subset(n, weight, weight)).collect();
    Code { n, x, z: Vec::new() }
}

/// Many qubits and rather few rows of one kind, which close late. Knots of two rows share qubits that are on most rows and so are guessed first, differ
/// in a few of these, and end in the same two: the side of the one that closes has old guesses. Knots of four rows on four qubits come last: two
/// guesses, both replaced.
fn late(random: &mut Random) -> Code {
    const TWO: &[&[usize]] = &[&[0, 1], &[0, 1]];
    const FOUR: &[&[usize]] = &[&[0, 1, 2], &[0, 1, 3], &[0, 2, 3], &[1, 2, 3]];
    let free = random.within(64, 400).min(300);
    let shared = [(); 3].map(|()| random.order(free)).concat();
    let shared = shared[..random.within(2 * free, 3 * free)].chunks(WEIGHT - 4);
    let knots = shared.map(|shared| (TWO, 2, shared));
    let last = std::iter::repeat_n((FOUR, 4, &[][..]), random.within(0, 16));
    let mut code = Code::new(free);
    for (ends, count, shared) in knots.chain(last) {
        for end in ends {
            let apart = match random.below(2) {
                0 if !shared.is_empty() => vec![random.pick(shared)],
                _ => random.subset(free, 0, 2),
            };
            let end = end.iter().map(|end| code.n + end).collect();
            code.x.push(sum(code.n + count, &[&shared.to_vec(), &apart, &end]));
        }
        code.n += count;
    }
    code
}

/// The hypergraph product of two random classical codes of up to `most` bits.
fn product(random: &mut Random, most: usize) -> Code {
    loop {
        let (m, a) = classical(random, most);
        let (n, b) = classical(random, most);
        let code = tensor(m, &a, n, &b);
        if code.legal() {
            return code;
        }
    }
}

fn classical(random: &mut Random, most: usize) -> (usize, Vec<Row>) {
    let bits = random.within(most / 2, most);
    let rows = random.within(1, bits);
    (bits, (0..rows).map(|_| random.subset(bits, 1, 3)).collect())
}

/// A bicycle code with random polynomials.
fn wheel(random: &mut Random, low: usize, high: usize) -> Code {
    let (l, m) = (random.within(low, high), random.within(low, high));
    let mut polynomial = || [(); 3].map(|()| (random.below(l), random.below(m)));
    bicycle(l, m, polynomial(), polynomial())
}

/// Small codes side by side on `n` qubits, some of them on no row.
fn joined(random: &mut Random, n: usize) -> Code {
    let mut code = Code::new(0);
    loop {
        let block = match random.below(4) {
            0 => surface(random.within(2, 5)),
            1 => product(random, 4),
            2 => seven(),
            _ => pair(random),
        };
        let rows = |a: &[Row], b: &[Row]| a.len() + b.len() <= ROWS;
        if code.n + block.n > n || !rows(&code.x, &block.x) || !rows(&code.z, &block.z) {
            break;
        }
        code.join(&block);
    }
    code.n = n;
    if n == QUBITS && random.percent(50) {
        repeat(random, &mut code.x);
        repeat(random, &mut code.z);
    }
    code.mixed(random)
}

/// As many rows as a code can have.
fn repeat(random: &mut Random, rows: &mut Vec<Row>) {
    let first = rows.len();
    while first > 0 && rows.len() < ROWS {
        rows.push(rows[random.below(first)].clone());
    }
}

#[cfg(test)]
mod tests {
    use super::*;

    #[test]
    fn every_family_is_legal() {
        let mut random = Random::new(1);
        for family in Family::ALL {
            (0..100).for_each(|_| drop(family.draw(&mut random)));
        }
    }
}
