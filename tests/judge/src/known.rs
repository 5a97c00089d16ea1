//! Codes made by rule.

use crate::bits::Bits;
use crate::codes::Code;
use crate::half::Row;

/// The [[4,2,2]] code.
pub fn four() -> Code {
    let rows = vec![vec![0, 1, 2, 3]];
    Code { n: 4, x: rows.clone(), z: rows }
}

/// The Steane code.
pub fn seven() -> Code {
    let rows = vec![vec![0, 2, 4, 6], vec![1, 2, 5, 6], vec![3, 4, 5, 6]];
    Code { n: 7, x: rows.clone(), z: rows }
}

/// The rotated surface code on d by d qubits.
pub fn surface(d: usize) -> Code {
    let mut code = Code::new(d * d);
    let near = |at: usize| at.saturating_sub(1)..(at + 1).min(d);
    for i in 0..=d {
        for j in 0..=d {
            let face: Row = near(i).flat_map(|r| near(j).map(move |c| r * d + c)).collect();
            let is_x = (i + j) % 2 == 0;
            let edge = i % d == 0 || j % d == 0;
            if face.len() == 4 || (edge && face.len() == 2 && is_x == (i % d == 0)) {
                if is_x { &mut code.x } else { &mut code.z }.push(face);
            }
        }
    }
    code
}

/// The toric code on the edges of an l by l lattice.
pub fn toric(l: usize) -> Code {
    let n = 2 * l * l;
    let across = |r: usize, c: usize| (r % l) * l + c % l;
    let down = |r: usize, c: usize| l * l + across(r, c);
    let mut code = Code::new(n);
    for r in 0..l {
        for c in 0..l {
            let star = [across(r, c), across(r, c + l - 1), down(r, c), down(r + l - 1, c)];
            let face = [across(r, c), across(r + 1, c), down(r, c), down(r, c + 1)];
            code.x.push(Bits::of(n, star).ones());
            code.z.push(Bits::of(n, face).ones());
        }
    }
    code
}

/// The hypergraph product of two classical codes of m and n bits.
pub fn tensor(m: usize, a: &[Row], n: usize, b: &[Row]) -> Code {
    let mut code = Code::new(m * n + a.len() * b.len());
    let second = |i: usize, s: usize| m * n + i * b.len() + s;
    let with = |rows: &[Row], bit: usize| -> Row {
        (0..rows.len()).filter(|&i| rows[i].contains(&bit)).collect()
    };
    for (i, row) in a.iter().enumerate() {
        for j in 0..n {
            let first = row.iter().map(|c| c * n + j);
            let rest = with(b, j).into_iter().map(|s| second(i, s));
            code.x.push(Bits::of(code.n, first.chain(rest)).ones());
        }
    }
    for c in 0..m {
        for (s, row) in b.iter().enumerate() {
            let first = row.iter().map(|j| c * n + j);
            let rest = with(a, c).into_iter().map(|i| second(i, s));
            code.z.push(Bits::of(code.n, first.chain(rest)).ones());
        }
    }
    code
}

pub type Polynomial = [(usize, usize); 3];

/// The bivariate bicycle codes of 72, 144 and 288 qubits.
pub fn gross(which: usize) -> Code {
    let small: Polynomial = [(3, 0), (0, 1), (0, 2)];
    let (l, m, a) = match which {
        0 => (6, 6, small),
        1 => (12, 6, small),
        _ => (12, 12, [(3, 0), (0, 2), (0, 7)]),
    };
    bicycle(l, m, a, [(0, 3), (1, 0), (2, 0)])
}

/// X rows A B, Z rows B^T A^T, each polynomial a list of powers of x and y.
pub fn bicycle(l: usize, m: usize, a: Polynomial, b: Polynomial) -> Code {
    let cells = l * m;
    let mut code = Code::new(2 * cells);
    for i in 0..l {
        for j in 0..m {
            let ahead = |(x, y)| (i + x) % l * m + (j + y) % m;
            let back = |(x, y)| (i + l - x) % l * m + (j + m - y) % m;
            let x = a.map(ahead).into_iter().chain(b.map(|p| cells + ahead(p)));
            let z = b.map(back).into_iter().chain(a.map(|p| cells + back(p)));
            code.x.push(Bits::of(code.n, x).ones());
            code.z.push(Bits::of(code.n, z).ones());
        }
    }
    code
}

#[cfg(test)]
mod tests {
    use super::*;

    #[test]
    fn logical_qubits() {
        let known = [
            (four(), 2),
            (seven(), 1),
            (surface(2), 1),
            (surface(5), 1),
            (surface(32), 1),
            (toric(3), 2),
            (toric(22), 2),
            (gross(0), 12),
            (gross(1), 12),
            (gross(2), 12),
        ];
        for (code, k) in known {
            assert!(code.legal());
            assert_eq!(code.k(), k);
        }
    }
}
