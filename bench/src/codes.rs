//! The codes that are measured, and the operators that tell their classes apart.

use judge::bits::Bits;
use judge::codes::{span, Code};
use judge::half::Row;
use judge::known;

/// The bicycle codes of Bravyi and others (2024), and one of the largest size.
pub fn measured() -> [Code; 4] {
    [known::gross(0), known::gross(1), known::gross(2), largest()]
}

/// x and y of orders 32 and 16, A = 1 + x^2, B = x^3 + x y + y^2 + x^2 y^3: 12 logical qubits.
/// Where both orders are powers of two, three terms would make A invertible and leave none.
fn largest() -> Code {
    let (l, m) = (32, 16);
    let a = [(0, 0), (2, 0)];
    let b = [(3, 0), (1, 1), (0, 2), (2, 3)];
    let cells = l * m;
    let mut code = Code::new(2 * cells);
    for (i, j) in (0..l).flat_map(|i| (0..m).map(move |j| (i, j))) {
        let ahead = |(x, y)| (i + x) % l * m + (j + y) % m;
        let back = |(x, y)| (i + l - x) % l * m + (j + m - y) % m;
        let x = a.map(ahead).into_iter().chain(b.map(|term| cells + ahead(term)));
        let z = b.map(back).into_iter().chain(a.map(|term| cells + back(term)));
        code.x.push(Bits::of(code.n, x).ones());
        code.z.push(Bits::of(code.n, z).ones());
    }
    code
}

/// Logical operators of the rows' own kind. An error that fires no row is a product of
/// other-kind rows exactly if it shares an even number of qubits with each of them.
pub fn logicals(n: usize, rows: &[Row], other: &[Row]) -> Vec<Row> {
    let mut known = span(n, rows);
    let mut logicals = Vec::new();
    for operator in span(n, other).kernel() {
        let rank = known.rank();
        known.add(operator.clone());
        if known.rank() > rank {
            logicals.push(operator.ones());
        }
    }
    logicals
}

#[cfg(test)]
mod tests {
    use super::*;

    #[test]
    fn twelve_logical_qubits() {
        for code in measured() {
            assert!(code.legal());
            assert_eq!(code.k(), 12);
            assert_eq!(logicals(code.n, &code.z, &code.x).len(), 12);
        }
    }
}
