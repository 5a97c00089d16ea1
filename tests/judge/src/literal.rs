//! Document 01's meanings by trying everything, for small codes.

use crate::bits::Bits;
use crate::half::{Half, Row};
use crate::judge::fits;
use std::collections::BTreeSet;

/// Whether all products of the rows can be tried.
pub fn few(rows: &[Row]) -> bool {
    rows.len() <= 8
}

/// Whether all products and all errors can be tried.
pub fn small(half: &Half) -> bool {
    few(half.other) && half.lost.count() <= 8
}

fn subsets(count: usize) -> impl Iterator<Item = Vec<usize>> {
    (0..1usize << count).map(move |set| (0..count).filter(|at| set >> at & 1 == 1).collect())
}

/// Every product of the rows, the empty one too, once.
pub fn products(n: usize, rows: &[Row]) -> BTreeSet<Row> {
    let product = |places: Vec<usize>| {
        let qubits = places.into_iter().flat_map(|at| rows[at].iter().copied());
        Bits::of(n, qubits).ones()
    };
    subsets(rows.len()).map(product).collect()
}

/// Every product of other-kind rows inside the lost set.
fn inside(half: &Half) -> Vec<Bits> {
    let products = products(half.n, half.other).into_iter();
    let products = products.map(|product| Bits::of(half.n, product));
    products.filter(|product| product.inside(half.lost)).collect()
}

pub fn fixed(half: &Half) -> Vec<usize> {
    let lowest: BTreeSet<usize> = inside(half).iter().filter_map(Bits::lowest).collect();
    lowest.into_iter().collect()
}

/// Every error that fits.
fn errors<'a>(half: &'a Half) -> impl Iterator<Item = Bits> + 'a {
    let lost = half.lost.ones();
    let error = move |places: Vec<usize>| Bits::of(half.n, places.into_iter().map(|at| lost[at]));
    subsets(half.lost.count()).map(error).filter(|error| fits(half, error))
}

/// The number of classes of errors that fit.
pub fn classes(half: &Half) -> usize {
    let products = inside(half);
    let first = |error: Bits| -> Row {
        let sums = products.iter().map(|product| {
            let mut sum = error.clone();
            sum.add(product);
            sum.ones()
        });
        sums.min().unwrap_or_default()
    };
    errors(half).map(first).collect::<BTreeSet<Row>>().len()
}

/// Whether each error that fits differs by a product from exactly one of these.
pub fn once(half: &Half, candidates: &[Bits]) -> bool {
    let products = products(half.n, half.other);
    let of_one_class = |first: &Bits, second: &Bits| {
        let mut sum = first.clone();
        sum.add(second);
        products.contains(&sum.ones())
    };
    errors(half).all(|error| {
        candidates.iter().filter(|candidate| of_one_class(candidate, &error)).count() == 1
    })
}
