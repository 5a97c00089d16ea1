//! Nothing depends on what the work list and the six held, or on how long lists are.

use crate::caller::Caller;
use crate::{watch, Checked};
use judge::generate::{records, Mix};
use judge::judge::ensure;
use judge::random::Random;

/// Each stream twice, with other garbage and other lengths.
pub fn garbage(seed: u64, shots: usize) -> Checked {
    let mut random = Random::new(seed);
    let mut callers = [(); 2].map(|()| Caller::new(random.word(), 1));
    for _ in 0..8 {
        let stream =
            records(&mut random, shots.div_ceil(8), Mix { trouble: 15, wild: true, family: None });
        watch::case();
        let [first, second] = callers.each_mut().map(|caller| {
            caller.restart();
            caller.calls(&stream)
        });
        let (first, second) = (first?, second?);
        for (at, (first, second)) in first.iter().zip(&second).enumerate() {
            ensure(first == second, || format!("record {at}: {first:?} and {second:?}"))?;
        }
    }
    let [first, second] = callers;
    first.tally.and(&second.tally).all_but_short()
}
