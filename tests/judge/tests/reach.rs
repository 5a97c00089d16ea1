//! The streams that `judge program` draws reach live guesses in every word of a form, replace some there, and have records of
//! kind 8 that agree and that differ, in shots and on codes of every sort.

use judge::compared::Compared;
use judge::program::streams;
use judge::reach::Reach;
use judge::stream::{Answer, Lent, Model, Record};
use judge::wrong::Wrong;

fn add(reach: &mut Reach, compared: &mut Compared, stream: &[Record]) {
    let mut model = Model::new(Wrong::Nothing);
    for record in stream {
        if let Answer::Decode(decode) = compared.step(&mut model, record, Lent::AMPLE) {
            reach.add(&decode);
        }
    }
}

#[test]
fn streams_reach_everything() {
    let mut reach = Reach::default();
    let mut compared = Compared::default();
    for seed in 1..=8 {
        streams(seed, 2_000).for_each(|(_, stream)| add(&mut reach, &mut compared, &stream));
    }
    for (what, times) in reach.counts().into_iter().chain(compared.counts()) {
        println!("{what}: {times}");
        assert!(times > 0, "{what}: never");
    }
}
