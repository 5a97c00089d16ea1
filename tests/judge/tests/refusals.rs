//! The table of refusals, row by row, and what each one leaves.

use judge::generate::{records, Mix};
use judge::half::Asked;
use judge::known::four;
use judge::random::Random;
use judge::records::{decode, load, logical, number, row, sizes};
use judge::shot::KINDS;
use judge::strays::shortened;
use judge::stream::{Answer, Lent, Model, Record, LOGICAL, X_ROW, Z_ROW};
use judge::wrong::Wrong;

const SHORT: Lent = Lent { short: true, ..Lent::AMPLE };

/// Refusal numbers, 0 where a record is carried out.
fn numbers(calls: &[(Record, Lent)]) -> Vec<u8> {
    let mut model = Model::new(Wrong::Nothing);
    let number = |(record, lent): &(Record, Lent)| match model.step(record, *lent) {
        Answer::Refused { number, .. } => number,
        _ => 0,
    };
    calls.iter().map(number).collect()
}

/// The numbers that records get on the code Four, some with a short list.
fn on_four(calls: &[(Record, Lent)]) -> Vec<u8> {
    let loaded = load(&four()).into_iter().map(|record| (record, Lent::AMPLE));
    let all: Vec<(Record, Lent)> = loaded.chain(calls.iter().cloned()).collect();
    numbers(&all)[3..].to_vec()
}

fn ample(record: Record) -> (Record, Lent) {
    (record, Lent::AMPLE)
}

fn short(record: Record) -> (Record, Lent) {
    (record, SHORT)
}

fn lost(qubit: usize) -> Record {
    number(2, qubit)
}

fn ask(budget: usize) -> Record {
    decode(Asked { budget, limit: 9 })
}

#[test]
fn unknown_and_length_spoil() {
    let unknown = [vec![0], vec![9], vec![32], vec![255, 0, 0]].map(|bad| (1, bad));
    let length = [
        vec![],
        vec![2, 0],
        vec![1, 4, 0],
        vec![5, 1, 2, 3, 4],
        vec![6],
        vec![6, 0, 0, 0],
        vec![7, 0],
        vec![8],
        vec![8, 2],
        vec![8, 2, 0, 0],
    ];
    for (first, bad) in unknown.into_iter().chain(length.map(|bad| (2, bad))) {
        assert_eq!(on_four(&[ample(bad), ample(ask(1)), ample(ask(1))]), [first, 11, 0]);
    }
}

#[test]
fn loading_goes_on() {
    let x = row(X_ROW, &[0, 1]);
    let calls = [
        ample(sizes(2, 1, 1)),
        ample(vec![9]),
        ample(vec![]),
        ample(lost(0)),
        ample(logical(0)),
        short(logical(9)),
        ample(number(6, 0)),
        ample(number(7, 9)),
        ample(ask(64)),
        short(x.clone()),
        ample(x),
        ample(row(Z_ROW, &[0, 1])),
        ample(ask(0)),
    ];
    assert_eq!(numbers(&calls), [0, 1, 2, 7, 7, 7, 7, 7, 7, 12, 0, 0, 0]);
}

#[test]
fn sizes_place_and_row_drop_the_code() {
    let out = [sizes(0, 0, 0), sizes(1025, 0, 0), sizes(1, 513, 0), sizes(1, 0, 513)];
    for record in out {
        assert_eq!(on_four(&[short(record), ample(lost(0))]), [3, 7]);
    }
    assert_eq!(on_four(&[short(row(X_ROW, &[9, 9])), ample(lost(0))]), [4, 7]);
    for qubits in [[0, 4], [1, 1], [2, 1]] {
        let calls = [ample(sizes(4, 1, 1)), short(row(X_ROW, &qubits)), ample(lost(0))];
        assert_eq!(numbers(&calls), [0, 5, 7]);
    }
}

#[test]
fn clash_is_not_tried_on_short_lists() {
    let z = row(Z_ROW, &[0]);
    let start = [ample(sizes(1, 1, 1)), ample(row(X_ROW, &[0]))];
    let calls = [short(z.clone()), ample(z.clone()), ample(z)];
    assert_eq!(numbers(&[&start[..], &calls[..]].concat()), [0, 0, 12, 6, 4]);
}

#[test]
fn range_and_twice_spoil() {
    for (kind, end) in [(2, 4), (3, 1), (4, 1), (6, 1), (7, 1)] {
        let past = [short(number(kind, end)), ample(ask(1)), ample(ask(1))];
        assert_eq!(on_four(&past), [8, 11, 0]);
        let zero = || ample(number(kind, 0));
        let again = [zero(), zero(), zero(), ample(ask(64)), zero(), ample(ask(1))];
        assert_eq!(on_four(&again), [0, 9, 9, 11, 0, 0]);
    }
}

#[test]
fn a_row_is_lit_or_unread_once() {
    for first in [3, 4, 6, 7] {
        for second in [3, 4, 6, 7] {
            let same_row = matches!((first, second), (3 | 6, 3 | 6) | (4 | 7, 4 | 7));
            let calls = [
                ample(number(first, 0)),
                ample(number(second, 0)),
                ample(ask(1)),
                ample(number(second, 0)),
                ample(ask(1)),
            ];
            let expected = if same_row { [0, 9, 11, 0, 0] } else { [0, 0, 0, 0, 0] };
            assert_eq!(on_four(&calls), expected, "{first} before {second}");
        }
    }
}

#[test]
fn spoiled_shots_take_unread_rows() {
    for kind in [6, 7] {
        let row = || ample(number(kind, 0));
        let calls = [ample(lost(4)), row(), row(), ample(ask(1)), row(), ample(ask(1))];
        assert_eq!(on_four(&calls), [8, 0, 9, 11, 0, 0]);
    }
}

#[test]
fn twice_is_not_tried_on_short_lists() {
    for (kind, other) in [(6, 3), (7, 4)] {
        let (row, again) = (number(kind, 0), number(other, 0));
        let calls = [
            short(row.clone()),
            ample(row.clone()),
            short(row),
            short(again.clone()),
            ample(again),
        ];
        assert_eq!(on_four(&calls), [12, 0, 12, 12, 9]);
    }
}

#[test]
fn short_lists_change_nothing_but_end_a_shot() {
    let kept = [short(sizes(1, 0, 0)), short(lost(0)), ample(lost(0)), short(lost(0))];
    assert_eq!(on_four(&kept), [12, 12, 0, 12]);
    let ended = [ample(lost(0)), short(ask(1)), ample(lost(0)), ample(ask(1))];
    assert_eq!(on_four(&ended), [0, 12, 0, 0]);
    let spoiled = [ample(lost(4)), short(ask(1)), ample(ask(1))];
    assert_eq!(on_four(&spoiled), [8, 11, 0]);
}

#[test]
fn decode_lists_count_at_kind_5_only() {
    let tight = |room, forms| Lent { short: false, room, forms };
    let lost = || (lost(0), tight(0, 0));
    let ask = |room, forms| (ask(1), tight(room, forms));
    let calls = [lost(), ask(3, 16), lost(), ask(4, 15), lost(), ask(4, 4), lost(), ask(4, 16)];
    assert_eq!(on_four(&calls), [0, 12, 0, 12, 0, 12, 0, 0]);
}

#[test]
fn logical_qubits_that_agree_change_nothing() {
    let agreeing = || ample(logical(2));
    let open = [ample(lost(0)), agreeing(), ample(lost(0)), agreeing(), ample(ask(1))];
    assert_eq!(on_four(&open), [0, 0, 9, 0, 11]);
    let stale = [ample(lost(0)), ample(ask(1)), agreeing(), ample(lost(0)), agreeing()];
    assert_eq!(on_four(&[&stale[..], &[ample(ask(1))]].concat()), [0; 6]);
}

#[test]
fn logical_qubits_that_differ_drop_the_code() {
    for k in [0, 1, 3, 4, 258, 512, 65_535] {
        let calls = [ample(lost(0)), ample(logical(k)), ample(logical(2)), ample(ask(1))];
        assert_eq!(on_four(&calls), [0, 17, 7, 7]);
        let spoiled = [ample(lost(4)), ample(logical(k)), ample(row(X_ROW, &[0]))];
        assert_eq!(on_four(&spoiled), [8, 17, 4]);
    }
    let alone = [sizes(5, 0, 0), logical(5), logical(0), logical(5)];
    assert_eq!(numbers(&alone.map(ample)), [0, 0, 17, 7]);
}

#[test]
fn logical_qubits_are_not_compared_on_short_lists() {
    let tight = |k| (logical(k), Lent { short: false, room: 0, forms: 0 });
    let calls = [short(logical(2)), short(logical(3)), ample(lost(0)), ample(lost(0))];
    assert_eq!(on_four(&calls), [12, 12, 0, 9]);
    assert_eq!(on_four(&[tight(2), tight(3), short(logical(3))]), [0, 17, 7]);
}

#[test]
fn every_budget_decodes() {
    for budget in 0..=255 {
        assert_eq!(on_four(&[ample(lost(0)), ample(ask(budget))]), [0, 0]);
    }
}

#[test]
fn wild_streams_meet_every_refusal() {
    let mut random = Random::new(1);
    let mix = Mix { trouble: 30, wild: true, family: None };
    let stream = records(&mut random, 5_000, mix);
    let calls = shortened(&mut random, stream, 3);
    let kinds = calls.iter().map(|(record, _)| record.first().copied());
    let met: Vec<_> = numbers(&calls).into_iter().zip(kinds).collect();
    for number in 0..=17 {
        let times = met.iter().filter(|(other, _)| *other == number).count();
        let unused = matches!(number, 10 | 13..=16);
        assert!(if unused { times == 0 } else { times > 10 }, "{number} met {times} times");
    }
    let named = KINDS.into_iter().flat_map(|kind| [0, 2, 7, 8, 9, 12].map(|number| (number, kind)));
    let compared = [0, 2, 7, 12, 17].map(|number| (number, LOGICAL));
    for (number, kind) in named.chain(compared) {
        let times = met.iter().filter(|call| **call == (number, Some(kind))).count();
        assert!(times > 3, "{number} met {times} times at kind {kind}");
    }
}
