//! Candidates: their elements on two of document 01's shots, sets of them judged, and their refusals one by one.

use judge::candidates::{Ask, Shown};
use judge::codes::set;
use judge::half::{mark, Asked, Word};
use judge::judge::verdict;
use judge::known::four;
use judge::machine;
use judge::shot::Shot;

/// Four with its Z row lit.
fn four_lit(lost: &[usize]) -> Shot {
    let mut shot = Shot::empty(&four());
    *shot.set_mut(2) = set(4, lost);
    *shot.set_mut(3) = set(1, &[0]);
    shot
}

/// Candidate 0 of the X half of Four with its Z row lit.
fn ask(lost: &[usize]) -> Ask {
    let (code, shot) = (four(), four_lit(lost));
    Ask::of(&machine::decode(&shot.halves(&code)[0], Asked::AMPLE))
}

/// The candidates of document 01's P7: all qubits lost.
const P7: [[u8; 4]; 4] = [[0, 0, 0, 1], [0, 1, 0, 0], [0, 0, 1, 0], [0, 1, 1, 1]];

fn all(ask: &Ask) -> Vec<Shown> {
    ask.all().map(|ask| ask.answer()).collect()
}

#[test]
fn elements() {
    let p4 = [[0, 1, 0, 0], [1, 0, 0, 0]];
    assert_eq!(all(&ask(&[0, 1])), p4.map(|candidate| Ok(candidate.into())));
    assert_eq!(all(&ask(&[0, 1, 2, 3])), P7.map(|candidate| Ok(candidate.into())));
    assert_eq!(all(&ask(&[2])), [Ok(vec![0, 0, 1, 0])]);
    assert_eq!(all(&ask(&[])), []);
}

/// P7's candidates and what they may be exchanged for: the second with a product of X rows added.
#[test]
fn a_set_of_candidates_judged() {
    let (code, shot) = (four(), four_lit(&[0, 1, 2, 3]));
    let verdict = verdict(&shot.halves(&code)[0]);
    let judge = |all: [[u8; 4]; 4]| {
        let all = all.map(Vec::from);
        verdict.candidates(&shot.halves(&code)[0], &[0, 0, 0, 1], &all)
    };
    let [a, b, c, d] = P7;
    assert_eq!(judge(P7), Ok(()));
    assert_eq!(judge([a, [1, 0, 1, 1], c, d]), Ok(()));
    let wrong = [
        ([b, a, c, d], "candidate 0 is not the correction"),
        ([a, [0, 3, 0, 0], c, d], "a candidate has other elements"),
        ([a, [0, 1, 1, 0], c, d], "candidate 1 does not fit"),
        ([a, b, c, b], "the class of candidate 3 again"),
        ([a, b, [1, 1, 1, 0], d], "the class of candidate 2 again"),
    ];
    for (all, why) in wrong {
        assert_eq!(judge(all), Err(why.into()));
    }
    let fewer = verdict.candidates(&shot.halves(&code)[0], &a, &[a.into(), b.into()]);
    assert_eq!(fewer, Err("2 candidates of 2^2 classes".into()));
}

#[test]
fn the_lowest_number_of_those_that_apply() {
    let ask = ask(&[0, 1]);
    let short = [
        Ask { room: 3, ..ask.clone() },
        Ask { marks: vec![3, 2, 0], ..ask.clone() },
        Ask { forms: ask.forms[..15].into(), ..ask.clone() },
    ];
    let short = short.map(|ask| (ask, Some(12)));
    for (ask, first) in [(ask, None)].into_iter().chain(short) {
        let unfinished = [Some(Word::None), Some(Word::Spent), Some(Word::Stopped), None];
        for word in unfinished.into_iter().chain([ask.word]) {
            let second = if word == ask.word { first } else { first.or(Some(15)) };
            for (live, number, many) in [(1, 1, false), (1, 2, true), (9, 0, true)] {
                let third = if many { second.or(Some(16)) } else { second };
                let ask = Ask { word, live, number, ..ask.clone() };
                assert_eq!(ask.answer().err(), third, "{word:?} {live} {number}");
            }
        }
    }
}

#[test]
fn marks_of_the_first_n() {
    for open in 0..5 {
        let mut ask = ask(&[0, 1]);
        ask.marks.push(0);
        ask.marks[open] = mark::OPEN;
        assert_eq!(ask.answer().err(), (open < 4).then_some(15));
    }
}

#[test]
fn the_numbers_of_candidates() {
    for live in 0..=8 {
        let ask = Ask { live, ..ask(&[0, 1]) };
        let answer = |number: u64| Ask { number, ..ask.clone() }.answer().err();
        assert_eq!(answer((1 << live) - 1), None);
        for number in [1 << live, 1 << 63, u64::MAX] {
            assert_eq!(answer(number), Some(16), "{number} of {live}");
        }
    }
    for live in [9, 63, 64, 65, 255, 256, 65_535] {
        assert_eq!(Ask { live, ..ask(&[0, 1]) }.answer(), Err(16));
    }
}

#[test]
fn no_qubits() {
    let (marks, forms) = (Vec::new(), Vec::new());
    let ask = Ask { n: 0, room: 0, marks, forms, ..ask(&[]) };
    assert_eq!(ask.answer(), Err(15));
    assert_eq!(Ask { word: Some(Word::Certain), ..ask }.answer(), Ok(Vec::new()));
}
