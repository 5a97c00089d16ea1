//! The bench shots of document 01 and its printed example, shots with unread rows, and logical qubits compared.

use crate::codes::{set, Code};
use crate::half::Asked;
use crate::known::{four, gross, seven, toric};
use crate::records;
use crate::shot::{size, Decode, Shot};
use crate::stream::Record;
use std::rc::Rc;

/// Records and some of the lines they print, by their places.
pub struct Bench {
    pub name: String,
    pub records: Vec<Record>,
    pub lines: Vec<(usize, String)>,
}

pub fn all() -> Vec<Bench> {
    document().into_iter().chain(unread()).chain(logical()).collect()
}

pub fn document() -> Vec<Bench> {
    proved().into_iter().chain(run_only()).chain([example()]).collect()
}

fn shot(name: &str, code: Code, sets: [&[usize]; 2], asked: [usize; 2], line: &str) -> Bench {
    made(name, code, [sets[0], sets[1], &[], &[]], asked, line)
}

/// A shot by its sets of the kinds 2, 3, 6 and 7, and its X half's line.
fn made(name: &str, code: Code, sets: [&[usize]; 4], asked: [usize; 2], line: &str) -> Bench {
    let mut shot = Shot::empty(&code);
    for (kind, numbers) in [2, 3, 6, 7].into_iter().zip(sets) {
        *shot.set_mut(kind) = set(size(&code, kind), numbers);
    }
    let asked = Asked { budget: asked[0], limit: asked[1] };
    let records = records::whole(&Decode { code: Rc::new(code), shot, asked });
    Bench { name: name.into(), records, lines: vec![(1, format!("X {line}"))] }
}

/// P1 to P12: the code, lost qubits and lit Z rows, budget and limit, X half.
fn proved() -> [Bench; 12] {
    let all: &[usize] = &[0, 1, 2, 3];
    let even: &[usize] = &[0, 2, 4, 6];
    [
        shot("P1", four(), [&[], &[]], [0, 100], "certain 0 0 0 0 flip"),
        shot("P2", four(), [&[], &[0]], [0, 100], "none 0 0 0 0"),
        shot("P3", four(), [&[2], &[0]], [0, 100], "certain 0 1 0 0 flip 2"),
        shot("P4", four(), [&[0, 1], &[0]], [1, 100], "unsure 0 2 1 1 flip 1"),
        shot("P5", four(), [&[0, 1], &[0]], [0, 100], "spent 0 0 0 0"),
        shot("P6", four(), [&[0, 1], &[0]], [1, 1], "stopped 0 1 1 1"),
        shot("P7", four(), [all, &[0]], [2, 100], "unsure 1 3 2 2 flip 3"),
        shot("P8", four(), [all, &[0]], [1, 100], "spent 1 1 1 1"),
        shot("P9", seven(), [&[0, 1, 2], &[0]], [1, 100], "unsure 0 3 1 1 flip 0"),
        shot("P10", seven(), [even, &[0, 1, 2]], [1, 100], "certain 1 3 1 0 flip 6"),
        shot("P11", seven(), [even, &[0]], [1, 100], "certain 1 3 1 0 flip 2 4 6"),
        shot("P12", twice(), [&[0], &[0]], [0, 100], "none 0 1 0 0"),
    ]
}

fn twice() -> Code {
    Code { n: 2, x: vec![], z: vec![vec![0, 1], vec![0, 1]] }
}

/// What unread rows make of the shots above: lost qubits, lit Z rows, unread Z rows and unread X
/// rows.
#[rustfmt::skip]
pub fn unread() -> [Bench; 20] {
    let all: &[usize] = &[0, 1, 2, 3];
    let even: &[usize] = &[0, 2, 4, 6];
    let three: &[usize] = &[0, 1, 2];
    let apart = Code { n: 2, x: vec![vec![0]], z: vec![vec![1]] };
    let mut other = made("P7, X row unread", four(), [all, &[0], &[], &[0]], [2, 100], "unsure 1 3 2 2 flip 3");
    other.lines.push((2, "Z spent 1 2 2 2".into()));
    [
        // A row that contradicts the others no longer does.
        made("P2, unread", four(), [&[], &[], &[0], &[]], [0, 100], "certain 0 0 0 0 flip"),
        made("P12, 1 unread", twice(), [&[0], &[0], &[1], &[]], [0, 100], "certain 0 1 0 0 flip 0"),
        made("P12, 0 unread", twice(), [&[0], &[1], &[0], &[]], [0, 100], "certain 0 1 0 0 flip 0"),
        made("P12, 0 unread, 1 zero", twice(), [&[0], &[], &[0], &[]], [0, 100], "certain 0 1 0 0 flip"),
        made("P12, both unread", twice(), [&[0], &[], &[0, 1], &[]], [0, 100], "spent 0 0 0 0"),
        // Without its only row a lost qubit is a guess.
        made("P3, unread", four(), [&[2], &[], &[0], &[]], [1, 100], "unsure 0 1 1 1 flip"),
        made("P3, unread, budget 0", four(), [&[2], &[], &[0], &[]], [0, 100], "spent 0 0 0 0"),
        made("P3, unread, limit 0", four(), [&[2], &[], &[0], &[]], [1, 0], "stopped 0 0 0 0"),
        made("P4, unread", four(), [&[0, 1], &[], &[0], &[]], [2, 100], "unsure 0 2 2 2 flip"),
        made("P7, unread", four(), [all, &[], &[0], &[]], [3, 100], "unsure 1 3 3 3 flip"),
        made("P8, unread", four(), [all, &[], &[0], &[]], [1, 100], "spent 1 1 1 1"),
        // It does not count for the guess, and decides none.
        made("P9, 1 unread", seven(), [three, &[0], &[1], &[]], [2, 100], "unsure 0 3 2 2 flip 2"),
        made("P10, 1 unread", seven(), [even, &[0, 2], &[1], &[]], [1, 100], "unsure 1 3 1 1 flip 6"),
        made("P10, 2 unread", seven(), [even, &[0, 1], &[2], &[]], [1, 100], "unsure 1 3 1 1 flip 6"),
        // No row of the half is read.
        made("Seven, unread", seven(), [&[], &[], three, &[]], [0, 100], "certain 0 0 0 0 flip"),
        made("Seven, unread, 0 lost", seven(), [&[0], &[], three, &[]], [1, 100], "unsure 0 1 1 1 flip"),
        made("unread, a product lost", apart, [&[0], &[], &[0], &[]], [0, 100], "certain 1 0 0 0 flip"),
        // Unread, a row of the other kind fixes qubits all the same.
        other,
        made("P7, both unread", four(), [all, &[], &[0], &[0]], [3, 100], "unsure 1 3 3 3 flip"),
        made("P11, X rows unread", seven(), [even, &[0], &[], three], [1, 100], "certain 1 3 1 0 flip 2 4 6"),
    ]
}

/// Codes with the number of logical qubits that is known of them, and with what other counts come to. The X half of a shot in
/// which nothing is lost follows.
pub fn logical() -> Vec<Bench> {
    [
        ("Four", four(), 2, vec![1, 3]),
        // The rows of one kind alone, or of both as one: 4.
        ("Seven", seven(), 1, vec![0, 2, 4, 256, 257, 65_535]),
        // A repeated row counted: 0.
        ("repeated rows", twice(), 1, vec![0, 2]),
        // All rows of a kind make nothing; each counted: 0.
        ("toric code", toric(3), 2, vec![0, 1, 3, 10]),
        ("bicycle code", gross(1), 12, vec![0, 11, 13, 78, 12 << 8]),
        ("no rows", Code::new(1024), 1024, vec![0, 1023, 1025, 4, 65_535]),
    ]
    .into_iter()
    .flat_map(|(name, code, k, others)| {
        let agrees = compared(name, &code, k, [(1, "X certain 0 0 0 0 flip")]);
        let differ = [(1, "refused 17 8"), (2, "refused 7 5")];
        let differ = others.into_iter().map(move |k| compared(name, &code, k, differ));
        [agrees].into_iter().chain(differ)
    })
    .collect()
}

/// A code loaded, a number of logical qubits and a decode.
fn compared<const N: usize>(name: &str, code: &Code, k: usize, lines: [(usize, &str); N]) -> Bench {
    let decode = records::decode(Asked::AMPLE);
    Bench {
        name: format!("{name}, k {k}"),
        records: [records::load(code), vec![records::logical(k), decode]].concat(),
        lines: lines.map(|(at, line)| (at, line.to_string())).into(),
    }
}

/// Qubits on no row with the budgets on both sides of a word's end, and a size out of range.
fn run_only() -> [Bench; 6] {
    let qubits: Vec<usize> = (0..256).collect();
    let free = |lost: usize, n: usize, budget: usize, line: &str| {
        let name = format!("{lost} free, budget {budget}");
        shot(&name, Code::new(n), [&qubits[..lost], &[]], [budget, 300], line)
    };
    [
        free(63, 64, 63, "unsure 0 63 63 63 flip"),
        free(64, 64, 63, "spent 0 63 63 63"),
        free(64, 64, 64, "unsure 0 64 64 64 flip"),
        free(255, 256, 255, "unsure 0 255 255 255 flip"),
        free(256, 256, 255, "spent 0 255 255 255"),
        Bench {
            name: "n 1,025".into(),
            records: vec![records::sizes(1025, 0, 0)],
            lines: vec![(0, "refused 3 1".into())],
        },
    ]
}

fn example() -> Bench {
    let records = [
        &[0x01, 0x04, 0x00, 0x01, 0x00, 0x01, 0x00][..],
        &[0x24, 0x00, 0x00, 0x01, 0x00, 0x02, 0x00, 0x03, 0x00],
        &[0x44, 0x00, 0x00, 0x01, 0x00, 0x02, 0x00, 0x03, 0x00],
        &[0x02, 0x00, 0x00],
        &[0x02, 0x01, 0x00],
        &[0x03, 0x00, 0x00],
        &[0x05, 0x01, 0x64, 0x00],
        &[0x02, 0x04, 0x00],
        &[0x05, 0x01, 0x64, 0x00],
    ];
    let lines = [
        "code 4 1 1",
        "X unsure 0 2 1 1 flip 1",
        "Z unsure 0 2 1 1 flip",
        "refused 8 2",
        "refused 11 5",
    ];
    Bench {
        name: "example".into(),
        records: records.map(<[u8]>::to_vec).into(),
        lines: lines.map(String::from).into_iter().enumerate().collect(),
    }
}
