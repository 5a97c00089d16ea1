//! The header's constants are the Rust crate's, the specs' and the judge's.

use crate::Checked;
use judge::candidates::MOST_LIVE;
use judge::codes::{QUBITS, ROWS, WEIGHT};
use judge::form::WORDS;
use judge::half::{mark as judged, Asked};
use judge::judge::{ensure, Judged};
use judge::stream::{LOGICAL, X_ROW, Z_ROW};
use rack::raw::mark;
use rack::{lent, Mark, Refusal, Word};

const HEADER: &str = include_str!("../../../crates/rack/include/rack.h");
const RAW: &str = include_str!("../../../crates/rack/rust/src/raw.rs");
const PLAIN: &str = include_str!("../../../crates/plain/specs/Plain.antt");
const MACHINE: &str = include_str!("../../../crates/machine/specs/Machine.antt");
const TABLE: &str = include_str!("../../../crates/records/specs/Table.antt");
const CANDIDATES: &str = include_str!("../../../crates/candidates_meaning/specs/Asking.antt");
const LISTS: &str = include_str!("../../../crates/records/specs/Lists.antt");
const WINDOW: &str = include_str!("../../../crates/records/specs/Window.antt");

/// Names as the header has them, with their numbers.
type Numbers = Vec<(String, usize)>;

pub fn numbers(_seed: u64, _shots: usize) -> Checked {
    let header = header();
    ensure(header.len() >= 40, || format!("only {} constants in the header", header.len()))?;
    same("raw.rs", &header, raw())?;
    let version = usize::from(lent::version());
    same("rack_version", &part(&header, "VERSION"), vec![("RACK_VERSION".into(), version)])?;
    names(&header)?;
    specs(&header)?;
    judge(&header)?;
    Ok(format!("{} constants", header.len()))
}

fn same(what: &str, header: &Numbers, other: Numbers) -> Judged {
    ensure(*header == other, || format!("the header has {header:?}, {what} {other:?}"))
}

/// The constants whose names begin so after `RACK_`.
fn part(header: &Numbers, prefix: &str) -> Numbers {
    let begins = |(name, _): &&(String, usize)| name["RACK_".len()..].starts_with(prefix);
    header.iter().filter(begins).cloned().collect()
}

/// Every enumerator, each written with its number, and the version.
fn header() -> Numbers {
    let lines = HEADER.lines().map(|line| line.trim().trim_end_matches(','));
    let mut numbers: Numbers = lines.filter_map(|line| number(line, " = ")).collect();
    let version = HEADER.lines().find_map(|line| number(line.strip_prefix("#define ")?, " "));
    numbers.insert(0, version.expect("a version"));
    numbers
}

/// `RACK_NAME`, something in between, a number.
fn number(line: &str, between: &str) -> Option<(String, usize)> {
    let (name, number) = line.split_once(between)?;
    let known = name.starts_with("RACK_") && !name.contains(' ');
    Some((known.then(|| name.to_string())?, number.parse().ok()?))
}

/// Every constant of `raw.rs`, its module being the prefix.
fn raw() -> Numbers {
    let mut prefix = String::from("RACK_");
    let mut numbers = Vec::new();
    for line in RAW.lines() {
        if let Some(module) = line.strip_prefix("pub mod ") {
            prefix = format!("RACK_{}_", module.trim_end_matches(" {").to_uppercase());
        } else if let Some(constant) = line.trim().strip_prefix("pub const ") {
            let (name, rest) = constant.split_once(": ").expect("a type");
            let (_, number) = rest.trim_end_matches(';').split_once(" = ").expect("a number");
            numbers.push((format!("{prefix}{name}"), number.parse().expect("a number")));
        }
    }
    numbers
}

/// The header's name for a word of ours.
fn named(prefix: &str, name: &str) -> String {
    format!("RACK_{prefix}{}", name.to_uppercase().replace(' ', "_"))
}

/// The Rust crate's enums. Their numbers are read back, and others are errors.
fn names(header: &Numbers) -> Judged {
    let words = Word::ALL.iter().map(|word| (named("WORD_", word.name()), word.number().into()));
    same("Word", &part(header, "WORD_"), words.collect())?;
    let refusals =
        Refusal::ALL.iter().map(|why| (named("REFUSAL_", why.name()), why.number().into()));
    same("Refusal", &part(header, "REFUSAL_"), refusals.collect())?;
    let marks = Mark::ALL.iter().map(|mark| (named("MARK_", mark.name()), mark.number().into()));
    same("Mark", &part(header, "MARK_"), marks.collect())?;
    for number in 0..=u16::MAX {
        let word = Word::try_from(number).is_ok_and(|word| word.number() == number);
        let refusal = Refusal::try_from(number).is_ok_and(|why| why.number() == number);
        let known = [matches!(number, 1..=5), matches!(number, 1..=9 | 11 | 12 | 15..=17)];
        ensure([word, refusal] == known, || format!("{number} is read as a word or a refusal"))?;
    }
    for number in 0..=u8::MAX {
        let known = Mark::try_from(number).is_ok_and(|mark| mark.number() == number);
        ensure(known == (usize::from(number) < Mark::ALL.len()), || format!("mark {number}"))?;
    }
    Ok(())
}

/// What a clause of the specs gives each name: `word_number Certain = 1`.
fn clauses(text: &str, function: &str, prefix: &str) -> Numbers {
    let clause = |line: &str| {
        let (name, number) = line.strip_prefix(function)?.strip_prefix(' ')?.split_once(" = ")?;
        let name = name.rsplit('.').next()?;
        Some((named(prefix, name), number.parse().ok()?))
    };
    text.lines().filter_map(clause).collect()
}

/// The numbers that the proved functions hand back, the least lengths that they ask for, the marks.
fn specs(header: &Numbers) -> Judged {
    let words = clauses(WINDOW, "word_number", "WORD_");
    same("word_number", &part(header, "WORD_"), words)?;
    let phases = clauses(PLAIN, "phase_number", "PHASE_");
    same("phase_number", &part(header, "PHASE_"), phases)?;
    let mut refusals = clauses(TABLE, "refusal_number", "REFUSAL_");
    refusals.extend(clauses(CANDIDATES, "candidate_number", "REFUSAL_"));
    refusals.sort_by_key(|&(_, number)| number);
    refusals.dedup();
    same("the specs'", &part(header, "REFUSAL_"), refusals)?;
    let short = LISTS.split("\n\n").find(|text| text.contains("\nshort_lists l window work ="));
    let short = short.expect("a definition of short lists");
    let held = ["flat", "ends", "shot"].map(|list| format!("(length l.{list})"));
    let lists = [&held[..], &["window".into(), "work".into()]].concat();
    let least = part(header, "LEAST_");
    lists.iter().zip(&least).try_for_each(|(list, (name, least))| {
        let asked = short.contains(&format!("ltb {list} {least}"));
        ensure(asked, || format!("{name} is {least}, and the specs have {short}"))
    })?;
    [
        format!("cond (lost q) (cond (fixed q) {} {}) {}", mark::FIXED, mark::OPEN, mark::NOT_LOST),
        format!("peel checks st p c = settle checks st p {}", mark::PEELED),
        format!("guess checks st p =\n    settle checks st p {}", mark::GUESSED),
    ]
    .iter()
    .try_for_each(|marked| ensure(MACHINE.contains(marked), || format!("no {marked} in the specs")))
}

/// Document 01's numbers, as the judge has them.
fn judge(header: &Numbers) -> Judged {
    let Asked { budget, limit } = Asked::AMPLE;
    let most = [QUBITS, ROWS, WEIGHT, budget, limit, MOST_LIVE];
    let marks = [judged::NOT_LOST, judged::FIXED, judged::PEELED, judged::GUESSED, judged::OPEN];
    let kinds = [1, 2, 3, 4, 5, 6, 7, LOGICAL, X_ROW, Z_ROW];
    let lists = [16_384, 16_384, 2_048, 2_560, 10_240, QUBITS, WORDS * QUBITS, QUBITS];
    for (prefix, known) in [
        ("MOST_", most.to_vec()),
        ("MARK_", marks.map(usize::from).to_vec()),
        ("KIND_", kinds.map(usize::from).to_vec()),
        ("LEAST_", lists.to_vec()),
        ("ANSWER_", vec![0, 1, 2, 3]),
    ] {
        let part = part(header, prefix);
        let numbers: Vec<usize> = part.iter().map(|(_, number)| *number).collect();
        ensure(numbers == known, || format!("{part:?} should be {known:?}"))?;
    }
    Ok(())
}
