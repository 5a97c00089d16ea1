//! The commands on the model itself: right rules pass, wrong ones are caught.

use std::process::{Command, Output};

const JUDGE: &str = env!("CARGO_BIN_EXE_judge");

fn judge(arguments: &[&str]) -> (bool, String) {
    let run = Command::new(JUDGE).args(arguments).output();
    let Output { status, stdout, .. } = run.expect("the command runs");
    (status.success(), String::from_utf8_lossy(&stdout).into_owned())
}

#[test]
fn the_facts_hold() {
    let (success, printed) = judge(&["self", "--seed", "1", "--shots", "1500"]);
    assert!(success && printed.ends_with(" passed, 0 failed\n"), "{printed}");
}

#[test]
fn the_model_passes() {
    let (success, printed) = judge(&["program", JUDGE, "--shots", "500", "--", "shots"]);
    assert!(success && printed.ends_with("10 passed, 0 failed\n"), "{printed}");
}

#[test]
fn wrong_rules_are_caught() {
    let (success, printed) = judge(&["wrongs"]);
    assert!(success && printed.ends_with(" passed, 0 failed\n"), "{printed}");
}

/// Whether elimination alone sees that a rule is wrong.
fn eliminated(name: &str, shots: &str) {
    let (success, printed) = judge(&["self", "--seed", "1", "--shots", shots, "--wrong", name]);
    let judged =
        ["words, counts and flips: ", "marks, forms and corrections: ", "each class shown once: "];
    assert!(!success && judged.iter().any(|fact| printed.contains(fact)), "{name}");
}

#[test]
fn elimination_alone_catches_broken_demands() {
    let broken =
        ["fix-each-row", "untouched-ignored", "bit-kept", "budget-first", "certain-if-fits"];
    broken.iter().for_each(|name| eliminated(name, "2000"));
}

#[test]
fn elimination_alone_catches_unread_rows() {
    let broken = [
        "unread-dangles",
        "unread-closes",
        "unread-as-zero",
        "unread-as-lit",
        "unread-fixes-nothing",
    ];
    broken.iter().for_each(|name| eliminated(name, "300"));
}

#[test]
fn elimination_alone_catches_lost_bits() {
    let broken =
        ["lost-at-border-64", "lost-at-border-128", "lost-at-border-192", "forms-of-255-bits"];
    broken.iter().for_each(|name| eliminated(name, "300"));
}

#[test]
fn elimination_alone_catches_wrong_candidates() {
    let broken = [
        "guess-i-by-bit-i",
        "constant-forgotten",
        "forms-from-element-q",
        "no-candidate-of-certain",
    ];
    broken.iter().for_each(|name| eliminated(name, "300"));
}

#[test]
fn a_failure_prints_a_stream() {
    let wrong = ["program", JUDGE, "--seed", "1", "--", "shots", "--wrong", "certain-if-fits"];
    let (success, printed) = judge(&wrong);
    assert!(!success && printed.contains("stream, its record"), "{printed}");
}
