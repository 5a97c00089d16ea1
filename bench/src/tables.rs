//! The tables, from what was measured alone.

use crate::cells::{Cell, Measured, COLUMNS};
use judge::half::Word;

/// A number with its thousands apart.
fn grouped(number: f64) -> String {
    let digits = format!("{number:.0}");
    let mut text = String::new();
    for (at, digit) in digits.chars().enumerate() {
        if at > 0 && (digits.len() - at) % 3 == 0 {
            text.push(',');
        }
        text.push(digit);
    }
    text
}

/// About three digits.
fn short(number: f64) -> String {
    match number {
        _ if number < 0.1 => format!("{number:.4}"),
        _ if number < 1.0 => format!("{number:.3}"),
        _ if number < 10.0 => format!("{number:.2}"),
        _ if number < 100.0 => format!("{number:.1}"),
        _ => grouped(number),
    }
}

/// A line a cell, the codes set apart.
fn each(codes: &[Measured], line: impl Fn(&Cell) -> String) {
    for code in codes {
        for cell in &code.cells {
            println!("{:>6} {:>3} % {}", grouped(code.n as f64), cell.loss, line(cell));
        }
        println!();
    }
}

pub fn speeds(codes: &[Measured]) {
    println!("Shots per second; ratio: how many times as fast as elimination.\n");
    println!("{:>32} {:>36}", "programs", "in process");
    let [shots, eliminate, library, elimination] = COLUMNS;
    print!("{:>6} {:>5} {shots:>12} {eliminate:>13} {:>7}", "n", "loss", "ratio");
    println!("   {library:>12} {elimination:>13} {:>7}", "ratio");
    each(codes, |cell| {
        let pair = |at: usize| {
            let taken = [cell.taken[at], cell.taken[at + 1]];
            let speeds = taken.map(|taken| grouped(1.0 / taken));
            format!("{:>12} {:>13} {:>7}", speeds[0], speeds[1], short(taken[1] / taken[0]))
        };
        format!("{}   {}", pair(0), pair(2))
    });
}

pub fn words(codes: &[Measured]) {
    println!("The library's words, percent of the halves; turns and guesses of a half, mean.\n");
    let names = Word::ALL.map(|word| format!("{:>9}", word.name())).concat();
    println!("{:>6} {:>5} {:>7}{names} {:>9} {:>9}", "n", "loss", "shots", "turns", "guesses");
    each(codes, |cell| {
        let halves = 2.0 * cell.shots as f64;
        let share = |count: usize| format!("{:>9.1}", 100.0 * count as f64 / halves);
        let [turns, guesses] = [cell.turns, cell.guesses].map(|sum| sum as f64 / halves);
        format!("{:>7}{} {turns:>9.1} {guesses:>9.1}", cell.shots, cell.words.map(share).concat())
    });
}

pub fn growth_with_n(codes: &[Measured], loss: usize) {
    println!("Microseconds a shot at {loss} % loss; between them the exponent of n.\n");
    let sizes = codes.iter().map(|code| code.n as f64);
    let cells = codes.iter().flat_map(|code| code.cells.iter().filter(|cell| cell.loss == loss));
    growth(&sizes.zip(cells).collect::<Vec<_>>(), grouped);
}

pub fn growth_with_loss(codes: &[Measured], n: usize) {
    println!("Microseconds a shot at n = {n}; between them the exponent of the loss rate.\n");
    let cells = codes.iter().filter(|code| code.n == n).flat_map(|code| &code.cells);
    let cells: Vec<_> = cells.map(|cell| (cell.loss as f64, cell)).collect();
    growth(&cells, |loss| format!("{loss} %"));
}

/// Cells with the size that grows.
fn growth(cells: &[(f64, &Cell)], label: impl Fn(f64) -> String) {
    let labels: Vec<String> =
        cells.iter().map(|&(size, _)| format!("{:>7}", label(size))).collect();
    println!("{:>11}{}", "", labels.join("      "));
    for (at, name) in COLUMNS.iter().enumerate() {
        let mut line = format!("{name:<11}");
        for (place, (size, cell)) in cells.iter().enumerate() {
            if let Some((before, earlier)) = place.checked_sub(1).map(|place| cells[place]) {
                let grown = (cell.taken[at] / earlier.taken[at]).ln();
                line += &format!(" {:>5.1}", grown / (size / before).ln());
            }
            line += &format!("{:>7}", short(1e6 * cell.taken[at]));
        }
        println!("{line}");
    }
    println!();
}

pub fn loading(codes: &[Measured]) {
    println!("Milliseconds to start a program and load the code.\n");
    println!("{:>6} {:>12} {:>13}", "n", COLUMNS[0], COLUMNS[1]);
    for code in codes {
        let taken = code.loading.map(|seconds| short(1e3 * seconds));
        println!("{:>6} {:>12} {:>13}", grouped(code.n as f64), taken[0], taken[1]);
    }
}
