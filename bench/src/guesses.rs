//! What the guess rule saves: the guesses of a half, by the number of rows alone and by the rule.

use crate::codes::measured;
use crate::streams::draw;
use judge::codes::Code;
use judge::half::Word;
use judge::machine::{needs, Course};
use judge::random::Random;
use judge::wrong::Wrong;

/// Percent of the qubits. Below, next to no half has a guess.
const LOSSES: [usize; 4] = [30, 40, 45, 50];
const BUDGETS: [usize; 4] = [0, 8, 63, 255];
const RULES: [Wrong; 2] = [Wrong::GuessByRows, Wrong::Nothing];

pub fn print(shots: usize, seed: u64) {
    println!("Guesses of a half, and how many are live at once, with budget 255; percent of the halves that are");
    println!("spent. By the number of rows alone, then by the rule. Seed {seed}, {shots} shots a cell.\n");
    let columns =
        ["guesses", "largest", "live", "largest", "spent at 0", "at 8", "at 63", "at 255"];
    let columns = columns.map(|name| format!("{name:>16}")).concat();
    println!("{:>6} {:>5}{columns}", "n", "loss");
    let mut random = Random::new(seed);
    for code in &measured()[1..] {
        for loss in LOSSES {
            let [rows, rule] = cell(code, loss, shots, &mut random).map(|needs| statistics(&needs));
            let pairs = rows.into_iter().zip(rule);
            let pairs = pairs.map(|(rows, rule)| format!("{:>16}", format!("{rows} {rule}")));
            println!("{:>6} {loss:>4} %{}", code.n, pairs.collect::<String>());
        }
    }
}

/// The same halves by each rule.
fn cell(code: &Code, loss: usize, shots: usize, random: &mut Random) -> [Vec<Course>; 2] {
    let mut cell = RULES.map(|_| Vec::new());
    for _ in 0..shots {
        let shot = draw(code, loss, random);
        for half in shot.halves(code) {
            for (needed, rule) in cell.iter_mut().zip(RULES) {
                needed.push(needs(rule, &half));
            }
        }
    }
    cell
}

fn statistics(halves: &[Course]) -> Vec<String> {
    let count = halves.len() as f64;
    let of = |number: fn(&Course) -> usize| {
        let numbers = halves.iter().map(number);
        let mean = numbers.clone().sum::<usize>() as f64 / count;
        [format!("{mean:.2}"), numbers.max().unwrap_or(0).to_string()]
    };
    // A half with a smaller budget is spent where more guesses come to be live than it allows.
    let spent = BUDGETS.map(|budget| {
        let spent = |needs: &&Course| needs.live > budget || needs.word == Word::Spent;
        format!("{:.1}", 100.0 * halves.iter().filter(spent).count() as f64 / count)
    });
    [of(|needs| needs.guesses), of(|needs| needs.live)].concat().into_iter().chain(spent).collect()
}

#[cfg(test)]
mod tests {
    use super::*;

    /// Whether a half has a guess does not hang on the rule; that it has fewer is what the rule is for.
    #[test]
    fn fewer_guesses() {
        let [rows, rule] = cell(&measured()[1], 45, 100, &mut Random::new(1));
        let needed = |needs: &[Course]| needs.iter().map(|needs| needs.guesses).sum::<usize>();
        assert!(rows.iter().zip(&rule).all(|(rows, rule)| (rows.live > 0) == (rule.live > 0)));
        assert!(needed(&rule) < needed(&rows));
    }
}
