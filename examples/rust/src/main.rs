//! A thousand random losses on the Steane code: loads the code, sends the shots, tests the flips and
//! prints a table of words, then the counts of the last 256 shots.
//!
//!     cargo run --manifest-path examples/rust/Cargo.toml

use rack::raw::most;
use rack::{Counts, Error, Half, HalfCounts, Rack, Report, Word};
use std::process::ExitCode;

const N: usize = 7;
const LOGICAL: usize = 1;
const SHOTS: usize = 1000;
const LOST_ONE_IN: u64 = 4;

/// The X rows, and the Z rows too.
const ROWS: [[u16; 4]; 3] = [[0, 2, 4, 6], [1, 2, 5, 6], [3, 4, 5, 6]];

/// Whether each qubit is in it.
type Qubits = [bool; N];

#[derive(Default)]
struct Shot {
    lost: Qubits,
    x_error: Qubits,
    z_error: Qubits,
}

/// Of a half, by word: how often it was said, and how often the flips undid the error.
type Tally = [(usize, usize); Word::ALL.len()];

/// Random numbers (splitmix64).
struct Random(u64);

impl Random {
    fn below(&mut self, end: u64) -> u64 {
        self.0 = self.0.wrapping_add(0x9e37_79b9_7f4a_7c15);
        let mut z = self.0;
        z = (z ^ (z >> 30)).wrapping_mul(0xbf58_476d_1ce4_e5b9);
        z = (z ^ (z >> 27)).wrapping_mul(0x94d0_49bb_1331_11eb);
        (z ^ (z >> 31)) % end
    }

    /// Each qubit is lost with the same probability, and a lost one has each error half of the time.
    fn shot(&mut self) -> Shot {
        let mut shot = Shot::default();
        for qubit in 0..N {
            shot.lost[qubit] = self.below(LOST_ONE_IN) == 0;
            shot.x_error[qubit] = self.below(2) == 1 && shot.lost[qubit];
            shot.z_error[qubit] = self.below(2) == 1 && shot.lost[qubit];
        }
        shot
    }
}

/// A row fires on an error if they share an odd number of qubits.
fn fires(row: &[u16], error: &Qubits) -> bool {
    row.iter().filter(|&&qubit| error[usize::from(qubit)]).count() % 2 == 1
}

fn load(rack: &mut Rack) -> Result<(), Error> {
    rack.sizes(N, ROWS.len(), ROWS.len())?;
    for row in ROWS {
        rack.x_row(&row)?;
    }
    for row in ROWS {
        rack.z_row(&row)?;
    }
    rack.logical(LOGICAL)?;
    Ok(())
}

/// Z rows fire on X errors, X rows on Z errors.
fn decode<'a>(rack: &'a mut Rack, shot: &Shot) -> Result<Report<'a>, Error> {
    for qubit in (0..N).filter(|&qubit| shot.lost[qubit]) {
        rack.lost(qubit)?;
    }
    for (at, row) in ROWS.iter().enumerate() {
        if fires(row, &shot.x_error) {
            rack.lit_z(at)?;
        }
        if fires(row, &shot.z_error) {
            rack.lit_x(at)?;
        }
    }
    rack.decode(most::BUDGET, most::LIMIT)
}

/// Flips lie on lost qubits and make exactly the lit rows fire. Those of a certain half undo the
/// error: what is left is a product of rows, which in this code have an even number of qubits, where
/// every other error that fires no row has an odd one.
fn count(tally: &mut Tally, half: &Half, lost: &Qubits, error: &Qubits) -> Result<(), String> {
    let (shots, undone) = &mut tally[usize::from(half.word.number()) - 1];
    *shots += 1;
    let Some(qubits) = half.flips() else {
        return Ok(());
    };
    let mut flips = [false; N];
    qubits.iter().for_each(|&qubit| flips[qubit] = true);
    if (0..N).any(|qubit| flips[qubit] & !lost[qubit]) {
        return Err(format!("{}: a flip on a qubit that was not lost", half.word));
    }
    if ROWS.iter().any(|row| fires(row, &flips) != fires(row, error)) {
        return Err(format!("{}: the flips do not fit", half.word));
    }
    let left = (0..N).filter(|&qubit| flips[qubit] != error[qubit]).count();
    *undone += usize::from(left % 2 == 0);
    Ok(())
}

fn run() -> Result<([Tally; 2], Counts), String> {
    let refused = |error: Error| error.to_string();
    let mut random = Random(1);
    let mut tallies = [Tally::default(); 2];
    let mut rack = Rack::new().map_err(refused)?;
    load(&mut rack).map_err(refused)?;
    for _ in 0..SHOTS {
        let shot = random.shot();
        let report = decode(&mut rack, &shot).map_err(refused)?;
        count(&mut tallies[0], &report.x, &shot.lost, &shot.x_error)?;
        count(&mut tallies[1], &report.z, &shot.lost, &shot.z_error)?;
    }
    Ok((tallies, rack.counts().map_err(refused)?))
}

fn print(half: char, tally: &Tally) {
    for (word, (shots, undone)) in Word::ALL.iter().zip(tally) {
        println!("{half}     {word:8} {shots:6} {undone:7}");
    }
}

fn print_last(half: char, last: HalfCounts) {
    let HalfCounts { certain, unsure, none, spent, stopped, turns, guesses, live } = last;
    print!("{half}     {certain:7} {unsure:7} {none:5} {spent:6} {stopped:8}");
    println!(" {turns:6} {guesses:8} {live:5}");
}

fn main() -> ExitCode {
    match run() {
        Ok(([x, z], last)) => {
            println!(
                "Steane code, {SHOTS} shots, each qubit lost with probability 1/{LOST_ONE_IN}"
            );
            println!("half  word      shots  undone");
            print('X', &x);
            print('Z', &z);
            println!("the last 256 shots");
            println!("half  certain  unsure  none  spent  stopped  turns  guesses  live");
            print_last('X', last.x);
            print_last('Z', last.z);
            ExitCode::SUCCESS
        }
        Err(why) => {
            eprintln!("steane: {why}");
            ExitCode::FAILURE
        }
    }
}
