//! What is measured of a code, and of a code at one loss rate.

use crate::agree::{Agreement, Disagreement};
use crate::streams::{shot, split, Stream};
use crate::timing::{best_of, in_process, Program};
use judge::codes::Code;
use judge::half::{Said, Word};
use judge::random::Random;
use std::fs;
use std::path::PathBuf;
use std::time::Instant;

/// A stream has as many shots as the library decodes in the least time, within these.
pub const SHOTS: (usize, usize) = (32, 4096);
/// A program's input has the shots again and again for the least time, up to so many bytes.
const INPUT: f64 = 67_108_864.0;

/// Two programs, then two decoders in process.
pub const COLUMNS: [&str; 4] = ["shots", "eliminate", "library", "elimination"];

/// A code at one loss rate.
#[derive(Default)]
pub struct Cell {
    pub loss: usize,
    pub shots: usize,
    /// Halves by word, in the order of `Word::ALL`.
    pub words: [usize; 5],
    pub turns: usize,
    pub guesses: usize,
    /// Seconds a shot, in the order of `COLUMNS`.
    pub taken: [f64; 4],
}

impl Cell {
    fn add(&mut self, said: &Said) {
        let word = Word::ALL.iter().position(|&word| word == said.word);
        self.words[word.expect("one of the five")] += 1;
        self.turns += said.counts.turns;
        self.guesses += said.counts.guesses;
    }
}

/// A code at all loss rates.
pub struct Measured {
    pub n: usize,
    /// Seconds that the programs take to start and load the code.
    pub loading: [f64; 2],
    pub cells: Vec<Cell>,
}

pub struct Bench {
    /// The least time of a measurement.
    pub seconds: f64,
    /// Measurements of which the best counts.
    pub rounds: usize,
    pub programs: [Program; 2],
    /// Where streams are put.
    pub folder: PathBuf,
    pub agreement: Agreement,
}

impl Bench {
    /// Both decoders on random codes.
    pub fn try_families(&mut self, random: &mut Random) -> Result<(), String> {
        self.agreement.on_families(random).map_err(|failure| self.keep(failure))
    }

    pub fn loading(&self, code: &Code) -> Result<[f64; 2], String> {
        let input = self.write("load.input", &Stream::new(code).load)?;
        best_of(self.rounds, |at| self.programs[at].run(&input, 1))
    }

    pub fn cell(&mut self, code: &Code, loss: usize, random: &mut Random) -> Result<Cell, String> {
        let mut cell = Cell { loss, ..Cell::default() };
        let stream = self.draw(code, random, &mut cell)?;
        self.agreement.on_stream(&stream).map_err(|failure| self.keep(failure))?;
        let decoders = self.decoders(&stream)?;
        let programs = self.programs(&stream, decoders)?;
        let passes = [programs[0], programs[1], decoders[0], decoders[1]];
        cell.taken = passes.map(|pass| pass / cell.shots as f64);
        Ok(cell)
    }

    /// Shots, decoded as they are drawn, until the library has run for the least time.
    fn draw(
        &mut self,
        code: &Code,
        random: &mut Random,
        cell: &mut Cell,
    ) -> Result<Stream, String> {
        let rack = &mut self.agreement.rack;
        let mut stream = Stream::new(code);
        for record in split(&stream.load) {
            rack.take(record);
        }
        let mut taken = 0.0;
        while cell.shots < SHOTS.0 || (taken < self.seconds && cell.shots < SHOTS.1) {
            let bytes = shot(code, cell.loss, random);
            let start = Instant::now();
            let reply = split(&bytes).map(|record| rack.take(record)).last();
            taken += start.elapsed().as_secs_f64();
            let said = rack.said(&reply.expect("a decode"))?;
            said.iter().for_each(|said| cell.add(said));
            stream.shots.push(bytes);
            cell.shots += 1;
        }
        Ok(stream)
    }

    /// Seconds that a pass over the shots takes the library and the elimination decoder.
    fn decoders(&mut self, stream: &Stream) -> Result<[f64; 2], String> {
        let Agreement { rack, decoder, .. } = &mut self.agreement;
        best_of(self.rounds, |at| {
            Ok(match at {
                0 => in_process(self.seconds, || stream.pass(|record| rack.take(record))),
                _ => in_process(self.seconds, || stream.pass(|record| decoder.take(record))),
            })
        })
    }

    /// The same of the programs; the time of the decoder tells how many passes suffice.
    fn programs(&self, stream: &Stream, decoders: [f64; 2]) -> Result<[f64; 2], String> {
        let shots = stream.shots.concat();
        let most = INPUT / shots.len() as f64;
        let passes = decoders.map(|pass| (self.seconds / pass).min(most).ceil() as usize);
        let input = |at: usize| {
            let bytes = [&stream.load[..], &shots.repeat(passes[at])].concat();
            self.write(&format!("{}.input", COLUMNS[at]), &bytes)
        };
        let inputs = [input(0)?, input(1)?];
        best_of(self.rounds, |at| {
            let lines = 1 + 2 * stream.shots.len() * passes[at];
            Ok(self.programs[at].run(&inputs[at], lines)? / passes[at] as f64)
        })
    }

    fn keep(&self, failure: Disagreement) -> String {
        match self.write("disagreement", &failure.stream) {
            Ok(path) => format!("{}\nthe stream is in {}", failure.why, path.display()),
            Err(error) => format!("{}\nthe stream is lost: {error}", failure.why),
        }
    }

    fn write(&self, name: &str, bytes: &[u8]) -> Result<PathBuf, String> {
        let path = self.folder.join(name);
        fs::write(&path, bytes).map_err(|error| format!("{}: {error}", path.display()))?;
        Ok(path)
    }
}
