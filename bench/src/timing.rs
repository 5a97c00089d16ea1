//! How long things take: passes in process, and programs from start to end.

use std::fs::File;
use std::io::{self, Read};
use std::path::{Path, PathBuf};
use std::process::{Command, Stdio};
use std::time::Instant;

/// The best times of two things, measured in turn.
pub fn best_of(
    rounds: usize,
    mut measure: impl FnMut(usize) -> Result<f64, String>,
) -> Result<[f64; 2], String> {
    let mut best = [f64::INFINITY; 2];
    for _ in 0..rounds {
        for (at, best) in best.iter_mut().enumerate() {
            *best = best.min(measure(at)?);
        }
    }
    Ok(best)
}

/// Seconds that a pass takes, made again until the least time is over.
pub fn in_process(least: f64, mut pass: impl FnMut()) -> f64 {
    let start = Instant::now();
    let mut passes = 0.0;
    loop {
        pass();
        passes += 1.0;
        let taken = start.elapsed().as_secs_f64();
        if taken >= least {
            return taken / passes;
        }
    }
}

pub struct Program {
    pub path: PathBuf,
    pub arguments: Vec<String>,
}

impl Program {
    /// Seconds from start to end on a file; the output is read from a pipe and has so many lines.
    pub fn run(&self, input: &Path, lines: usize) -> Result<f64, String> {
        let failed = |why: String| format!("{}: {why}", self.path.display());
        let (taken, status, written) =
            self.time(input).map_err(|error| failed(error.to_string()))?;
        if !status.success() {
            return Err(failed(format!("ended with {status}")));
        }
        if written != lines {
            return Err(failed(format!("wrote {written} lines, not {lines}")));
        }
        Ok(taken)
    }

    fn time(&self, input: &Path) -> io::Result<(f64, std::process::ExitStatus, usize)> {
        let mut command = Command::new(&self.path);
        command.args(&self.arguments).stdin(File::open(input)?).stdout(Stdio::piped());
        let start = Instant::now();
        let mut child = command.spawn()?;
        let written = child.stdout.take().map_or(Ok(0), count_lines)?;
        let status = child.wait()?;
        Ok((start.elapsed().as_secs_f64(), status, written))
    }
}

fn count_lines(mut output: impl Read) -> io::Result<usize> {
    let mut block = vec![0; 1 << 16];
    let mut lines = 0;
    loop {
        match output.read(&mut block)? {
            0 => return Ok(lines),
            length => lines += block[..length].iter().filter(|&&byte| byte == b'\n').count(),
        }
    }
}
