//! The program, and streams with what it writes for them when nothing fails.

use crate::child::{failure, said, start};
use crate::stream::{bytes, stream, Record};
use crate::truth::Truth;
use std::fs::{create_dir_all, read, remove_dir_all, write, File};
use std::path::PathBuf;
use std::process::Command;

pub struct Setup {
    shots: String,
    pub shim: String,
    folder: PathBuf,
    /// Much output, in answers of every length.
    pub large: Stream,
    /// Little of all.
    pub small: Stream,
}

pub struct Stream {
    pub input: Vec<u8>,
    file: PathBuf,
    pub truth: Truth,
}

const SEED: u64 = 1;

impl Setup {
    pub fn new(shots: &str, shim: &str) -> Result<Setup, String> {
        let folder = std::env::temp_dir().join(format!("shots-{}", std::process::id()));
        create_dir_all(&folder).map_err(|error| error.to_string())?;
        let make = |name: &str, records| Stream::of(shots, folder.join(name), records);
        let large = make("large", stream(SEED, 20_000, 2_000, 100))?;
        let small = make("small", stream(SEED, 50, 50, 10))?;
        Ok(Setup { shots: shots.into(), shim: shim.into(), folder, large, small })
    }

    pub fn command(&self) -> Command {
        Command::new(&self.shots)
    }

    /// A file to write to.
    pub fn output(&self) -> PathBuf {
        self.folder.join("output")
    }
}

impl Drop for Setup {
    fn drop(&mut self) {
        let _ = remove_dir_all(&self.folder);
    }
}

impl Stream {
    fn of(shots: &str, file: PathBuf, records: Vec<Record>) -> Result<Stream, String> {
        let words = |error: std::io::Error| error.to_string();
        let input = bytes(&records);
        write(&file, &input).map_err(words)?;
        let output = file.with_extension("truth");
        let mut command = Command::new(shots);
        command.stdin(File::open(&file).map_err(words)?);
        command.stdout(File::create(&output).map_err(words)?);
        let told = failure(&said(start(&mut command)?)?);
        if !told.is_empty() {
            return Err(format!("says {told:?} though nothing failed"));
        }
        let truth = Truth::of(&records, read(&output).map_err(words)?)?;
        Ok(Stream { input, file, truth })
    }

    /// The stream as standard input.
    pub fn open(&self) -> Result<File, String> {
        File::open(&self.file).map_err(|error| error.to_string())
    }
}
