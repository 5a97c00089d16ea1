//! The program as a child: how it is started, and its end.

use std::fs::File;
use std::io::{self, Read};
use std::os::fd::{FromRawFd, OwnedFd};
use std::os::unix::process::{CommandExt, ExitStatusExt};
use std::process::{Child, Command, Stdio};
use std::thread::{sleep, spawn};
use std::time::{Duration, Instant};

const PATIENCE: Duration = Duration::from_secs(60);

const SIGPIPE: i32 = 13;
const SIGXFSZ: i32 = 25;
const SIG_IGN: usize = 1;
const RLIMIT_FSIZE: i32 = 1;
const F_SETFL: i32 = 4;
const F_SETPIPE_SZ: i32 = 1031;
const O_NONBLOCK: i32 = 0o4000;
const O_CLOEXEC: i32 = 0o2000000;

#[repr(C)]
struct Limit {
    now: u64,
    most: u64,
}

extern "C" {
    fn close(fd: i32) -> i32;
    fn pipe2(ends: *mut [i32; 2], flags: i32) -> i32;
    fn fcntl(fd: i32, command: i32, ...) -> i32;
    fn signal(number: i32, handler: usize) -> usize;
    fn setrlimit(resource: i32, limit: *const Limit) -> i32;
}

/// What is done in the child before the program starts.
fn before(command: &mut Command, act: impl FnMut() -> bool + Send + Sync + 'static) {
    let mut act = act;
    let done = move || if act() { Ok(()) } else { Err(io::Error::last_os_error()) };
    unsafe { command.pre_exec(done) };
}

/// Standard output is closed.
pub fn closed_output(command: &mut Command) {
    before(command, || unsafe { close(1) } == 0);
}

/// A write to a pipe that nobody reads fails and does not end the program. (A child of Rust's starts with the system's
/// default, which ends it.)
pub fn no_pipe_signal(command: &mut Command) {
    before(command, || {
        unsafe { signal(SIGPIPE, SIG_IGN) };
        true
    });
}

/// A file can't grow past so many bytes, and a write past them fails and does not end the program.
pub fn size_limit(command: &mut Command, bytes: usize) {
    let limit = Limit { now: bytes as u64, most: bytes as u64 };
    before(command, move || unsafe {
        signal(SIGXFSZ, SIG_IGN);
        setrlimit(RLIMIT_FSIZE, &limit) == 0
    });
}

/// A pipe of one page, the end that is read and the end that is written; a write that does not fit does not wait.
pub fn small_pipe() -> io::Result<(File, OwnedFd)> {
    let mut ends = [0; 2];
    let made = unsafe {
        pipe2(&mut ends, O_CLOEXEC) == 0
            && fcntl(ends[1], F_SETPIPE_SZ, 4096) >= 0
            && fcntl(ends[1], F_SETFL, O_NONBLOCK) == 0
    };
    if !made {
        return Err(io::Error::last_os_error());
    }
    unsafe { Ok((File::from_raw_fd(ends[0]), OwnedFd::from_raw_fd(ends[1]))) }
}

/// A pipe, the end that is read and the end that is written; a read where there is nothing does not wait.
pub fn no_wait_pipe() -> io::Result<(OwnedFd, File)> {
    let mut ends = [0; 2];
    let made =
        unsafe { pipe2(&mut ends, O_CLOEXEC) == 0 && fcntl(ends[0], F_SETFL, O_NONBLOCK) == 0 };
    if !made {
        return Err(io::Error::last_os_error());
    }
    unsafe { Ok((OwnedFd::from_raw_fd(ends[0]), File::from_raw_fd(ends[1]))) }
}

/// What the program said on standard error until it ended by itself. It is read meanwhile, since a pipe that is full would stop it.
pub fn said(mut child: Child) -> Result<String, String> {
    let mut from = child.stderr.take().ok_or("standard error is not read")?;
    let reader = spawn(move || {
        let mut text = String::new();
        from.read_to_string(&mut text).map(|_| text)
    });
    let start = Instant::now();
    let status = loop {
        if let Some(status) = child.try_wait().map_err(|error| error.to_string())? {
            break status;
        }
        if start.elapsed() > PATIENCE {
            let _ = child.kill();
            let _ = child.wait();
            return Err("does not end".into());
        }
        sleep(Duration::from_millis(1));
    };
    if let Some(signal) = status.signal() {
        return Err(format!("ended by signal {signal}"));
    }
    reader.join().map_err(|_| "the reader failed")?.map_err(|error| error.to_string())
}

/// What it said of a write that failed, if one did.
pub fn failure(told: &str) -> String {
    told.split_inclusive('\n').filter(|line| line.starts_with("shots: writing failed")).collect()
}

pub fn start(command: &mut Command) -> Result<Child, String> {
    command.stderr(Stdio::piped()).spawn().map_err(|error| error.to_string())
}
