//! What is under way: a trace of the calls, and a watchdog for a call that doesn't end.

use judge::stream::Record;
use std::sync::atomic::{AtomicBool, AtomicU64, Ordering::Relaxed};
use std::thread;
use std::time::Duration;

/// Before the first line of a case in a trace.
pub const CASE: &str = "case";

const PATIENCE: u64 = 20;

static TRACING: AtomicBool = AtomicBool::new(false);

/// Odd while a call is under way.
static CALLS: AtomicU64 = AtomicU64::new(0);

/// Traces to standard error from now on.
pub fn trace() {
    TRACING.store(true, Relaxed);
}

/// A line of the trace.
pub fn tell(line: impl FnOnce() -> String) {
    if TRACING.load(Relaxed) {
        eprintln!("{}", line());
    }
}

pub fn case() {
    tell(|| CASE.into());
}

/// A record in hexadecimal and a remark.
pub fn record(record: &[u8], remark: impl FnOnce() -> String) {
    tell(|| {
        let bytes = judge::shots::hexadecimal(&[Record::from(record)]);
        format!("{}{}", bytes.trim_end(), remark())
    });
}

/// Runs a call, with the watchdog on it.
pub fn call<T>(run: impl FnOnce() -> T) -> T {
    CALLS.fetch_add(1, Relaxed);
    let done = run();
    CALLS.fetch_add(1, Relaxed);
    done
}

/// Ends the process if a call doesn't end.
pub fn start() {
    thread::spawn(|| {
        let mut seen = (0, 0);
        loop {
            thread::sleep(Duration::from_secs(1));
            let calls = CALLS.load(Relaxed);
            seen = if calls % 2 == 1 && calls == seen.0 { (calls, seen.1 + 1) } else { (calls, 0) };
            if seen.1 == PATIENCE {
                println!("a call took more than {PATIENCE} seconds");
                std::process::abort();
            }
        }
    });
}
