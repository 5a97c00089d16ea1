//! Loaded before the C library: a `read` and a `write` that are interrupted, wait, move little at a time, or fail once.
//!
//! What they do stands in the variable SHIM. `little`: of every three calls on standard input one is interrupted (EINTR) and
//! the others read up to 7 bytes; of every four on standard output one is interrupted, one can't take more for now (EAGAIN)
//! and two take up to 11 bytes. `BYTES ERROR`: when so many bytes are taken, one write to standard output takes none; the
//! error is its errno, and 0 stands for a write that answers 0. Later writes take all again.

use std::sync::atomic::{AtomicU64, AtomicUsize, Ordering::Relaxed};
use std::sync::OnceLock;

const EINTR: i32 = 4;
const EAGAIN: i32 = 11;
const READ: i64 = 0;
const WRITE: i64 = 1;

extern "C" {
    fn syscall(number: i64, ...) -> isize;
    fn __errno_location() -> *mut i32;
}

enum Plan {
    Little,
    Once { bytes: usize, error: i32 },
}

static READS: AtomicU64 = AtomicU64::new(0);
static WRITES: AtomicU64 = AtomicU64::new(0);
static TAKEN: AtomicUsize = AtomicUsize::new(0);

fn plan() -> &'static Plan {
    static PLAN: OnceLock<Plan> = OnceLock::new();
    PLAN.get_or_init(|| {
        let said = std::env::var("SHIM").unwrap_or_default();
        match said.split_once(' ') {
            None => Plan::Little,
            Some((bytes, error)) => Plan::Once {
                bytes: bytes.parse().expect("a number of bytes"),
                error: error.parse().expect("an error's number"),
            },
        }
    })
}

fn fails(error: i32) -> isize {
    unsafe { *__errno_location() = error };
    -1
}

/// # Safety
/// As C's `read`.
#[no_mangle]
pub unsafe extern "C" fn read(fd: i32, buf: *mut u8, count: usize) -> isize {
    let Plan::Little = plan() else {
        return syscall(READ, fd as i64, buf, count);
    };
    match READS.fetch_add(1, Relaxed) % 3 {
        0 => fails(EINTR),
        _ => syscall(READ, fd as i64, buf, count.min(7)),
    }
}

/// # Safety
/// As C's `write`.
#[no_mangle]
pub unsafe extern "C" fn write(fd: i32, buf: *const u8, count: usize) -> isize {
    if fd != 1 {
        return syscall(WRITE, fd as i64, buf, count);
    }
    match plan() {
        Plan::Little => match WRITES.fetch_add(1, Relaxed) % 4 {
            0 => fails(EINTR),
            1 => fails(EAGAIN),
            _ => syscall(WRITE, fd as i64, buf, count.min(11)),
        },
        Plan::Once { bytes, error } => once(*bytes, *error, buf, count),
    }
}

unsafe fn once(bytes: usize, error: i32, buf: *const u8, count: usize) -> isize {
    let taken = TAKEN.load(Relaxed);
    if taken == bytes {
        TAKEN.store(bytes + 1, Relaxed);
        return if error == 0 { 0 } else { fails(error) };
    }
    let most = if taken < bytes { count.min(bytes - taken) } else { count };
    let took = syscall(WRITE, 1i64, buf, most);
    if taken < bytes {
        TAKEN.store(taken + took as usize, Relaxed);
    }
    took
}
