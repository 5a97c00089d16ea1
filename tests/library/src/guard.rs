//! Memory between pages that must not be touched.

use std::ffi::{c_int, c_void};
use std::mem::{align_of, size_of};
use std::ops::Range;
use std::ptr::null_mut;
use std::slice::{from_raw_parts, from_raw_parts_mut};

const PAGE: usize = 4096;
const CANARY: u8 = 0xc7;

const NONE: c_int = 0;
const READ: c_int = 1;
const WRITE: c_int = 2;
const PRIVATE_ANONYMOUS: c_int = 0x22;

extern "C" {
    fn mmap(
        at: *mut c_void,
        bytes: usize,
        may: c_int,
        how: c_int,
        file: c_int,
        from: i64,
    ) -> *mut c_void;
    fn mprotect(at: *mut c_void, bytes: usize, may: c_int) -> c_int;
    fn munmap(at: *mut c_void, bytes: usize) -> c_int;
}

/// An element of a list: any bytes are one.
pub trait Number {}

impl Number for u8 {}
impl Number for u16 {}
impl Number for u64 {}

/// Which end of its region a list touches.
#[derive(Clone, Copy)]
pub enum Side {
    Start,
    End,
}

/// Pages between two others that must not be touched: a list at one end, canaries in the rest.
pub struct Region {
    mapped: *mut u8,
    room: usize,
    list: Range<usize>,
}

impl Region {
    pub fn new(bytes: usize) -> Region {
        let room = bytes.next_multiple_of(PAGE);
        let whole = room + 2 * PAGE;
        // New memory of our own.
        let mapped = unsafe { mmap(null_mut(), whole, NONE, PRIVATE_ANONYMOUS, -1, 0) };
        assert!(mapped as isize != -1, "no memory");
        let region = Region { mapped: mapped.cast(), room, list: 0..0 };
        region.allow(READ | WRITE);
        region
    }

    /// Where the list and the canaries begin.
    fn start(&self) -> *mut u8 {
        // Inside the mapped memory.
        unsafe { self.mapped.add(PAGE) }
    }

    fn allow(&self, may: c_int) {
        // The pages are this region's.
        let done = unsafe { mprotect(self.start().cast(), self.room, may) };
        assert!(done == 0, "protection refused");
    }

    /// Puts a list's bytes to one end, canaries to the rest.
    pub fn place(&mut self, bytes: &[u8], side: Side) {
        let rest = self.room.checked_sub(bytes.len()).expect("room for the list");
        // The region's bytes are mapped, and nothing else refers to them while it is borrowed.
        let all = unsafe { from_raw_parts_mut(self.start(), self.room) };
        let (from, canaries) = match side {
            Side::Start => (0, bytes.len()..self.room),
            Side::End => (rest, 0..rest),
        };
        self.list = from..from + bytes.len();
        all[self.list.clone()].copy_from_slice(bytes);
        all[canaries].fill(CANARY);
    }

    /// Runs with the region read-only.
    pub fn locked<N: Number, T>(&self, run: impl FnOnce(&[N]) -> T) -> T {
        let (first, length) = self.first();
        self.allow(READ);
        // As in `place`, and aligned.
        let done = run(unsafe { from_raw_parts(first, length) });
        self.allow(READ | WRITE);
        done
    }

    fn all(&self) -> &[u8] {
        // As in `place`.
        unsafe { from_raw_parts(self.start(), self.room) }
    }

    pub fn list(&self) -> &[u8] {
        &self.all()[self.list.clone()]
    }

    /// Where the list's elements begin, aligned, and how many they are.
    fn first<N: Number>(&self) -> (*mut N, usize) {
        // Inside the region, or at its end if the list is empty.
        let first = unsafe { self.start().add(self.list.start) };
        assert!(first.addr().is_multiple_of(align_of::<N>()), "elements are aligned");
        (first.cast(), self.list.len() / size_of::<N>())
    }

    pub fn elements<N: Number>(&mut self) -> &mut [N] {
        let (first, length) = self.first();
        // As in `place`, and aligned.
        unsafe { from_raw_parts_mut(first, length) }
    }

    pub fn intact(&self) -> bool {
        let all = self.all();
        let canaries = all[..self.list.start].iter().chain(&all[self.list.end..]);
        canaries.fold(true, |intact, &byte| intact & (byte == CANARY))
    }
}

impl Drop for Region {
    fn drop(&mut self) {
        // Mapped by `new`, and not used any more.
        unsafe { munmap(self.mapped.cast(), self.room + 2 * PAGE) };
    }
}
