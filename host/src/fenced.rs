//! Memory lent between guard pages: a read or write one place outside ends the run by a fault.
//!
//! A run stands flush against the page before it or the page behind it. On its open side stand canaries.

use std::ffi::{c_int, c_void};
use std::marker::PhantomData;
use std::{mem, ptr, slice};

extern "C" {
    fn mmap(at: *mut c_void, length: usize, protection: c_int, flags: c_int, file: c_int, offset: i64) -> *mut c_void;
    fn mprotect(at: *mut c_void, length: usize, protection: c_int) -> c_int;
    fn munmap(at: *mut c_void, length: usize) -> c_int;
}

// Linux's numbers.
const PROT_NONE: c_int = 0;
const PROT_READ: c_int = 1;
const PROT_WRITE: c_int = 2;
const MAP_PRIVATE: c_int = 2;
const MAP_ANONYMOUS: c_int = 0x20;

/// A multiple of every page size in use, so that the fences are whole pages.
const PAGE: usize = 65536;
const CANARY: u8 = 0xc7;
const CANARIES: usize = 128;

/// Which fence a lent run stands against.
#[derive(Clone, Copy, Debug, PartialEq, Eq)]
pub enum Side {
    Front,
    Back,
}

/// What may stand between the fences: plain numbers, for which every byte pattern is a value.
pub trait Number: Copy {}
impl Number for u8 {}
impl Number for u64 {}

/// Room for runs of numbers, between two fences.
pub struct Fenced<T: Number> {
    mapped: *mut u8,
    /// Bytes between the fences, and the part of them that is lent.
    inner: usize,
    from: usize,
    lent: usize,
    kind: PhantomData<T>,
}

impl<T: Number> Fenced<T> {
    /// Room for `most` numbers; none is lent yet.
    pub fn new(most: usize) -> Self {
        let inner = (most * mem::size_of::<T>() + CANARIES).next_multiple_of(PAGE);
        let length = inner + 2 * PAGE;
        // SAFETY: a fresh private mapping; the middle of it is then opened.
        let mapped = unsafe { mmap(ptr::null_mut(), length, PROT_NONE, MAP_PRIVATE | MAP_ANONYMOUS, -1, 0) };
        assert_ne!(mapped as isize, -1, "no memory for a fenced run");
        let fenced = Fenced { mapped: mapped.cast(), inner, from: 0, lent: 0, kind: PhantomData };
        fenced.protect(PROT_READ | PROT_WRITE);
        fenced
    }

    /// The first byte between the fences.
    fn start(&self) -> *mut u8 {
        // SAFETY: the front fence is one page of the mapping.
        unsafe { self.mapped.add(PAGE) }
    }

    fn protect(&self, protection: c_int) {
        // SAFETY: the bytes between the fences belong to this mapping.
        let number = unsafe { mprotect(self.start().cast(), self.inner, protection) };
        assert_eq!(number, 0, "the memory's protection does not change");
    }

    /// Sets the lent run to `length` numbers against one fence, with canaries on its open side.
    pub fn lend(&mut self, length: usize, side: Side) {
        self.lent = length * mem::size_of::<T>();
        assert!(self.lent + CANARIES <= self.inner);
        self.from = match side {
            Side::Front => 0,
            Side::Back => self.inner - self.lent,
        };
        self.canaries().fill(CANARY);
    }

    fn canaries(&mut self) -> &mut [u8] {
        let from = if self.from == 0 { self.lent } else { self.from - CANARIES };
        // SAFETY: lend keeps room for the canaries between the fences, beside the run.
        unsafe { slice::from_raw_parts_mut(self.start().add(from), CANARIES) }
    }

    /// Fails if a byte beside the run was written.
    pub fn check(&mut self) {
        let unharmed = self.canaries().iter().all(|byte| *byte == CANARY);
        assert!(unharmed, "a write outside a lent run");
    }

    pub fn run(&self) -> &[T] {
        // SAFETY: the run lies between the fences, is aligned, and every pattern is a value of T.
        unsafe { slice::from_raw_parts(self.start().add(self.from).cast(), self.length()) }
    }

    pub fn run_mut(&mut self) -> &mut [T] {
        // SAFETY: as for run, and it is borrowed alone.
        unsafe { slice::from_raw_parts_mut(self.start().add(self.from).cast(), self.length()) }
    }

    fn length(&self) -> usize {
        self.lent / mem::size_of::<T>()
    }

    /// Hands the run to a call that may only read it: a store faults, even one that changes nothing.
    pub fn read_only<A>(&self, call: impl FnOnce(&[T]) -> A) -> A {
        self.protect(PROT_READ);
        let answer = call(self.run());
        self.protect(PROT_READ | PROT_WRITE);
        answer
    }
}

impl<T: Number> Drop for Fenced<T> {
    fn drop(&mut self) {
        // SAFETY: the whole mapping, made in new, and borrowed by no one any more.
        unsafe { munmap(self.mapped.cast(), self.inner + 2 * PAGE) };
    }
}
