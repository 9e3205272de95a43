//! A whole call in a child under single steps of the processor (ptrace). The child is a second process in this one's memory:
//! after every instruction its parent compares the pool, and so sees each store as it is made. For x86-64 alone.

use crate::answers::Store;
use crate::whole::{Answer, Call};
use crate::Library;
use std::ffi::{c_int, c_long, c_uint, c_void};
use std::ptr;

extern "C" {
    fn clone(
        run: extern "C" fn(*mut c_void) -> c_int,
        stack: *mut c_void,
        flags: c_int,
        told: *mut c_void,
        ...
    ) -> c_int;
    fn getpid() -> c_int;
    fn kill(process: c_int, signal: c_int) -> c_int;
    fn waitpid(process: c_int, status: *mut c_int, options: c_int) -> c_int;
    fn ptrace(request: c_uint, ...) -> c_long;
}

// Linux's numbers, for x86-64.
const CLONE_VM: c_int = 0x100;
const PTRACE_TRACEME: c_uint = 0;
const PTRACE_PEEKUSER: c_uint = 3;
const PTRACE_SINGLESTEP: c_uint = 9;
/// The place of the register rip in what PTRACE_PEEKUSER reads.
const RIP: c_long = 16 * 8;
const NONE: c_long = 0;
const SIGTRAP: c_int = 5;
const SIGKILL: c_int = 9;
const SIGCHLD: c_int = 17;
const SIGSTOP: c_int = 19;

/// The child's stack, in 16 bytes each: much more than any call takes.
const STACK: usize = 1 << 14;
/// Many times the instructions of any call on a small pool.
const MOST_STEPS: u64 = 10_000_000;

/// Why a call was not followed to its end.
#[derive(Debug)]
pub enum Failure {
    /// There are no single steps to be had here.
    NoSteps,
    Wrong(String),
}

fn wrong(what: String) -> Failure {
    Failure::Wrong(what)
}

/// What the child is told, and its answer.
struct Told {
    call: Call,
    pool: *mut [u64],
    map: *mut [u8],
    answer: Answer,
}

/// Makes a call. Its stores to the pool must be these, in this order, each by one 8-byte move.
pub fn follow(call: Call, pool: &mut [u64], map: &mut [u8], stores: &[Store]) -> Result<Answer, Failure> {
    let mut told = Told { call, pool, map, answer: [u64::MAX; 3] };
    let mut stack = vec![0u128; STACK];
    let (top, words) = (stack.as_mut_ptr_range().end, &raw mut told);
    // SAFETY: the stack and what the child is told outlive it, and it runs only while this process waits.
    let process = unsafe { clone(make, top.cast(), CLONE_VM | SIGCHLD, words.cast()) };
    let mut child = Child { process, ended: process < 0 };
    if child.ended || child.stop() != Some(SIGSTOP) {
        return Err(Failure::NoSteps);
    }
    watch(&mut child, told.pool, stores)?;
    Ok(told.answer)
}

/// The child: it lets itself be stepped, stops, makes the call and stops again.
extern "C" fn make(told: *mut c_void) -> c_int {
    // SAFETY: the parent lends all that it tells, and waits.
    unsafe {
        let told = &mut *told.cast::<Told>();
        if ptrace(PTRACE_TRACEME, NONE, NONE, NONE) != 0 {
            return 1;
        }
        kill(getpid(), SIGSTOP);
        told.answer = told.call.make(&Library, &mut *told.pool, &mut *told.map);
        kill(getpid(), SIGSTOP)
    }
}

/// Steps to the end of the call. An instruction changes no word of the pool, or one, and that as the plan says.
fn watch(child: &mut Child, pool: *const [u64], stores: &[Store]) -> Result<(), Failure> {
    // SAFETY: the pool is lent to `follow`, and the child stands still whenever it is read.
    let now = || unsafe { &*pool };
    let mut known = now().to_vec();
    let mut made = 0;
    for _ in 0..MOST_STEPS {
        let instruction = child.next_instruction();
        let stopped = child.step()?;
        if known != now() {
            see_store(&mut known, now(), stores.get(made), instruction)
                .map_err(|what| wrong(format!("store {} of {}: {what}", made + 1, stores.len())))?;
            made += 1;
        }
        match stopped {
            Some(SIGTRAP) => {}
            Some(SIGSTOP) if made == stores.len() => return Ok(()),
            Some(SIGSTOP) => return Err(wrong(format!("the call ends after {made} stores of {}", stores.len()))),
            signal => return Err(wrong(format!("the call is ended by a signal: {signal:?}"))),
        }
    }
    Err(wrong("the call does not end".into()))
}

/// One instruction changed the pool: one word of it, as the plan's next store says, by a move of eight bytes.
fn see_store(known: &mut [u64], pool: &[u64], planned: Option<&Store>, at: *const [u8; 2]) -> Result<(), String> {
    let changed: Vec<usize> = (0..pool.len()).filter(|place| known[*place] != pool[*place]).collect();
    let [place] = changed[..] else {
        return Err(format!("one instruction changes {} words, {changed:?}", changed.len()));
    };
    known[place] = pool[place];
    if planned != Some(&(place, pool[place])) {
        let planned = planned.map_or("nothing more".into(), |(place, value)| format!("word {place} take {value:x}"));
        return Err(format!("word {place} takes {:x}, where the plan has {planned}", pool[place]));
    }
    // SAFETY: the child has just made the instruction that stands there, and this memory is its memory.
    match unsafe { at.read() } {
        // The move of a 64-bit register or of a constant: it stores eight bytes at once. Others may not, though it looks so
        // under single steps: a repeated instruction stops after each word of its run, and without steps stores many at once.
        [0x48..=0x4f, 0x89 | 0xc7] => Ok(()),
        other => Err(format!("word {place} is not stored by an 8-byte move, but by an instruction {other:02x?}")),
    }
}

/// A child that is stepped. It does not outlive its call.
struct Child {
    process: c_int,
    ended: bool,
}

impl Child {
    /// Waits until the child stops, and says by which signal; nothing if it has ended.
    fn stop(&mut self) -> Option<c_int> {
        let mut status = 0;
        // SAFETY: the status is lent for the call.
        let process = unsafe { waitpid(self.process, &mut status, 0) };
        self.ended = process != self.process || status & 0xff != 0x7f;
        (!self.ended).then_some(status >> 8)
    }

    /// One instruction of the child.
    fn step(&mut self) -> Result<Option<c_int>, Failure> {
        // SAFETY: the child's memory is changed as its call says, and no borrow of it is alive.
        match unsafe { ptrace(PTRACE_SINGLESTEP, c_long::from(self.process), NONE, NONE) } {
            0 => Ok(self.stop()),
            _ => Err(Failure::NoSteps),
        }
    }

    /// Where the instruction stands that the next step makes.
    fn next_instruction(&self) -> *const [u8; 2] {
        // SAFETY: this touches no memory of this process.
        let at = unsafe { ptrace(PTRACE_PEEKUSER, c_long::from(self.process), RIP, NONE) };
        at as usize as *const [u8; 2]
    }
}

impl Drop for Child {
    fn drop(&mut self) {
        if !self.ended {
            // SAFETY: this ends a child of this process that has not ended yet.
            unsafe {
                kill(self.process, SIGKILL);
                waitpid(self.process, ptr::null_mut(), 0);
            }
        }
    }
}
