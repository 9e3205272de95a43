//! Stores at the machine: whole calls of each kind and case under single steps of the processor. Every store to a pool is one
//! 8-byte move, of the words and values that the plan lists, in its order. Where there are no single steps it ends with 3.

use std::collections::BTreeMap;
use std::env;
use std::ffi::c_int;
use std::process::{self, ExitCode};
use wort_host::chance::Chance;
use wort_host::stepped::{follow, Failure};
use wort_host::whole::{whole, Whole, CASES};
use wort_host::{Library, Model};

/// Many times the tries that chance takes to give each case a hundred times.
const MOST_TRIES: usize = 1_000_000;

fn main() -> ExitCode {
    let Some(each) = env::args().nth(1).and_then(|word| word.parse().ok()) else {
        eprintln!("usage: stores EACH (how many calls of each case)");
        return ExitCode::from(2);
    };
    let (line, status) = match every_case(each) {
        Ok((calls, stores)) => {
            (format!("{calls} calls, {stores} stores, each an aligned 8-byte store in the plan's order"), 0)
        }
        Err(Failure::Wrong(what)) => (what, 1),
        Err(Failure::NoSteps) => ("There are no single steps here: ptrace is refused.".into(), 3),
    };
    println!("{line}");
    if process::id() == 1 {
        power_off();
    }
    ExitCode::from(status)
}

/// How many calls were followed, and how many stores they made.
fn every_case(each: usize) -> Result<(usize, usize), Failure> {
    let mut chance = Chance::new(1);
    let mut tried: BTreeMap<&str, usize> = CASES.iter().map(|case| (*case, 0)).collect();
    let (mut calls, mut stores) = (0, 0);
    for _ in 0..MOST_TRIES {
        if calls == each * CASES.len() {
            return Ok((calls, stores));
        }
        let Some(whole) = whole(&mut chance) else {
            continue;
        };
        let times = tried.get_mut(whole.case).expect("a case of the list");
        if *times < each {
            stores += in_order(&whole)?;
            *times += 1;
            calls += 1;
        }
    }
    Err(Failure::Wrong(format!("chance does not give every case: {tried:?}")))
}

/// How many stores one call makes, each as the library's plan and the model's say.
fn in_order(whole: &Whole) -> Result<usize, Failure> {
    let Whole { made, call, case, stores } = whole;
    let wrong = |what| Failure::Wrong(format!("{case}, N = {}, {call:x?}: {what}", made.n));
    let planned = call.stores(&Library, &made.pool, &made.map);
    if planned != *stores {
        return Err(wrong(format!("the library plans {planned:x?}, the model {stores:x?}")));
    }
    let stores = stores.as_deref().unwrap_or(&[]);
    let (mut pool, mut map) = (made.pool.clone(), made.map.clone());
    let answer = follow(*call, &mut pool, &mut map, stores).map_err(|failure| match failure {
        Failure::Wrong(what) => wrong(what),
        Failure::NoSteps => Failure::NoSteps,
    })?;
    let (mut its_pool, mut its_map) = (made.pool.clone(), made.map.clone());
    let its_answer = call.make(&Model, &mut its_pool, &mut its_map);
    match (answer, pool, map) == (its_answer, its_pool, its_map) {
        true => Ok(stores.len()),
        false => Err(wrong("the call ends otherwise than the model's".into())),
    }
}

extern "C" {
    fn tcdrain(file: c_int) -> c_int;
    fn reboot(how: c_int) -> c_int;
}

// Linux's numbers.
const STDOUT: c_int = 1;
const POWER_OFF: c_int = 0x4321_fedc;

/// As the first process of a machine that runs nothing else, it ends the machine.
fn power_off() {
    // SAFETY: all is said; no process is left but this one.
    unsafe {
        tcdrain(STDOUT);
        reboot(POWER_OFF);
    }
}
