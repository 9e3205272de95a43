//! The two platform generations: a caller by plans, with a cache in front of its pool. With the fences that an ADR plan asks for, and with
//! none on eADR, nothing is lost at any cut. With a fence left out a name is listed that cannot be opened.

use wort_host::answers::{ADR, EADR};
use wort_host::caller::{Caller, Fences, ALL_FENCES};
use wort_host::Library;

/// Many times the sequences that any of these takes.
const MOST_SEQUENCES: u64 = 1000;

fn nothing_is_lost(generation: u64, n: usize, sequences: u64, operations: u64) {
    let (mut cuts, mut headers) = (0, 0);
    for seed in 0..sequences {
        let mut caller = Caller::new(&Library, generation, ALL_FENCES, seed, n);
        for _ in 0..operations {
            caller.operation();
        }
        let faults = &caller.faults;
        assert!(faults.unopenable.is_none() && faults.wrong.is_none(), "N = {n}, seed {seed}: {faults:?}");
        assert!(caller.memories > operations, "memories were read");
        cuts += caller.cuts;
        headers += caller.headers;
    }
    assert!(cuts > 0 && (n < 3 || headers > 0), "N = {n}: {cuts} cuts, {headers} headers rewritten");
}

#[test]
fn with_its_fences_adr_loses_nothing() {
    for n in 1..=6 {
        nothing_is_lost(ADR, n, 30, 100);
    }
    nothing_is_lost(ADR, 17, 6, 150);
}

#[test]
fn without_a_fence_eadr_loses_nothing() {
    for n in 1..=6 {
        nothing_is_lost(EADR, n, 60, 150);
    }
    nothing_is_lost(EADR, 17, 12, 200);
}

/// A name that is listed and cannot be opened, in a memory that a cut leaves.
fn is_found(fences: Fences) {
    let found = (0..MOST_SEQUENCES).find_map(|seed| {
        let mut caller = Caller::new(&Library, ADR, fences, seed, 4);
        (0..100).for_each(|_| caller.operation());
        caller.faults.unopenable.map(|what| (seed, what))
    });
    let (seed, what) = found.unwrap_or_else(|| panic!("{fences:?}: no name that is listed and cannot be opened"));
    println!("{fences:?}, sequence {seed}: {what}");
}

#[test]
fn a_fence_left_out_between_the_groups_is_found() {
    is_found(Fences { between: false, behind: true });
}

#[test]
fn a_fence_left_out_behind_the_last_group_is_found() {
    is_found(Fences { between: true, behind: false });
}

#[test]
fn fences_left_out_both_are_found() {
    is_found(Fences { between: false, behind: false });
}
