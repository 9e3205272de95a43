//! Crash runs: sequences of puts and deletes, the cuts of each by its groups of stores, and every cut of the openings behind it.

use wort_host::crash::Crash;
use wort_host::Library;

fn run(n: usize, sequences: u64, operations: u64) {
    for seed in 0..sequences {
        let mut crash = Crash::new(&Library, seed, n);
        // Half of the sequences begin with a full pool: the other half seldom get there.
        if seed % 2 == 1 {
            crash.fill();
        }
        for i in 0..operations {
            if let Err(what) = crash.operation() {
                panic!("N = {n}, seed {seed}, operation {i}: {what}");
            }
        }
        assert!(crash.pools > operations, "cuts were read");
    }
}

#[test]
fn small_pools() {
    for n in 1..=5 {
        run(n, 140, 150);
    }
}

#[test]
fn less_small_pools() {
    for n in 6..=8 {
        run(n, 140, 150);
    }
}

#[test]
fn middling_pools() {
    run(17, 24, 200);
    run(64, 6, 200);
}

#[test]
fn the_largest_pool() {
    run(1024, 6, 6);
}
