//! A bounded run of the library against the model. All memory is lent between guard pages.

use wort_host::answers::{map_bytes, pool_words, ABSENT, DONE, SIZE};
use wort_host::differ::{times, Differ, BESIDE, COUNTS, MISSED, NO_GENERATION, NUMBERS, OUTRANKED};

const CALLS: u64 = 2_000_000;

#[test]
fn the_library_is_the_model() {
    let mut differ = Differ::new(1);
    while differ.calls < CALLS {
        if let Err(difference) = differ.case() {
            panic!("{difference}");
        }
    }
    for (call, numbers) in NUMBERS {
        for number in numbers {
            let met = times(&differ.tally, call, *number);
            assert!(met > 0, "{call} never gave {number}: the run is too narrow");
        }
    }
    for (call, counts) in COUNTS {
        for count in counts {
            let met = differ.tally.contains_key(&(call, DONE, *count));
            assert!(met, "{call} never counted {count}: the run is too narrow");
        }
    }
    for plain in MISSED {
        let met = differ.tally.contains_key(&(BESIDE, ABSENT, plain));
        assert!(met, "no quick miss where lookup gives {plain}: the run is too narrow");
    }
    for number in OUTRANKED {
        let met = differ.tally.contains_key(&(NO_GENERATION, SIZE, number));
        assert!(met, "no wrong generation where ADR gives {number}: the run is too narrow");
    }
}

/// Every length of pool and map up to a few too many, on both sides of the right ones.
#[test]
fn all_lengths() {
    let mut differ = Differ::new(2);
    for n in 1..=4 {
        for words in 0..=pool_words(n) + 3 {
            for bytes in [0, map_bytes(n) - 1, map_bytes(n), map_bytes(n) + 1] {
                if let Err(difference) = differ.lengths(n, words, bytes) {
                    panic!("{words} words, {bytes} bytes: {difference}");
                }
            }
        }
    }
}
