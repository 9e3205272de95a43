//! Demand 3 on small pools, every state: all puts and deletes, their cuts by groups of stores, all openings and their cuts.

use wort_host::exhaust::{search, Bounds, Seen, KEY_SETS};
use wort_host::Library;

/// Every state within the bounds is tried.
fn whole(bounds: Bounds) {
    let seen = some(bounds);
    assert!(seen.complete, "{bounds:x?}: {seen:?}");
}

/// One header at most is stale at any moment.
fn some(bounds: Bounds) -> Seen {
    let seen = search(&Library, &bounds).unwrap_or_else(|what| panic!("{bounds:x?}: {what}"));
    assert!(seen.headers <= 1, "{bounds:x?}: {seen:?}");
    assert!(seen.states > bounds.keys.len(), "{bounds:x?}: {seen:?}");
    seen
}

/// The free slots hold what the operations left there. Two of the key sets are tried with fewer keys or values: the rest of them makes
/// as many states as all others together.
#[test]
fn one_and_two_places_with_all_that_was_left() {
    for (i, (_, keys)) in KEY_SETS.into_iter().enumerate() {
        for n in 1..=2 {
            if i != 3 {
                whole(Bounds { n, keys, values: &[1], free: None, most: usize::MAX });
            }
            if i != 2 {
                whole(Bounds { n, keys: &keys[..3], values: &[1, 2], free: None, most: usize::MAX });
            }
        }
    }
}

/// Three keys, of which no node is ever stale. Where one is there are millions of states, of which the program `exhaust` tries more.
#[test]
fn three_places_with_all_that_was_left() {
    for (_, keys) in [KEY_SETS[0], KEY_SETS[3]] {
        whole(Bounds { n: 3, keys: &keys[..3], values: &[1], free: None, most: usize::MAX });
    }
    let (_, keys) = KEY_SETS[1];
    let seen = some(Bounds { n: 3, keys: &keys[..3], values: &[1], free: None, most: 40_000 });
    assert_eq!((seen.complete, seen.headers), (false, 1), "{seen:?}");
}

/// Every word of the free slots is one of these.
fn up_to_three_places(free: [u64; 2]) {
    for (_, keys) in KEY_SETS {
        for n in 1..=3 {
            for word in free {
                whole(Bounds { n, keys, values: &[1, 2], free: Some(word), most: usize::MAX });
            }
        }
    }
}

#[test]
fn up_to_three_places_with_references_in_the_free_ones() {
    up_to_three_places([1, 1025]);
}

#[test]
fn up_to_three_places_with_no_references_in_the_free_ones() {
    up_to_three_places([0, u64::MAX]);
}

/// Room for every key: trees of three nodes.
#[test]
fn four_places_with_nothing_in_the_free_ones() {
    for (_, keys) in KEY_SETS {
        whole(Bounds { n: 4, keys, values: &[1], free: Some(0), most: usize::MAX });
    }
}
