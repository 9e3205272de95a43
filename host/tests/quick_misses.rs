//! The quick lookup's own rules, on pools that show one each: on the library and on the model.

use wort_host::answers::*;
use wort_host::model::{child_place, header, header_place};
use wort_host::{Library, Model};

const KEY: u64 = 0x1234_5678_9abc_def0;
/// Twelve digits of `KEY` and two that follow: the root branches at digit 13, a node below it at digit 15.
const DEEP: [u64; 3] = [0x1234_5678_9abc_d0f0, 0x1234_5678_9abc_d0f1, 0x1234_5678_9abc_d1f0];

/// A pool of four places that holds keys, each with the value 1.
fn holding(keys: &[u64]) -> Vec<u64> {
    let (mut pool, mut map) = (vec![0; pool_words(4)], vec![0; map_bytes(4)]);
    assert_eq!(Model.format(&mut pool, &mut map, 4), DONE);
    for key in keys {
        assert_eq!(Model.put(&mut pool, &mut map, *key, 1).number, DONE);
    }
    pool
}

/// The node that the root refers to, which a pool of such keys has.
fn root_header(pool: &mut [u64]) -> &mut u64 {
    let node = (pool[1] - 1025) as usize;
    &mut pool[header_place(4, node)]
}

/// What the quick lookup answers, number and nodes, and what the plain one does.
fn gives(pool: &[u64], key: u64, quick: (u64, u64), plain: (u64, u64)) {
    for found in [Model.lookup_quick(pool, key), Library.lookup_quick(pool, key)] {
        assert_eq!((found.number, found.nodes), quick, "{key:016x}");
        assert_eq!(found.value, u64::from(found.number == DONE), "{key:016x}");
    }
    for found in [Model.lookup(pool, key), Library.lookup(pool, key)] {
        assert_eq!((found.number, found.nodes), plain, "{key:016x}");
    }
}

#[test]
fn a_miss_at_the_first_node() {
    let pool = holding(&DEEP);
    gives(&pool, DEEP[0], (DONE, 2), (DONE, 2));
    gives(&pool, 0x0234_5678_9abc_d0f0, (ABSENT, 1), (ABSENT, 2));
    gives(&pool, 0x1234_5678_9ab0_d0f0, (ABSENT, 1), (ABSENT, 2));
}

#[test]
fn the_thirteenth_digit_is_not_compared() {
    let pool = holding(&DEEP);
    gives(&pool, 0x1234_5678_9abc_70f0, (ABSENT, 2), (ABSENT, 2));
}

/// A stale root, its depth 4: it keeps the digits 4 to 12, and the digits 0 to 3 are compared nowhere.
#[test]
fn the_gap_of_a_stale_node_is_not_compared() {
    let mut pool = holding(&DEEP);
    *root_header(&mut pool) = header(4, 13, DEEP[0]);
    assert_eq!(Model.plan_open(&pool, EADR).plan[PLAN_COUNT], 1);
    gives(&pool, DEEP[0], (DONE, 2), (DONE, 2));
    gives(&pool, 0x0000_5678_9abc_d0f0, (ABSENT, 2), (ABSENT, 2));
    gives(&pool, 0x1234_0678_9abc_d0f0, (ABSENT, 1), (ABSENT, 2));
}

/// Not of a sound pool: digits stand in places that are not in use.
#[test]
fn unused_places_are_not_compared() {
    let mut pool = holding(&[0, u64::MAX]);
    *root_header(&mut pool) = 0x0000_ffff_ffff_ffff;
    gives(&pool, 0, (DONE, 1), (DONE, 1));
    let mut pool = holding(&[0x5500, 0x5501]);
    *root_header(&mut pool) = 0x0d02_55ff_ffff_ffff;
    gives(&pool, 0x5500, (ABSENT, 1), (DONE, 1));
    *root_header(&mut pool) = 0x0d02_50ff_ffff_ffff;
    gives(&pool, 0x5500, (DONE, 1), (DONE, 1));
}

/// The quick lookup follows its own walk: it misses what the plain one finds, and it does not come to damage below.
#[test]
fn wrong_stored_digits() {
    let mut pool = holding(&DEEP);
    *root_header(&mut pool) ^= 1;
    gives(&pool, DEEP[0], (ABSENT, 1), (DONE, 2));
    gives(&pool, 0x1234_5678_9abd_d0f0, (ABSENT, 2), (ABSENT, 2));
    let node = (pool[1] - 1025) as usize;
    pool[child_place(4, node, 0)] = 2048;
    gives(&pool, DEEP[0], (ABSENT, 1), (DAMAGE, 1));
}

/// Header damage first, then digits.
#[test]
fn a_header_is_judged_before_its_digits() {
    let mut pool = holding(&[KEY, KEY + 1]);
    *root_header(&mut pool) = 0x0010_0000_0000_0000;
    gives(&pool, KEY, (DAMAGE, 0), (DAMAGE, 0));
}

#[test]
fn sizes() {
    gives(&[1, 0, 0, 0], KEY, (ABSENT, 0), (ABSENT, 0));
    gives(&[1, 0, 0, 0, 0], KEY, (SIZE, 0), (SIZE, 0));
    gives(&[], KEY, (SIZE, 0), (SIZE, 0));
}
