//! The checked examples of document 01, through the calls: on the library and on the model.

use wort_host::answers::*;
use wort_host::model::{digit, first_differing, header, target, Target};
use wort_host::{Library, Model};

const KEY: u64 = 0x1234_5678_9abc_def0;

/// A pool of capacity `n` that holds keys, each with the value 1.
fn holding(calls: &impl Calls, n: usize, keys: &[u64]) -> (Vec<u64>, Vec<u8>) {
    let (mut pool, mut map) = (vec![0; pool_words(n)], vec![0; map_bytes(n)]);
    assert_eq!(calls.format(&mut pool, &mut map, n as u64), DONE);
    for key in keys {
        assert_eq!(calls.put(&mut pool, &mut map, *key, 1).number, DONE);
    }
    (pool, map)
}

fn on_both(example: impl Fn(&dyn Fn(usize, &[u64]) -> Vec<u64>)) {
    example(&|n, keys| holding(&Model, n, keys).0);
    example(&|n, keys| holding(&Library, n, keys).0);
}

#[test]
fn digits_and_first_differing_digits() {
    assert_eq!((digit(KEY, 0), digit(KEY, 15)), (1, 0));
    assert_eq!(first_differing(0, u64::MAX), 0);
    assert_eq!(first_differing(0, 1), 15);
    assert_eq!(first_differing(7, 7), 16);
}

/// The header of a pool of two keys stands behind its two leaves.
#[test]
fn headers_of_two_keys() {
    on_both(|pool| {
        assert_eq!(pool(2, &[KEY, KEY + 1])[6], 0x000f_1234_5678_9abc);
        let keys = [0x1234_5678_0000_0000, 0x1234_5679_0000_0000];
        assert_eq!(pool(2, &keys)[6], 0x0007_1234_5670_0000);
        assert_eq!(pool(2, &[0, u64::MAX])[6], 0);
    });
    assert_eq!(header(0, 15, KEY), 0x000f_1234_5678_9abc);
}

#[test]
fn sizes() {
    fn sizes(calls: &impl Calls) {
        assert_eq!(calls.format(&mut [0; 4], &mut [0; 1], 1), DONE);
        assert_eq!(calls.format(&mut [0; 5], &mut [0; 1], 1), SIZE);
        assert_eq!(calls.format(&mut [0; 4], &mut [0; 1], 0), SIZE);
        let mut pool = vec![0; pool_words(1025)];
        assert_eq!(calls.format(&mut pool, &mut [0; 2049], 1025), SIZE);
        assert_eq!(calls.lookup(&[1, 0, 0, 0], 7).number, ABSENT);
        assert_eq!(calls.lookup(&[1, 0, 0, 0, 0], 7).number, SIZE);
        assert_eq!(calls.lookup(&[], 7).number, SIZE);
    }
    sizes(&Model);
    sizes(&Library);
}

#[test]
fn references_of_two_places() {
    assert_eq!(target(1025, 2), Target::Node(0));
    assert_eq!(target(1026, 2), Target::Damage);
    assert_eq!(target(3, 2), Target::Damage);
    on_both(|pool| {
        for root in [1026, 3] {
            let mut damaged = pool(2, &[]);
            damaged[1] = root;
            assert_eq!(Model.lookup(&damaged, 0).number, DAMAGE);
            assert_eq!(Library.lookup(&damaged, 0).number, DAMAGE);
        }
    });
}

#[test]
fn one_place_held() {
    fn one_place(calls: &impl Calls) {
        let (mut pool, mut map) = holding(calls, 1, &[KEY]);
        let held = calls.put(&mut pool, &mut map, KEY, 2);
        assert_eq!((held.number, held.stores), (DONE, 1));
        let other = calls.put(&mut pool, &mut map, KEY + 1, 2);
        assert_eq!((other.number, other.stores), (NO_ROOM, 0));
    }
    one_place(&Model);
    one_place(&Library);
}

/// Depth 8 and length 8 branch behind the last digit; depth 8 and length 7 at it.
#[test]
fn headers_on_the_edge() {
    on_both(|pool| {
        let mut edge = pool(2, &[KEY, KEY + 1]);
        edge[6] = 8 << 56 | 8 << 48;
        assert_eq!(Model.lookup(&edge, KEY).number, DAMAGE);
        assert_eq!(Library.lookup(&edge, KEY).number, DAMAGE);
        edge[6] = 8 << 56 | 7 << 48;
        let found = (DONE, 1, 1);
        for calls in [Model.lookup(&edge, KEY), Library.lookup(&edge, KEY)] {
            assert_eq!((calls.number, calls.value, calls.nodes), found);
        }
    });
}
