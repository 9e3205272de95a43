//! Rust's BTreeMap behind a C interface, for the bench. A shared object, so that its Rust and the library's never meet.

use std::collections::BTreeMap;

type Map = BTreeMap<u64, u64>;

#[no_mangle]
pub extern "C" fn btree_new() -> *mut Map {
    Box::into_raw(Box::default())
}

/// # Safety
/// The map came from `btree_new` and is not used again.
#[no_mangle]
pub unsafe extern "C" fn btree_free(map: *mut Map) {
    drop(Box::from_raw(map));
}

/// # Safety
/// The map came from `btree_new`.
#[no_mangle]
pub unsafe extern "C" fn btree_put(map: *mut Map, key: u64, value: u64) {
    (*map).insert(key, value);
}

/// # Safety
/// The map came from `btree_new`; `value` is for one word.
#[no_mangle]
pub unsafe extern "C" fn btree_lookup(map: *const Map, key: u64, value: *mut u64) -> bool {
    match (*map).get(&key) {
        Some(held) => {
            *value = *held;
            true
        }
        None => false,
    }
}

/// # Safety
/// The map came from `btree_new`.
#[no_mangle]
pub unsafe extern "C" fn btree_delete(map: *mut Map, key: u64) -> bool {
    (*map).remove(&key).is_some()
}

/// # Safety
/// The map came from `btree_new`; both buffers have `length` words.
#[no_mangle]
pub unsafe extern "C" fn btree_list(
    map: *const Map,
    keys: *mut u64,
    values: *mut u64,
    length: usize,
) -> usize {
    let mut count = 0;
    for (key, value) in (*map).iter().take(length) {
        *keys.add(count) = *key;
        *values.add(count) = *value;
        count += 1;
    }
    count
}
