//! The plain table from name number to file number, and whether a pool reads as one.

use crate::answers::*;
use crate::cuts::Arrived;
use std::collections::BTreeMap;

pub type Table = BTreeMap<u64, u64>;

/// A put or a delete.
#[derive(Clone, Copy, Debug, PartialEq, Eq)]
pub enum Operation {
    Put(u64, u64),
    Delete(u64),
}

impl Operation {
    pub fn plan(self, calls: &impl Calls, pool: &[u64], map: &[u8], generation: u64) -> Planned {
        match self {
            Operation::Put(key, value) => calls.plan_put(pool, map, key, value, generation),
            Operation::Delete(key) => calls.plan_delete(pool, key, generation),
        }
    }

    /// The number that demand 2 gives on a sound pool of capacity `n` with a true map.
    pub fn number(self, table: &Table, n: usize) -> u64 {
        match self {
            Operation::Put(_, 0) => RETIRED,
            Operation::Put(key, _) if table.len() == n && !table.contains_key(&key) => NO_ROOM,
            Operation::Delete(key) if !table.contains_key(&key) => ABSENT,
            Operation::Put(..) | Operation::Delete(_) => DONE,
        }
    }

    /// The table once the operation counts.
    pub fn apply(self, table: &mut Table) {
        match self {
            Operation::Put(key, value) => table.insert(key, value),
            Operation::Delete(key) => table.remove(&key),
        };
    }

    /// "A put or delete counts from its switching store": a put's last, a delete's first. A refusal's plan has none.
    pub fn counts(self, plan: &Plan, arrived: Arrived) -> bool {
        let count = plan[PLAN_COUNT] as usize;
        match self {
            Operation::Put(..) => count > 0 && arrived.has(count - 1),
            Operation::Delete(_) => arrived.has(0),
        }
    }
}

/// Whether both lookups and listing equal the table: each key looked up, the whole listed, and every listed name opened.
pub fn reads_as(calls: &impl Calls, pool: &[u64], table: &Table, keys: &[u64]) -> Result<(), String> {
    for key in keys {
        let (plain, quick) = (calls.lookup(pool, *key), calls.lookup_quick(pool, *key));
        let wanted = match table.get(key) {
            Some(value) => (DONE, *value),
            None => (ABSENT, 0),
        };
        for found in [plain, quick] {
            if (found.number, found.value) != wanted {
                return Err(format!("lookup of {key:016x}: {plain:?}, quick {quick:?}, the table holds {wanted:?}"));
            }
        }
        if quick.nodes > plain.nodes {
            return Err(format!("lookup of {key:016x}: {plain:?}, and by the quick way more nodes: {quick:?}"));
        }
    }
    lists_as(calls, pool, table, 0, pool[0] as usize)
}

/// The auditor's question: a name that is listed, and cannot be opened with its file number.
pub fn listed_not_openable(calls: &impl Calls, pool: &[u64]) -> Option<u64> {
    let n = pool[0] as usize;
    let (mut keys, mut values) = (vec![0; n], vec![0; n]);
    let listed = calls.list(pool, 0, &mut keys, &mut values);
    let mut entries = keys.iter().zip(&values).take(listed.count as usize);
    let opens = |key: u64, value: u64| {
        let found = calls.lookup(pool, key);
        (found.number, found.value) == (DONE, value)
    };
    entries.find(|(key, value)| !opens(**key, **value)).map(|(key, _)| *key)
}

/// Whether a listing from a key, with buffers of a length, is the table's entries from there.
pub fn lists_as(calls: &impl Calls, pool: &[u64], table: &Table, from: u64, length: usize) -> Result<(), String> {
    let (mut keys, mut values) = (vec![0; length], vec![0; length]);
    let listed = calls.list(pool, from, &mut keys, &mut values);
    let count = listed.count as usize;
    let entries = keys.iter().zip(&values).take(count);
    let same = table.range(from..).take(length).eq(entries);
    let more = table.range(from..).count() > length;
    match listed.number == DONE && same && listed.more == u64::from(more) {
        true => Ok(()),
        false => Err(format!("listing from {from:016x}, buffers of {length}: {listed:?} {keys:x?}")),
    }
}

/// Opens to the end, as it must: 0, every key of the table, a leaf in the map for each, and no stale header left.
pub fn opens_as(calls: &impl Calls, pool: &mut [u64], map: &mut [u8], table: &Table) -> Result<Opened, String> {
    map.fill(0xaa);
    let opened = calls.open(pool, map);
    if opened.number != DONE || opened.keys != table.len() as u64 {
        return Err(format!("open: {opened:?}, the table holds {} keys", table.len()));
    }
    let leaves = map[..pool[0] as usize].iter().filter(|byte| **byte == 1).count();
    if leaves != table.len() || map.iter().any(|byte| *byte > 1) {
        return Err(format!("open: {} keys in the map {map:?}", table.len()));
    }
    match store_of_open(calls, &mut pool.to_vec())? {
        true => Err("open leaves a stale header".into()),
        false => Ok(opened),
    }
}

/// Makes the first store of an opening that is cut there; false if there is none to make. "Each header open rewrites is a group."
pub fn store_of_open(calls: &impl Calls, pool: &mut [u64]) -> Result<bool, String> {
    let planned = calls.plan_open(pool, ADR);
    let [count, first, fences] = [PLAN_COUNT, PLAN_FIRST, PLAN_FENCES].map(|place| planned.plan[place]);
    match (planned.number, count, first, fences) {
        (DONE, 0, 0, 0) => Ok(false),
        (DONE, 1, 1, 1) if calls.step(pool, &planned.plan, 0) == DONE => Ok(true),
        _ => Err(format!("plan_open: {planned:?}")),
    }
}
