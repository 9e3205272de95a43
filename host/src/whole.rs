//! Whole calls that store to a pool, of each kind and case, each on a pool that shows every store.
//!
//! A store of the value that a word already holds changes nothing and cannot be seen. So all that is not reached holds
//! garbage. A word that is reached takes a new value in every case but one: see `shows`.

use crate::answers::*;
use crate::chance::Chance;
use crate::model::{survey, Model};
use crate::pools::{self, Made};

const ROOT: usize = 1;

/// Every rule shows on such a pool, and all of it is quickly compared.
const MOST_PLACES: usize = 12;

#[derive(Clone, Copy, Debug)]
pub enum Call {
    Format(u64),
    Open,
    Put(u64, u64),
    Delete(u64),
}

/// A call's number, the keys that it counts, and the headers or stores.
pub type Answer = [u64; 3];

/// The cases, in the order of document 01.
pub const CASES: [&str; 19] = [
    "format",
    "put, held key",
    "put, empty root",
    "put, empty child",
    "put, split of a leaf",
    "put, split of a leaf, more than twelve digits",
    "put, split of a node",
    "put, split of a node, more than twelve digits",
    "put, split of a stale node behind its gap",
    "put, split of a stale node in its gap",
    "delete, root",
    "delete, three or more children",
    "delete, other child a leaf",
    "delete, other child a node",
    "delete, other child a node, more than twelve digits",
    "open, no stale header",
    "open, one stale header",
    "open, several stale headers",
    "refused",
];

impl Call {
    /// The stores that the planning calls list, in order, or the number of a refusal. Whole calls are for eADR alone. Format has no planning call: its
    /// two stores are document 01's.
    pub fn stores(self, calls: &impl Calls, pool: &[u64], map: &[u8]) -> Result<Vec<Store>, u64> {
        match self {
            Call::Format(n) => Ok(vec![(ROOT, 0), (0, n)]),
            Call::Open => headers(calls, pool.to_vec()),
            Call::Put(key, value) => listed(&calls.plan_put(pool, map, key, value, EADR)),
            Call::Delete(key) => listed(&calls.plan_delete(pool, key, EADR)),
        }
    }

    pub fn make(self, calls: &impl Calls, pool: &mut [u64], map: &mut [u8]) -> Answer {
        match self {
            Call::Format(n) => [calls.format(pool, map, n), 0, 0],
            Call::Open => {
                let opened = calls.open(pool, map);
                [opened.number, opened.keys, opened.headers]
            }
            Call::Put(key, value) => {
                let made = calls.put(pool, map, key, value);
                [made.number, 0, made.stores]
            }
            Call::Delete(key) => {
                let made = calls.delete(pool, map, key);
                [made.number, 0, made.stores]
            }
        }
    }

    /// Which case the call is, by the model's stores.
    fn case(self, pool: &[u64], stores: &Result<Vec<Store>, u64>) -> &'static str {
        let Ok(stores) = stores else {
            return "refused";
        };
        match (self, &stores[..]) {
            (Call::Format(_), _) => "format",
            (Call::Open, []) => "open, no stale header",
            (Call::Open, [_]) => "open, one stale header",
            (Call::Open, _) => "open, several stale headers",
            (Call::Put(..), [_]) => "put, held key",
            (Call::Put(..), [_, _, (ROOT, _)]) => "put, empty root",
            (Call::Put(..), [_, _, _]) => "put, empty child",
            (Call::Put(..), split) => split_case(pool, split),
            (Call::Delete(_), [(ROOT, 0)]) => "delete, root",
            (Call::Delete(_), [(_, 0)]) => "delete, three or more children",
            (Call::Delete(_), [_, (_, header)]) if long(*header) => {
                "delete, other child a node, more than twelve digits"
            }
            (Call::Delete(_), [_, _]) => "delete, other child a node",
            (Call::Delete(_), _) => "delete, other child a leaf",
        }
    }
}

/// The stores of a split: leaf key, leaf value, header, sixteen children, for a node its header, the reference.
fn split_case(pool: &[u64], split: &[Store]) -> &'static str {
    let (_, header) = split[2];
    let (w, f) = (depth(header), depth(header) + length(header));
    let [(target, fresh), _] = split[19..] else {
        return if long(header) { "put, split of a leaf, more than twelve digits" } else { "put, split of a leaf" };
    };
    match depth(pool[target]) {
        h if h > f => "put, split of a stale node in its gap",
        h if h > w => "put, split of a stale node behind its gap",
        _ if [header, fresh, pool[target]].into_iter().any(long) => "put, split of a node, more than twelve digits",
        _ => "put, split of a node",
    }
}

fn depth(header: u64) -> u64 {
    header >> 56
}

fn length(header: u64) -> u64 {
    header >> 48 & 255
}

/// Whether a node's prefix is longer than its header can hold.
fn long(header: u64) -> bool {
    length(header) > 12
}

fn listed(planned: &Planned) -> Result<Vec<Store>, u64> {
    match planned.number {
        DONE => Ok(stores_of(&planned.plan)),
        number => Err(number),
    }
}

/// "A planning call answers the first such store as a plan, or a plan of none; open makes just these in turn."
fn headers(calls: &impl Calls, mut pool: Vec<u64>) -> Result<Vec<Store>, u64> {
    let mut stores = Vec::new();
    // One store for each node at most: more would be a plan that does not end.
    for _ in 0..pool.len() {
        let Some(store) = listed(&calls.plan_open(&pool, EADR))?.first().copied() else {
            break;
        };
        pool[store.0] = store.1;
        stores.push(store);
    }
    Ok(stores)
}

/// A call on a pool with its map.
pub struct Whole {
    pub made: Made,
    pub call: Call,
    pub case: &'static str,
    /// The model's stores, or its refusal.
    pub stores: Result<Vec<Store>, u64>,
}

/// Some call on some pool, of which every store shows; or nothing, if chance gives another.
pub fn whole(chance: &mut Chance) -> Option<Whole> {
    let n = 1 + chance.below(MOST_PLACES);
    let mut made = match chance.below(5) {
        0 => pools::damaged(chance, n),
        1 | 2 => pools::sound(chance, n),
        _ => pools::stale(chance, n),
    };
    let call = some_call(chance, &made);
    match (call, survey(&made.pool)) {
        (Call::Format(_), _) => made.pool.iter_mut().for_each(|word| *word = chance.word()),
        (_, Some(survey)) => fill_unreached(chance, &mut made, &survey.reached),
        (_, None) => {}
    }
    let stores = call.stores(&Model, &made.pool, &made.map);
    let case = call.case(&made.pool, &stores);
    shows(&made.pool, &stores).then_some(Whole { made, call, case, stores })
}

fn some_call(chance: &mut Chance, made: &Made) -> Call {
    let key = pools::a_key(chance, &made.keys);
    match chance.below(8) {
        0 => Call::Format(made.n as u64),
        1 => Call::Open,
        2..=4 => Call::Delete(key),
        _ => Call::Put(key, chance.word()),
    }
}

/// "Unreached slots may hold anything."
fn fill_unreached(chance: &mut Chance, made: &mut Made, reached: &[bool]) {
    let (leaves, nodes) = made.pool[2..].split_at_mut(2 * made.n);
    let slots = leaves.chunks_mut(2).chain(nodes.chunks_mut(17));
    for (slot, _) in slots.zip(reached).filter(|(_, reached)| !**reached) {
        slot.iter_mut().for_each(|word| *word = chance.word());
    }
}

/// Whether each store changes its word. On a sound pool one kind does not: a split in the last digit of a stale node's gap
/// stores the header that the node has. All other stores to reached words do: a reference takes another slot, a merge
/// and an opening make a depth smaller, a split behind the gap makes it larger.
fn shows(pool: &[u64], stores: &Result<Vec<Store>, u64>) -> bool {
    let stores = stores.as_deref().unwrap_or(&[]);
    stores.iter().all(|(place, value)| pool[*place] != *value)
}
