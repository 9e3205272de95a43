//! Demand 3 on every state that a small pool can come to from a formatted one by puts and deletes, finished or cut in
//! either group of their stores, and by openings, finished or cut at any store.
//!
//! Between operations a map is true of its pool, so a pool's words are the whole state. Free slots that are left as they were, or are 0,
//! leave a split few words to change: every subset of its first group is tried. With other words in them some subsets are.

use crate::answers::*;
use crate::chance::Chance;
use crate::cuts::{all, arrive, cuts, left};
use crate::table::{opens_as, reads_as, store_of_open, Operation, Table};
use std::collections::{HashMap, HashSet, VecDeque};

/// Key sets whose digits force every kind of split and merge, each with what it is for.
pub const KEY_SETS: [(&str, &[u64]); 5] = [
    (
        "a root that branches at digit 0: header 0, and the widest range of keys",
        &[0, 0x1000_0000_0000_0000, 0xf000_0000_0000_0000, u64::MAX],
    ),
    (
        "splits above and below a node, merges of a leaf and of a node",
        &[0x1000_0000_0000_0000, 0x1100_0000_0000_0000, 0x2000_0000_0000_0000, 0x1110_0000_0000_0000],
    ),
    (
        "prefixes longer than the twelve stored digits",
        &[0x1234_5678_9abc_def0, 0x1234_5678_9abc_def1, 0x1234_5678_9abc_dff0, 0x0234_5678_9abc_def0],
    ),
    ("a node of three children, and a split of the reference to it", &[0x5500, 0x5501, 0x550f, 0x5600]),
    (
        "three levels: parting at the first, the middle and the last digit",
        &[0x7777_7777_7777_7777, 0x7777_7777_7777_7778, 0x7777_7779_7777_7777, 0x8777_7777_7777_7777],
    ),
];

/// What a search tries.
#[derive(Clone, Copy, Debug)]
pub struct Bounds<'a> {
    pub n: usize,
    pub keys: &'a [u64],
    pub values: &'a [u64],
    /// The free slots between operations: as they were left, or every word of them this one. "Unreached slots may hold
    /// anything", and what they hold makes most of the states.
    pub free: Option<u64>,
    /// The search ends when so many states have been tried.
    pub most: usize,
}

/// What a search has seen.
#[derive(Debug, Default)]
pub struct Seen {
    /// Pools between operations.
    pub states: usize,
    /// Cuts of operations; many leave the same pool.
    pub cuts: usize,
    /// Pools that were read and opened, cut ones among them.
    pub pools: usize,
    /// Whether every state that can be reached was tried.
    pub complete: bool,
    /// The most headers that one opening rewrote.
    pub headers: u64,
}

/// A pool's words, and the number of the table that it reads as.
type Known = HashMap<Box<[u64]>, usize>;

struct Search<'a, C: Calls> {
    calls: &'a C,
    bounds: &'a Bounds<'a>,
    chance: Chance,
    tables: Vec<Table>,
    known: Known,
    states: HashSet<Box<[u64]>>,
    /// Those that the fewest operations come to are tried first.
    to_try: VecDeque<(Box<[u64]>, usize)>,
    seen: Seen,
}

/// Tries every state within the bounds; says the first that demand 3 does not allow.
pub fn search(calls: &impl Calls, bounds: &Bounds) -> Result<Seen, String> {
    let mut search = Search {
        calls,
        bounds,
        chance: Chance::new(1),
        tables: vec![Table::new()],
        known: Known::new(),
        states: HashSet::new(),
        to_try: VecDeque::new(),
        seen: Seen::default(),
    };
    let mut pool = vec![0; pool_words(bounds.n)];
    let mut map = vec![1; map_bytes(bounds.n)];
    assert_eq!(calls.format(&mut pool, &mut map, bounds.n as u64), DONE);
    search.reach(pool, &map, 0);
    let operations = bounds.operations();
    while let Some((pool, table)) = search.to_try.pop_front() {
        if search.seen.states == bounds.most {
            return Ok(search.seen);
        }
        search.seen.states += 1;
        search.state(&pool, table, &operations)?;
    }
    search.seen.complete = true;
    Ok(search.seen)
}

impl Bounds<'_> {
    fn operations(&self) -> Vec<Operation> {
        let puts = |key| self.values.iter().map(move |value| Operation::Put(key, *value));
        let puts = self.keys.iter().flat_map(|key| puts(*key));
        let deletes = self.keys.iter().map(|key| Operation::Delete(*key));
        puts.chain(deletes).collect()
    }
}

impl<C: Calls> Search<'_, C> {
    /// A pool between operations, with its map.
    fn reach(&mut self, mut pool: Vec<u64>, map: &[u8], table: usize) {
        if let Some(word) = self.bounds.free {
            fill_free(&mut pool, map, word);
        }
        let pool = pool.into_boxed_slice();
        if !self.states.contains(&pool) {
            self.states.insert(pool.clone());
            self.to_try.push_back((pool, table));
        }
    }

    fn table_number(&mut self, table: Table) -> usize {
        let known = self.tables.iter().position(|other| *other == table);
        known.unwrap_or_else(|| {
            self.tables.push(table);
            self.tables.len() - 1
        })
    }

    fn state(&mut self, pool: &[u64], table: usize, operations: &[Operation]) -> Result<(), String> {
        let mut map = vec![0; map_bytes(self.bounds.n)];
        opens_as(self.calls, &mut pool.to_vec(), &mut map, &self.tables[table])?;
        for operation in operations {
            self.operation(pool, &map, table, *operation)
                .map_err(|what| format!("{operation:x?} on {pool:x?}: {what}"))?;
        }
        Ok(())
    }

    /// The operation, cut everywhere and finished.
    fn operation(&mut self, pool: &[u64], map: &[u8], before: usize, operation: Operation) -> Result<(), String> {
        let planned = operation.plan(self.calls, pool, map, ADR);
        let wanted = operation.number(&self.tables[before], self.bounds.n);
        if planned.number != wanted {
            return Err(format!("gives {}, not {wanted}", planned.number));
        }
        let mut after = self.tables[before].clone();
        if wanted == DONE {
            operation.apply(&mut after);
        }
        let after = self.table_number(after);
        let plan = &planned.plan;
        for arrived in cuts(pool, plan, &mut self.chance) {
            self.seen.cuts += 1;
            let table = if operation.counts(plan, arrived) { after } else { before };
            self.cut(&left(pool, plan, arrived), table)
                .map_err(|what| format!("cut when {arrived:?} had arrived: {what}"))?;
        }
        let mut made = pool.to_vec();
        if !arrive(self.calls, &mut made, plan, all(plan), &mut self.chance) || made != left(pool, plan, all(plan)) {
            return Err("its steps leave other than its stores".into());
        }
        self.finished(made, map.to_vec(), plan, after)
    }

    /// A cut pool reads as its table, and opens; openings are cut at every store and begun anew.
    fn cut(&mut self, pool: &[u64], table: usize) -> Result<(), String> {
        match self.known.get(pool) {
            Some(same) if *same == table => return Ok(()),
            Some(_) => return Err("the same words stand for two tables".into()),
            None => self.known.insert(pool.into(), table),
        };
        self.seen.pools += 1;
        reads_as(self.calls, pool, &self.tables[table], self.bounds.keys)?;
        let mut whole = pool.to_vec();
        let mut map = vec![0; map_bytes(self.bounds.n)];
        let opened = opens_as(self.calls, &mut whole, &mut map, &self.tables[table])?;
        self.seen.headers = self.seen.headers.max(opened.headers);
        let mut next = pool.to_vec();
        if store_of_open(self.calls, &mut next)? {
            let mut again = next.clone();
            opens_as(self.calls, &mut again, &mut map, &self.tables[table])?;
            if again != whole {
                return Err("an opening that was cut and begun anew ends elsewhere".into());
            }
            self.cut(&next, table)?;
        } else if whole != pool {
            return Err("open stores other than its plans say".into());
        }
        self.reach(whole, &map, table);
        Ok(())
    }

    /// "No room is lost": after a finished operation the map is the one that an opening makes.
    fn finished(&mut self, pool: Vec<u64>, mut map: Vec<u8>, plan: &Plan, table: usize) -> Result<(), String> {
        if self.calls.finish(&mut map, plan) != DONE {
            return Err("finish is refused".into());
        }
        let (mut opened, mut fresh) = (pool.clone(), vec![0; map.len()]);
        opens_as(self.calls, &mut opened, &mut fresh, &self.tables[table])?;
        if opened != pool || fresh != map {
            return Err(format!("finished with the map {map:?}, an opening makes {fresh:?}"));
        }
        self.reach(pool, &map, table);
        Ok(())
    }
}

/// Writes one word all over the slots that a map calls free.
fn fill_free(pool: &mut [u64], map: &[u8], word: u64) {
    let capacity = map.len().div_ceil(2);
    let (leaves, nodes) = pool[2..].split_at_mut(2 * capacity);
    let slots = leaves.chunks_mut(2).chain(nodes.chunks_mut(17));
    for (slot, byte) in slots.zip(map) {
        if *byte == 0 {
            slot.fill(word);
        }
    }
}
