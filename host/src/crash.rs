//! Demand 3 by chance: long sequences of puts and deletes on one pool. Before each goes on, it is cut in each of its groups of stores,
//! and the opening after it at every store; then it is finished or cut for good.

use crate::answers::*;
use crate::chance::Chance;
use crate::cuts::{a_cut, all, arrive, cuts, left, Arrived};
use crate::pools;
use crate::table::{lists_as, opens_as, reads_as, store_of_open, Operation, Table};

/// A pool, its map, and the table it must read as.
pub struct Crash<'a, C: Calls> {
    calls: &'a C,
    chance: Chance,
    n: usize,
    keys: Vec<u64>,
    pool: Vec<u64>,
    map: Vec<u8>,
    table: Table,
    /// Pools that were read and held against the table.
    pub pools: u64,
}

impl<'a, C: Calls> Crash<'a, C> {
    pub fn new(calls: &'a C, seed: u64, n: usize) -> Self {
        let mut chance = Chance::new(seed);
        let keys = pools::keys(&mut chance, n + 3);
        let mut pool: Vec<u64> = (0..pool_words(n)).map(|_| chance.word()).collect();
        let mut map = vec![1; map_bytes(n)];
        assert_eq!(calls.format(&mut pool, &mut map, n as u64), DONE);
        Crash { calls, chance, n, keys, pool, map, table: Table::new(), pools: 0 }
    }

    /// Puts every key for which there is room.
    pub fn fill(&mut self) {
        for key in self.keys.clone() {
            let operation = Operation::Put(key, self.chance.word());
            let planned = operation.plan(self.calls, &self.pool, &self.map, ADR);
            if planned.number == DONE {
                self.whole_call(operation, &planned).expect("a finished put");
            }
        }
    }

    /// One operation: all its cuts on copies, then one outcome for good.
    pub fn operation(&mut self) -> Result<(), String> {
        let operation = self.some_operation();
        let planned = operation.plan(self.calls, &self.pool, &self.map, ADR);
        let wanted = operation.number(&self.table, self.n);
        if planned.number != wanted {
            return Err(format!("{operation:?} gives {}, not {wanted}", planned.number));
        }
        for arrived in cuts(&self.pool, &planned.plan, &mut self.chance) {
            let cut = left(&self.pool, &planned.plan, arrived);
            self.read_cut(&cut, &self.table_after(operation, &planned.plan, arrived))
                .map_err(|what| format!("{operation:x?} cut when {arrived:?} had arrived: {what}"))?;
        }
        self.go_on(operation, &planned)
    }

    fn some_operation(&mut self) -> Operation {
        let key = self.chance.pick(&self.keys);
        match self.chance.below(20) {
            0..=7 => Operation::Delete(key),
            8 => Operation::Put(key, 0),
            _ => Operation::Put(key, self.chance.word()),
        }
    }

    fn table_after(&self, operation: Operation, plan: &Plan, arrived: Arrived) -> Table {
        let mut table = self.table.clone();
        if operation.counts(plan, arrived) {
            operation.apply(&mut table);
        }
        table
    }

    /// A cut pool reads as the table; so does every pool its openings leave, and each opens to the same end.
    fn read_cut(&mut self, cut: &[u64], table: &Table) -> Result<(), String> {
        self.read(cut, table)?;
        let mut end = cut.to_vec();
        opens_as(self.calls, &mut end, &mut self.map.clone(), table)?;
        let mut pool = cut.to_vec();
        while store_of_open(self.calls, &mut pool)? {
            self.read(&pool, table)?;
            let mut again = pool.clone();
            opens_as(self.calls, &mut again, &mut self.map.clone(), table)?;
            if again != end {
                return Err("an opening that was cut and begun anew ends elsewhere".into());
            }
        }
        match pool == end {
            true => Ok(()),
            false => Err("open stores other than its plans say".into()),
        }
    }

    fn read(&mut self, pool: &[u64], table: &Table) -> Result<(), String> {
        self.pools += 1;
        reads_as(self.calls, pool, table, &self.keys)?;
        let from = pools::a_key(&mut self.chance, &self.keys);
        let length = 1 + self.chance.below(self.n);
        lists_as(self.calls, pool, table, from, length)
    }

    /// Half of the operations are finished, by single steps or by the whole call; half are cut and opened.
    fn go_on(&mut self, operation: Operation, planned: &Planned) -> Result<(), String> {
        let plan = &planned.plan;
        let arrived = match self.chance.below(4) {
            0 => return self.whole_call(operation, planned),
            1 => all(plan),
            _ => a_cut(plan, &mut self.chance),
        };
        let wanted = left(&self.pool, plan, arrived);
        if !arrive(self.calls, &mut self.pool, plan, arrived, &mut self.chance) || self.pool != wanted {
            return Err(format!("{operation:x?}: the steps {arrived:?} leave other than their stores"));
        }
        self.table = self.table_after(operation, plan, arrived);
        if arrived == all(plan) && self.chance.one_in(2) {
            self.calls.finish(&mut self.map, plan);
            return self.map_is_true();
        }
        if self.chance.one_in(2) {
            store_of_open(self.calls, &mut self.pool)?;
        }
        opens_as(self.calls, &mut self.pool, &mut self.map, &self.table).map(|_| ())
    }

    fn whole_call(&mut self, operation: Operation, planned: &Planned) -> Result<(), String> {
        let (pool, map) = (&mut self.pool, &mut self.map);
        let made = match operation {
            Operation::Put(key, value) => self.calls.put(pool, map, key, value),
            Operation::Delete(key) => self.calls.delete(pool, map, key),
        };
        let count = planned.plan[PLAN_COUNT];
        if (made.number, made.stores) != (planned.number, count) {
            return Err(format!("{operation:?}: {made:?}, its plan says {count}"));
        }
        self.table = self.table_after(operation, &planned.plan, all(&planned.plan));
        self.map_is_true()
    }

    /// A finished operation keeps a map that marks just the slots in use: the one an opening makes.
    fn map_is_true(&self) -> Result<(), String> {
        let (mut pool, mut map) = (self.pool.clone(), self.map.clone());
        opens_as(self.calls, &mut pool, &mut map, &self.table)?;
        let same = self.map.iter().zip(&map).all(|(kept, fresh)| (*kept != 0) == (*fresh != 0));
        match same && pool == self.pool {
            true => Ok(()),
            false => Err("a finished operation leaves a map that is not true".into()),
        }
    }
}
