//! A caller with a cache in front of its pool. 02 (v): "on ADR the caller makes the single steps and fences where the plan says, open's
//! headers by its planning call before open itself". Power may go at any store; whatever memory then holds is read and opened.

use crate::answers::*;
use crate::cache::Cached;
use crate::chance::Chance;
use crate::pools;
use crate::table::{listed_not_openable, opens_as, reads_as, Operation, Table};

/// Of the fences that plans ask for, which a caller makes.
#[derive(Clone, Copy, Debug)]
pub struct Fences {
    /// Between the groups of a plan.
    pub between: bool,
    /// Behind the last group.
    pub behind: bool,
}

pub const ALL_FENCES: Fences = Fences { between: true, behind: true };

/// What was found in the memories that cuts leave: the first of each kind.
#[derive(Debug, Default)]
pub struct Faults {
    /// The auditor's question: a name that is listed and cannot be opened.
    pub unopenable: Option<String>,
    /// Any other answer that neither the table before the operation gives nor the one after it.
    pub wrong: Option<String>,
}

pub struct Caller<'a, C: Calls> {
    calls: &'a C,
    generation: u64,
    fences: Fences,
    chance: Chance,
    n: usize,
    keys: Vec<u64>,
    cached: Cached,
    map: Vec<u8>,
    table: Table,
    pub faults: Faults,
    /// Memories that were read and opened.
    pub memories: u64,
    /// Cuts from which the run went on.
    pub cuts: u64,
    /// Headers that recoveries rewrote.
    pub headers: u64,
}

impl<'a, C: Calls> Caller<'a, C> {
    pub fn new(calls: &'a C, generation: u64, fences: Fences, seed: u64, n: usize) -> Self {
        let mut chance = Chance::new(seed);
        let keys = pools::keys(&mut chance, n + 3);
        let mut pool: Vec<u64> = (0..pool_words(n)).map(|_| chance.word()).collect();
        let mut map = vec![1; map_bytes(n)];
        assert_eq!(calls.format(&mut pool, &mut map, n as u64), DONE);
        let cached = Cached::new(generation, pool);
        let (table, faults) = (Table::new(), Faults::default());
        Caller {
            calls,
            generation,
            fences,
            chance,
            n,
            keys,
            cached,
            map,
            table,
            faults,
            memories: 0,
            cuts: 0,
            headers: 0,
        }
    }

    /// One put or delete by its plan: finished, or cut at some store and recovered from.
    pub fn operation(&mut self) {
        let key = self.chance.pick(&self.keys);
        let operation = match self.chance.below(5) {
            0 | 1 => Operation::Delete(key),
            _ => Operation::Put(key, self.chance.word() | 1),
        };
        let planned = operation.plan(self.calls, self.cached.seen(), &self.map, self.generation);
        assert_eq!(planned.number, operation.number(&self.table, self.n), "{operation:x?}");
        let mut after = self.table.clone();
        if planned.number == DONE {
            operation.apply(&mut after);
        }
        if self.steps(operation, &planned.plan, &after) {
            self.table = after;
            assert_eq!(self.calls.finish(&mut self.map, &planned.plan), DONE);
            // Durable: power may go now, and the operation is not lost.
            self.read_cuts(&format!("behind {operation:x?}"), &[self.table.clone()]);
        }
    }

    /// The plan's steps, with fences where it says. False if power went.
    fn steps(&mut self, operation: Operation, plan: &Plan, after: &Table) -> bool {
        let (count, first, fences) = (plan[PLAN_COUNT], plan[PLAN_FIRST], self.cached.fences);
        assert!(self.generation == ADR || plan[PLAN_FENCES] == 0, "a fence on eADR: {plan:?}");
        let tables = [self.table.clone(), after.clone()];
        for at in 0..count {
            let made = self.cached.call(|pool| self.calls.step(pool, plan, at));
            assert_eq!(made, DONE);
            let which = format!("{operation:x?} cut behind store {} of {count}", at + 1);
            if self.chance.one_in(2 * count as usize) && self.power_goes(&which, &tables) {
                return false;
            }
            match at + 1 == first || at + 1 == count {
                true => self.read_cuts(&which, &tables),
                false => self.read_a_cut(&which, &tables),
            }
            // An eADR plan carries its groups too, and asks for no fence.
            if plan[PLAN_FENCES] > 0 && self.fences.after(at + 1, first, count) {
                self.cached.fence();
            }
        }
        let made = self.cached.fences - fences;
        assert!(!self.fences.all() || made == plan[PLAN_FENCES], "{made} fences: {plan:?}");
        true
    }

    /// Power goes: memory holds what has arrived, and the caller recovers. False if it holds no table, which is noted.
    fn power_goes(&mut self, which: &str, tables: &[Table]) -> bool {
        let memory = self.cached.a_cut(&mut self.chance);
        let Some(table) = self.read(which, &memory, tables) else {
            return false;
        };
        self.cuts += 1;
        self.table = table;
        self.cached = Cached::new(self.generation, memory);
        self.recover();
        true
    }

    /// "Open's headers by its planning call before open itself"; then open stores nothing. On eADR a whole call does.
    fn recover(&mut self) {
        let table = [self.table.clone()];
        self.map.fill(0xaa);
        while self.generation == ADR {
            let planned = self.calls.plan_open(self.cached.seen(), self.generation);
            assert_eq!(planned.number, DONE);
            if planned.plan[PLAN_COUNT] == 0 {
                break;
            }
            let made = self.cached.call(|pool| self.calls.step(pool, &planned.plan, 0));
            assert_eq!((made, planned.plan[PLAN_FENCES]), (DONE, 1));
            self.headers += 1;
            self.read_cuts("an opening", &table);
            if self.chance.one_in(4) {
                self.cached = Cached::new(self.generation, self.cached.a_cut(&mut self.chance));
            }
            self.cached.fence();
        }
        let opened = self.cached.call(|pool| self.calls.open(pool, &mut self.map));
        assert_eq!((opened.number, opened.keys), (DONE, self.table.len() as u64));
        assert!(self.generation == EADR || opened.headers == 0, "open stores on ADR");
        assert!(self.cached.arrived(), "open leaves what no fence follows");
        self.headers += opened.headers;
        self.read_cuts("behind an opening", &table);
    }

    fn read_cuts(&mut self, which: &str, tables: &[Table]) {
        for memory in self.cached.cuts(&mut self.chance) {
            self.read(which, &memory, tables);
        }
    }

    fn read_a_cut(&mut self, which: &str, tables: &[Table]) {
        let memory = self.cached.a_cut(&mut self.chance);
        self.read(which, &memory, tables);
    }

    /// The one of the tables that a memory reads as; it opens, and every listed name does. Else what is wrong is noted.
    fn read(&mut self, which: &str, memory: &[u64], tables: &[Table]) -> Option<Table> {
        self.memories += 1;
        if let Some(name) = listed_not_openable(self.calls, memory) {
            let what = format!("{which}: {name:016x} is listed and cannot be opened");
            self.faults.unopenable.get_or_insert(what);
            return None;
        }
        let reads = |table: &&Table| reads_as(self.calls, memory, table, &self.keys);
        let opens = |table: &&Table| opens_as(self.calls, &mut memory.to_vec(), &mut self.map.clone(), table);
        let table = tables.iter().find(|table| reads(table).is_ok() && opens(table).is_ok());
        if table.is_none() {
            self.faults.wrong.get_or_insert(format!("{which}: memory is neither as before nor as after"));
        }
        table.cloned()
    }
}

impl Fences {
    /// Whether one is made behind so many stores of a plan.
    fn after(self, made: u64, first: u64, count: u64) -> bool {
        match made == count {
            true => self.behind,
            false => self.between && made == first,
        }
    }

    fn all(self) -> bool {
        self.between && self.behind
    }
}
