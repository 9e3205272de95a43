//! The library against the model, call by call: the answer, and every word, byte and buffer afterwards.

use crate::answers::*;
use crate::chance::Chance;
use crate::fenced::{Fenced, Side};
use crate::pools::{self, Made};
use crate::{watch, Library, Model};
use std::collections::BTreeMap;
use std::fmt::Debug;

/// Longer than any run that is lent: the longest pool, and some words too many.
const MOST_WORDS: usize = pool_words(MOST_LEAVES as usize) + 64;
const MOST_BYTES: usize = map_bytes(MOST_LEAVES as usize) + 64;
const MOST_ENTRIES: usize = MOST_LEAVES as usize + 8;

/// How often each call gave each number, by what it counted (stores, nodes, headers).
pub type Tally = BTreeMap<(&'static str, u64, u64), u64>;

/// What the library is lent.
struct Lent {
    pool: Fenced<u64>,
    map: Fenced<u8>,
    keys: Fenced<u64>,
    values: Fenced<u64>,
    plan: Fenced<u64>,
}

/// The same for the model.
#[derive(Default)]
struct Twin {
    pool: Vec<u64>,
    map: Vec<u8>,
    keys: Vec<u64>,
    values: Vec<u64>,
}

pub struct Differ {
    chance: Chance,
    lent: Lent,
    twin: Twin,
    /// Keys like those in the pool, and the plan last made.
    keys: Vec<u64>,
    plan: Plan,
    at: u64,
    /// Pools and maps that a call may only read are write-protected.
    frozen: bool,
    pub calls: u64,
    pub tally: Tally,
}

impl Differ {
    pub fn new(seed: u64) -> Self {
        watch::begin();
        Differ {
            chance: Chance::new(seed),
            lent: Lent {
                pool: Fenced::new(MOST_WORDS),
                map: Fenced::new(MOST_BYTES),
                keys: Fenced::new(MOST_ENTRIES),
                values: Fenced::new(MOST_ENTRIES),
                plan: Fenced::new(PLAN_WORDS),
            },
            twin: Twin::default(),
            keys: Vec::new(),
            plan: NO_PLAN,
            at: 0,
            frozen: false,
            calls: 0,
            tally: Tally::new(),
        }
    }

    /// One pool and a run of calls on it; says the first difference.
    pub fn case(&mut self) -> Result<(), String> {
        watch::run_of_calls();
        let made = self.make_pool();
        let n = made.n;
        self.lend(made);
        self.frozen = self.chance.one_in(16);
        let calls = 24 + self.chance.below(16);
        for _ in 0..calls {
            let which = self.chance.below(100);
            self.call(which, n)?;
        }
        Ok(())
    }

    /// Every call once, on a pool and a map of any lengths.
    pub fn lengths(&mut self, n: usize, words: usize, bytes: usize) -> Result<(), String> {
        watch::run_of_calls();
        for which in 0..100 {
            let mut made = pools::sound(&mut self.chance, n);
            made.pool.resize(words, n as u64);
            made.map.resize(bytes, 0);
            self.lend(made);
            self.frozen = which % 2 == 0;
            self.call(which, n)?;
        }
        Ok(())
    }

    fn call(&mut self, which: usize, n: usize) -> Result<(), String> {
        self.calls += 1;
        watch::call(self.calls);
        self.make_call(which, n)
            .and_then(|()| self.compare_memory())
            .map_err(|difference| format!("call {}, N = {n}: {difference}", self.calls))
    }

    fn make_pool(&mut self) -> Made {
        let chance = &mut self.chance;
        let n = pools::capacity(chance);
        let mut made = match chance.below(16) {
            0..=2 => pools::sound(chance, n),
            3..=5 => pools::cut(chance, n),
            6..=7 => pools::stale(chance, n),
            8..=11 => pools::damaged(chance, n),
            12..=14 => pools::tangle(chance, n),
            _ => pools::doubling(chance, n),
        };
        if chance.one_in(4) {
            pools::untrue(chance, &mut made.map);
        }
        if chance.one_in(16) {
            wrong_size(chance, &mut made);
        }
        made
    }

    /// Lends a copy to the library, flush with one of the fences; the model takes the pool itself.
    fn lend(&mut self, made: Made) {
        self.keys = made.keys;
        self.twin.pool = made.pool;
        self.twin.map = made.map;
        let side = self.side();
        self.lent.pool.lend(self.twin.pool.len(), side);
        self.lent.pool.run_mut().copy_from_slice(&self.twin.pool);
        let side = self.side();
        self.lent.map.lend(self.twin.map.len(), side);
        self.lent.map.run_mut().copy_from_slice(&self.twin.map);
    }

    fn side(&mut self) -> Side {
        self.chance.pick(&[Side::Front, Side::Back])
    }

    fn key(&mut self) -> u64 {
        pools::a_key(&mut self.chance, &self.keys)
    }

    /// Of a hundred, how many go to which call.
    fn make_call(&mut self, which: usize, n: usize) -> Result<(), String> {
        match which {
            0..=11 => self.lookup(),
            12..=17 => self.lookup_quick(),
            18..=29 => self.list(n),
            30..=49 => self.put(),
            50..=61 => self.delete(),
            62..=69 => self.plan_put(),
            70..=75 => self.plan_delete(),
            76..=79 => self.plan_open(),
            80..=85 => self.open(),
            86..=94 => self.step(),
            95..=98 => self.finish(),
            _ => self.format(n),
        }
    }

    fn format(&mut self, n: usize) -> Result<(), String> {
        let odd = [0, 1, 1024, 1025, n as u64 + 1, n as u64 - 1, u64::MAX, WRAPPING];
        let n = match self.chance.below(3) {
            0 => self.chance.pick(&odd),
            _ => n as u64,
        };
        let (pool, map) = (self.lent.pool.run_mut(), self.lent.map.run_mut());
        let ours = Library.format(pool, map, n);
        let theirs = Model.format(&mut self.twin.pool, &mut self.twin.map, n);
        self.compare("format", ours, 0, &ours, &theirs, n)
    }

    fn open(&mut self) -> Result<(), String> {
        let (pool, map) = (self.lent.pool.run_mut(), self.lent.map.run_mut());
        let ours = Library.open(pool, map);
        let theirs = Model.open(&mut self.twin.pool, &mut self.twin.map);
        self.compare("open", ours.number, ours.headers.min(2), &ours, &theirs, ())
    }

    fn lookup(&mut self) -> Result<(), String> {
        let key = self.key();
        let ours = self.read(|pool, _| Library.lookup(pool, key));
        let theirs = Model.lookup(&self.twin.pool, key);
        self.compare("lookup", ours.number, ours.nodes, &ours, &theirs, key)
    }

    fn lookup_quick(&mut self) -> Result<(), String> {
        let key = self.key();
        let ours = self.read(|pool, _| Library.lookup_quick(pool, key));
        let theirs = Model.lookup_quick(&self.twin.pool, key);
        let plain = Model.lookup(&self.twin.pool, key);
        *self.tally.entry((BESIDE, ours.number, plain.number)).or_default() += 1;
        self.compare("lookup_quick", ours.number, ours.nodes, &ours, &theirs, key)
    }

    fn list(&mut self, n: usize) -> Result<(), String> {
        let length = self.chance.below(n + 3);
        let other = match self.chance.below(8) {
            0 => self.chance.below(n + 3),
            _ => length,
        };
        let from = match self.chance.below(3) {
            0 => 0,
            1 => self.key(),
            _ => self.key().wrapping_add(1),
        };
        self.lend_buffers(length, other);
        let Lent { pool, keys, values, .. } = &mut self.lent;
        let ours = match self.frozen {
            true => pool.read_only(|pool| Library.list(pool, from, keys.run_mut(), values.run_mut())),
            false => Library.list(pool.run(), from, keys.run_mut(), values.run_mut()),
        };
        let twin = &mut self.twin;
        let theirs = Model.list(&twin.pool, from, &mut twin.keys, &mut twin.values);
        self.compare("list", ours.number, ours.more, &ours, &theirs, (from, length, other))?;
        self.compare_buffers()
    }

    /// Buffers with old contents, the same on both sides.
    fn lend_buffers(&mut self, keys: usize, values: usize) {
        let old = self.chance.word();
        let side = self.side();
        self.lent.keys.lend(keys, side);
        self.lent.keys.run_mut().fill(old);
        self.lent.values.lend(values, side);
        self.lent.values.run_mut().fill(!old);
        self.twin.keys.clear();
        self.twin.keys.resize(keys, old);
        self.twin.values.clear();
        self.twin.values.resize(values, !old);
    }

    /// A file number, now and then the 0 of a retired name.
    fn value(&mut self) -> u64 {
        match self.chance.below(8) {
            0 => 0,
            _ => self.chance.word(),
        }
    }

    fn put(&mut self) -> Result<(), String> {
        let (key, value) = (self.key(), self.value());
        let (pool, map) = (self.lent.pool.run_mut(), self.lent.map.run_mut());
        let ours = Library.put(pool, map, key, value);
        let theirs = Model.put(&mut self.twin.pool, &mut self.twin.map, key, value);
        self.compare("put", ours.number, ours.stores, &ours, &theirs, (key, value))
    }

    fn delete(&mut self) -> Result<(), String> {
        let key = self.key();
        let (pool, map) = (self.lent.pool.run_mut(), self.lent.map.run_mut());
        let ours = Library.delete(pool, map, key);
        let theirs = Model.delete(&mut self.twin.pool, &mut self.twin.map, key);
        self.compare("delete", ours.number, ours.stores, &ours, &theirs, key)
    }

    /// A platform generation, now and then one that there is not.
    fn generation(&mut self) -> u64 {
        match self.chance.below(6) {
            0 => self.chance.pick(&[0, 3, 1 << 32 | ADR, 1 << 32 | EADR, u64::MAX]),
            _ => self.chance.pick(&[ADR, EADR]),
        }
    }

    fn plan_put(&mut self) -> Result<(), String> {
        let (key, value, generation) = (self.key(), self.value(), self.generation());
        let ours = self.read(|pool, map| Library.plan_put(pool, map, key, value, generation));
        let model = |twin: &Twin, generation| Model.plan_put(&twin.pool, &twin.map, key, value, generation);
        self.compare_plans("plan_put", &ours, model, generation, (key, value))
    }

    fn plan_delete(&mut self) -> Result<(), String> {
        let (key, generation) = (self.key(), self.generation());
        let ours = self.read(|pool, _| Library.plan_delete(pool, key, generation));
        let model = |twin: &Twin, generation| Model.plan_delete(&twin.pool, key, generation);
        self.compare_plans("plan_delete", &ours, model, generation, key)
    }

    fn plan_open(&mut self) -> Result<(), String> {
        let generation = self.generation();
        let ours = self.read(|pool, _| Library.plan_open(pool, generation));
        let model = |twin: &Twin, generation| Model.plan_open(&twin.pool, generation);
        self.compare_plans("plan_open", &ours, model, generation, ())
    }

    /// Beside the model's plan for the same generation. Where there is no such generation, what ADR would have given is noted.
    fn compare_plans(
        &mut self,
        call: &'static str,
        ours: &Planned,
        model: impl Fn(&Twin, u64) -> Planned,
        generation: u64,
        asked: impl Debug,
    ) -> Result<(), String> {
        let theirs = model(&self.twin, generation);
        self.keep(&theirs.plan);
        let noted = match generation {
            ADR => (FENCES_ADR, ours.number, ours.plan[PLAN_FENCES]),
            EADR => (FENCES_EADR, ours.number, ours.plan[PLAN_FENCES]),
            _ => (NO_GENERATION, ours.number, model(&self.twin, ADR).number),
        };
        *self.tally.entry(noted).or_default() += 1;
        let stores = ours.plan[PLAN_COUNT];
        self.compare(call, ours.number, stores, ours, &theirs, (asked, generation))
    }

    /// The plan last made, its next step most of the time.
    fn step(&mut self) -> Result<(), String> {
        let plan = self.some_plan();
        let at = match self.chance.below(8) {
            0 => self.chance.word(),
            1 => self.chance.word() % 24,
            _ => self.at,
        };
        self.at = at.wrapping_add(1);
        let Lent { pool, plan: lent, .. } = &mut self.lent;
        let ours = Library.step(pool.run_mut(), lend_plan(lent, &plan), at);
        let theirs = Model.step(&mut self.twin.pool, &plan, at);
        self.compare("step", ours, 0, &ours, &theirs, (plan, at))
    }

    fn finish(&mut self) -> Result<(), String> {
        let plan = self.some_plan();
        let Lent { map, plan: lent, .. } = &mut self.lent;
        let ours = Library.finish(map.run_mut(), lend_plan(lent, &plan));
        let theirs = Model.finish(&mut self.twin.map, &plan);
        self.compare("finish", ours, plan[PLAN_EFFECT].min(5), &ours, &theirs, plan)
    }

    /// A plan that does nothing is not worth keeping.
    fn keep(&mut self, plan: &Plan) {
        if plan[PLAN_COUNT] > 0 {
            self.plan = *plan;
            self.at = 0;
        }
    }

    /// The plan last made, or one that no planning call gives; now and then with garbage where neither a step nor a finish looks.
    fn some_plan(&mut self) -> Plan {
        let mut plan = self.plan;
        let (words, bytes) = (self.twin.pool.len() as u64, self.twin.map.len() as u64);
        let chance = &mut self.chance;
        if chance.one_in(2) {
            fill_unread(chance, &mut plan);
        }
        match chance.below(12) {
            0 => plan[PLAN_COUNT] = chance.pick(&[0, 20, 21, 22, 23, 24, u64::MAX, 1 << 32]),
            1 => {
                let at = chance.below(PLAN_ROOM);
                let edges = [0, 1, words, words - words.min(1), words + 1, u64::MAX, 1 << 61, 1 << 32];
                plan[PLAN_PLACES + at] = chance.pick(&edges);
            }
            2 => plan.iter_mut().for_each(|word| *word = chance.word() % 64),
            3 | 4 => {
                plan[PLAN_EFFECT] = chance.pick(&[0, 1, 2, 3, 4, 5, 6, u64::MAX, 1 << 32 | 1]);
                let edges = [0, bytes, bytes - bytes.min(1), bytes + 1, u64::MAX, 1 << 32];
                plan[PLAN_LEAF] = chance.pick(&edges);
                plan[PLAN_NODE] = chance.pick(&edges);
            }
            _ => {}
        }
        plan
    }

    /// A call that may only read.
    fn read<A>(&self, call: impl FnOnce(&[u64], &[u8]) -> A) -> A {
        let Lent { pool, map, .. } = &self.lent;
        match self.frozen {
            true => pool.read_only(|pool| map.read_only(|map| call(pool, map))),
            false => call(pool.run(), map.run()),
        }
    }

    fn compare<A: PartialEq + Debug>(
        &mut self,
        call: &'static str,
        number: u64,
        counted: u64,
        ours: &A,
        theirs: &A,
        asked: impl Debug,
    ) -> Result<(), String> {
        *self.tally.entry((call, number, counted)).or_default() += 1;
        match ours == theirs {
            true => Ok(()),
            false => Err(format!("{call} {asked:?}: the library answers {ours:?}, the model {theirs:?}")),
        }
    }

    fn compare_memory(&mut self) -> Result<(), String> {
        self.lent.pool.check();
        self.lent.map.check();
        same("pool word", self.lent.pool.run(), &self.twin.pool)?;
        same("map byte", self.lent.map.run(), &self.twin.map)
    }

    fn compare_buffers(&mut self) -> Result<(), String> {
        self.lent.keys.check();
        self.lent.values.check();
        same("listed key", self.lent.keys.run(), &self.twin.keys)?;
        same("listed value", self.lent.values.run(), &self.twin.values)
    }
}

impl Drop for Differ {
    fn drop(&mut self) {
        watch::end();
    }
}

/// A copy of the plan, flush with the fence behind it.
fn lend_plan<'a>(lent: &'a mut Fenced<u64>, plan: &Plan) -> &'a Plan {
    lent.lend(PLAN_WORDS, Side::Back);
    lent.run_mut().copy_from_slice(plan);
    lent.run().try_into().expect("a run of a plan's length")
}

/// Garbage in the words of a plan that say nothing to a step or a finish: its groups, its fences, and all its unused places.
fn fill_unread(chance: &mut Chance, plan: &mut Plan) {
    let count = plan[PLAN_COUNT] as usize;
    let behind = (count..PLAN_ROOM).flat_map(|at| [PLAN_PLACES + at, PLAN_VALUES + at]);
    for place in [PLAN_FIRST, PLAN_FENCES, PLAN_SPARE].into_iter().chain(behind) {
        plan[place] = match chance.below(4) {
            0 => chance.word() % 32,
            1 => u64::MAX,
            _ => chance.word(),
        };
    }
}

fn same<T: PartialEq + Debug>(what: &str, ours: &[T], theirs: &[T]) -> Result<(), String> {
    if ours == theirs {
        return Ok(());
    }
    let at = ours.iter().zip(theirs).position(|(one, other)| one != other);
    let at = at.unwrap_or(ours.len().min(theirs.len()));
    Err(format!("{what} {at}: the library leaves {:?}, the model {:?}", ours.get(at), theirs.get(at)))
}

/// 19 times this number less 15 is 5 in 64 bits.
const WRAPPING: u64 = 9_708_812_670_373_448_220;

/// Word 0, the pool's length or the map's length off the rule.
fn wrong_size(chance: &mut Chance, made: &mut Made) {
    let (words, bytes, n) = (made.pool.len(), made.map.len(), made.n as u64);
    match chance.below(7) {
        0 => made.pool[0] = chance.pick(&[0, n - 1, n + 1, 1024, 1025, u64::MAX, n | 1 << 32, WRAPPING]),
        1 => {
            made.pool.resize(5, 0);
            made.pool[0] = WRAPPING;
        }
        2 => made.pool.resize(words + 1 + chance.below(20), n),
        3 => made.pool.truncate(chance.pick(&[0, 1, 2, words - 1])),
        4 => made.map.resize(bytes + 1 + chance.below(3), 0),
        5 => one_too_large(made),
        _ => made.map.truncate(chance.pick(&[0, bytes - 1, bytes / 2])),
    }
}

/// Every length agrees with N = 1025, which no pool may have.
fn one_too_large(made: &mut Made) {
    let n = MOST_LEAVES as usize + 1;
    made.n = n;
    made.pool.resize(pool_words(n), 0);
    made.pool[0] = n as u64;
    made.map.resize(map_bytes(n), 0);
}

/// Every number that each call can give: a run that has not met one of them has not tried the rules.
pub const NUMBERS: [(&str, &[u64]); 12] = [
    ("format", &[DONE, SIZE]),
    ("open", &[DONE, SIZE, DAMAGE]),
    ("lookup", &[DONE, SIZE, DAMAGE, ABSENT]),
    ("lookup_quick", &[DONE, SIZE, DAMAGE, ABSENT]),
    ("list", &[DONE, SIZE, DAMAGE, BUFFERS]),
    ("put", &[DONE, SIZE, DAMAGE, NO_ROOM, RETIRED]),
    ("delete", &[DONE, SIZE, DAMAGE, ABSENT]),
    ("plan_put", &[DONE, SIZE, DAMAGE, NO_ROOM, RETIRED]),
    ("plan_delete", &[DONE, SIZE, DAMAGE, ABSENT]),
    ("plan_open", &[DONE, SIZE, DAMAGE]),
    ("step", &[DONE, NO_STEP]),
    ("finish", &[DONE, NO_STEP]),
];

/// How often a call gave a number.
pub fn times(tally: &Tally, call: &str, number: u64) -> u64 {
    let met = tally.iter().filter(|((name, gave, _), _)| *name == call && *gave == number);
    met.map(|(_, count)| count).sum()
}

/// The quick lookup's number, beside that of a plain one of the same key.
pub const BESIDE: &str = "lookup_quick beside lookup";

/// On pools that are not sound the quick lookup may miss what the plain one finds, or where it meets damage.
pub const MISSED: [u64; 2] = [DONE, DAMAGE];

/// The fences of plans on ADR, and on eADR.
pub const FENCES_ADR: &str = "fences on ADR";
pub const FENCES_EADR: &str = "fences on eADR";

/// The number of a planning call for a generation that there is not, beside the one for ADR.
pub const NO_GENERATION: &str = "no generation beside ADR";

/// No number comes before that of a wrong generation.
pub const OUTRANKED: [u64; 6] = [DONE, SIZE, DAMAGE, ABSENT, NO_ROOM, RETIRED];

/// What the calls that end well count: put's and delete's stores, a lookup's nodes, open's headers (2 for more), listing's
/// further entry, finish's effect, a plan's fences.
pub const COUNTS: [(&str, &[u64]); 12] = [
    ("put", &[1, 3, 20, 21]),
    ("delete", &[1, 2]),
    ("plan_put", &[1, 3, 20, 21]),
    ("plan_delete", &[1, 2]),
    ("plan_open", &[0, 1]),
    ("open", &[0, 1, 2]),
    ("lookup", &[0, 1, 2, 3, 4, 5, 6, 7, 8, 9, 10, 11, 12, 13, 14, 15, 16]),
    ("lookup_quick", &[0, 1, 2, 3, 4, 5, 6, 7, 8, 9, 10, 11, 12, 13, 14, 15, 16]),
    ("list", &[0, 1]),
    ("finish", &[0, 1, 2, 3, 4]),
    (FENCES_ADR, &[0, 1, 2]),
    (FENCES_EADR, &[0]),
];
