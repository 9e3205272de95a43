//! What the calls of include/wort.h answer, for the library and the model alike.

/// Done.
pub const DONE: u64 = 0;
/// N, word 0, pool length or map length wrong; or a generation that is none.
pub const SIZE: u64 = 1;
/// Damage met.
pub const DAMAGE: u64 = 2;
/// Key absent.
pub const ABSENT: u64 = 3;
/// No free leaf, or a node needed and none free.
pub const NO_ROOM: u64 = 4;
/// A step or a finish that names nothing it could change.
pub const NO_STEP: u64 = 5;
/// Listing buffers of length 0 or of unequal length.
pub const BUFFERS: u64 = 6;
/// A put of file number 0: reserved names are retired.
pub const RETIRED: u64 = 7;

/// The platform generations. On ADR the stores between two fences may arrive in any order.
pub const ADR: u64 = 1;
/// On eADR stores arrive in their order.
pub const EADR: u64 = 2;

/// A pool's capacity is 1 to this many leaves.
pub const MOST_LEAVES: u64 = 1024;
/// A plan holds at most this many stores.
pub const MOST_STORES: usize = 21;

/// The words of a plan, by their places in it. First the count.
pub const PLAN_COUNT: usize = 0;
/// The stores of the first group: the count if there is one group, 0 if there is none.
pub const PLAN_FIRST: usize = 1;
/// The fences: on ADR one for each group, on eADR 0.
pub const PLAN_FENCES: usize = 2;
pub const PLAN_EFFECT: usize = 3;
/// The effect's data: the leaf's map byte, the node's map byte, and a word that no effect uses.
pub const PLAN_LEAF: usize = 4;
pub const PLAN_NODE: usize = 5;
pub const PLAN_SPARE: usize = 6;
/// The first of the plan's word numbers.
pub const PLAN_PLACES: usize = 7;
/// There are places for so many stores, more than a plan holds.
pub const PLAN_ROOM: usize = 23;
/// The first of the plan's values.
pub const PLAN_VALUES: usize = PLAN_PLACES + PLAN_ROOM;
pub const PLAN_WORDS: usize = PLAN_VALUES + PLAN_ROOM;

pub type Plan = [u64; PLAN_WORDS];

/// The plan that does nothing; a refusal's plan too.
pub const NO_PLAN: Plan = [0; PLAN_WORDS];

/// A word number and the value that it takes.
pub type Store = (usize, u64);

/// A plan of these stores, of which so many are the first group, and of no effect on a map.
pub fn plan_of(stores: &[Store], first: usize) -> Plan {
    let mut plan = NO_PLAN;
    plan[PLAN_COUNT] = stores.len() as u64;
    plan[PLAN_FIRST] = first as u64;
    for (at, (place, value)) in stores.iter().enumerate() {
        plan[PLAN_PLACES + at] = *place as u64;
        plan[PLAN_VALUES + at] = *value;
    }
    plan
}

pub fn store_of(plan: &Plan, at: usize) -> Store {
    (plan[PLAN_PLACES + at] as usize, plan[PLAN_VALUES + at])
}

/// The stores of a plan, in their order.
pub fn stores_of(plan: &Plan) -> Vec<Store> {
    (0..plan[PLAN_COUNT] as usize).map(|at| store_of(plan, at)).collect()
}

/// The words of a pool of capacity `n`.
pub const fn pool_words(n: usize) -> usize {
    19 * n - 15
}

/// The bytes of its map.
pub const fn map_bytes(n: usize) -> usize {
    2 * n - 1
}

#[derive(Clone, Copy, Debug, PartialEq, Eq)]
pub struct Opened {
    pub number: u64,
    pub keys: u64,
    pub headers: u64,
}

#[derive(Clone, Copy, Debug, PartialEq, Eq)]
pub struct Found {
    pub number: u64,
    pub value: u64,
    pub nodes: u64,
}

#[derive(Clone, Copy, Debug, PartialEq, Eq)]
pub struct Listed {
    pub number: u64,
    pub count: u64,
    pub more: u64,
}

/// A put's or delete's number and the stores it made.
#[derive(Clone, Copy, Debug, PartialEq, Eq)]
pub struct Made {
    pub number: u64,
    pub stores: u64,
}

#[derive(Clone, Copy, Debug, PartialEq, Eq)]
pub struct Planned {
    pub number: u64,
    pub plan: Plan,
}

/// Every call of include/wort.h. The library and the model both make them.
pub trait Calls {
    fn format(&self, pool: &mut [u64], map: &mut [u8], n: u64) -> u64;
    fn open(&self, pool: &mut [u64], map: &mut [u8]) -> Opened;
    fn lookup(&self, pool: &[u64], key: u64) -> Found;
    fn lookup_quick(&self, pool: &[u64], key: u64) -> Found;
    fn list(&self, pool: &[u64], from: u64, keys: &mut [u64], values: &mut [u64]) -> Listed;
    fn put(&self, pool: &mut [u64], map: &mut [u8], key: u64, value: u64) -> Made;
    fn delete(&self, pool: &mut [u64], map: &mut [u8], key: u64) -> Made;
    fn plan_put(&self, pool: &[u64], map: &[u8], key: u64, value: u64, generation: u64) -> Planned;
    fn plan_delete(&self, pool: &[u64], key: u64, generation: u64) -> Planned;
    fn plan_open(&self, pool: &[u64], generation: u64) -> Planned;
    fn step(&self, pool: &mut [u64], plan: &Plan, at: u64) -> u64;
    fn finish(&self, map: &mut [u8], plan: &Plan) -> u64;
}
