//! Safe calls over the C interface.
//!
//! Every answer field is lent with a canary on both sides and filled beforehand with a value no answer has,
//! so a field left unwritten or a write beside it is seen.

use crate::answers::{Calls, Found, Listed, Made, Opened, Plan, Planned, PLAN_WORDS};

mod c {
    extern "C" {
        pub fn wort_format(pool: *mut u64, words: usize, map: *mut u8, bytes: usize, n: u64) -> u64;
        pub fn wort_open(
            pool: *mut u64,
            words: usize,
            map: *mut u8,
            bytes: usize,
            keys: *mut u64,
            headers: *mut u64,
        ) -> u64;
        pub fn wort_lookup(pool: *const u64, words: usize, key: u64, value: *mut u64, nodes: *mut u64) -> u64;
        pub fn wort_lookup_quick(pool: *const u64, words: usize, key: u64, value: *mut u64, nodes: *mut u64) -> u64;
        pub fn wort_list(
            pool: *const u64,
            words: usize,
            from: u64,
            keys: *mut u64,
            keys_len: usize,
            values: *mut u64,
            values_len: usize,
            count: *mut u64,
            more: *mut u64,
        ) -> u64;
        pub fn wort_put(
            pool: *mut u64,
            words: usize,
            map: *mut u8,
            bytes: usize,
            key: u64,
            value: u64,
            stores: *mut u64,
        ) -> u64;
        pub fn wort_delete(pool: *mut u64, words: usize, map: *mut u8, bytes: usize, key: u64, stores: *mut u64)
            -> u64;
        pub fn wort_plan_put(
            pool: *const u64,
            words: usize,
            map: *const u8,
            bytes: usize,
            key: u64,
            value: u64,
            generation: u64,
            plan: *mut u64,
        ) -> u64;
        pub fn wort_plan_delete(pool: *const u64, words: usize, key: u64, generation: u64, plan: *mut u64) -> u64;
        pub fn wort_plan_open(pool: *const u64, words: usize, generation: u64, plan: *mut u64) -> u64;
        pub fn wort_step(pool: *mut u64, words: usize, plan: *const u64, at: u64) -> u64;
        pub fn wort_finish(map: *mut u8, bytes: usize, plan: *const u64) -> u64;
    }
}

/// The library under test.
#[derive(Clone, Copy, Debug)]
pub struct Library;

/// No call answers this in any field.
const UNWRITTEN: u64 = 0xdead_beef_dead_beef;
const CANARY: u64 = 0x5ca1_ab1e_5ca1_ab1e;

/// A run of answer fields between two canaries.
#[repr(C)]
struct Fields<const LEN: usize> {
    before: u64,
    lent: [u64; LEN],
    after: u64,
}

impl<const LEN: usize> Fields<LEN> {
    fn new() -> Self {
        Fields { before: CANARY, lent: [UNWRITTEN; LEN], after: CANARY }
    }

    fn at(&mut self) -> *mut u64 {
        self.lent.as_mut_ptr()
    }

    fn read(&self) -> [u64; LEN] {
        assert_eq!(self.before, CANARY, "a write before an answer field");
        assert_eq!(self.after, CANARY, "a write behind an answer field");
        self.lent
    }
}

/// Lends room for a plan to a planning call.
fn planned(call: impl FnOnce(*mut u64) -> u64) -> Planned {
    let mut plan = Fields::<PLAN_WORDS>::new();
    let number = call(plan.at());
    Planned { number, plan: plan.read() }
}

impl Calls for Library {
    fn format(&self, pool: &mut [u64], map: &mut [u8], n: u64) -> u64 {
        // SAFETY: both runs are lent with their own lengths.
        unsafe { c::wort_format(pool.as_mut_ptr(), pool.len(), map.as_mut_ptr(), map.len(), n) }
    }

    fn open(&self, pool: &mut [u64], map: &mut [u8]) -> Opened {
        let (mut keys, mut headers) = (Fields::<1>::new(), Fields::<1>::new());
        // SAFETY: both runs are lent with their own lengths, the fields for one word each.
        let number = unsafe {
            c::wort_open(pool.as_mut_ptr(), pool.len(), map.as_mut_ptr(), map.len(), keys.at(), headers.at())
        };
        Opened { number, keys: keys.read()[0], headers: headers.read()[0] }
    }

    fn lookup(&self, pool: &[u64], key: u64) -> Found {
        let (mut value, mut nodes) = (Fields::<1>::new(), Fields::<1>::new());
        // SAFETY: the pool is lent with its own length, the fields for one word each.
        let number = unsafe { c::wort_lookup(pool.as_ptr(), pool.len(), key, value.at(), nodes.at()) };
        Found { number, value: value.read()[0], nodes: nodes.read()[0] }
    }

    fn lookup_quick(&self, pool: &[u64], key: u64) -> Found {
        let (mut value, mut nodes) = (Fields::<1>::new(), Fields::<1>::new());
        // SAFETY: the pool is lent with its own length, the fields for one word each.
        let number = unsafe { c::wort_lookup_quick(pool.as_ptr(), pool.len(), key, value.at(), nodes.at()) };
        Found { number, value: value.read()[0], nodes: nodes.read()[0] }
    }

    fn list(&self, pool: &[u64], from: u64, keys: &mut [u64], values: &mut [u64]) -> Listed {
        let (mut count, mut more) = (Fields::<1>::new(), Fields::<1>::new());
        // SAFETY: the three runs are lent with their own lengths, the fields for one word each.
        let number = unsafe {
            c::wort_list(
                pool.as_ptr(),
                pool.len(),
                from,
                keys.as_mut_ptr(),
                keys.len(),
                values.as_mut_ptr(),
                values.len(),
                count.at(),
                more.at(),
            )
        };
        Listed { number, count: count.read()[0], more: more.read()[0] }
    }

    fn put(&self, pool: &mut [u64], map: &mut [u8], key: u64, value: u64) -> Made {
        let mut stores = Fields::<1>::new();
        // SAFETY: both runs are lent with their own lengths, the field for one word.
        let number =
            unsafe { c::wort_put(pool.as_mut_ptr(), pool.len(), map.as_mut_ptr(), map.len(), key, value, stores.at()) };
        Made { number, stores: stores.read()[0] }
    }

    fn delete(&self, pool: &mut [u64], map: &mut [u8], key: u64) -> Made {
        let mut stores = Fields::<1>::new();
        // SAFETY: both runs are lent with their own lengths, the field for one word.
        let number =
            unsafe { c::wort_delete(pool.as_mut_ptr(), pool.len(), map.as_mut_ptr(), map.len(), key, stores.at()) };
        Made { number, stores: stores.read()[0] }
    }

    fn plan_put(&self, pool: &[u64], map: &[u8], key: u64, value: u64, generation: u64) -> Planned {
        // SAFETY: both runs are lent with their own lengths, the plan for all its words.
        planned(|plan| unsafe {
            c::wort_plan_put(pool.as_ptr(), pool.len(), map.as_ptr(), map.len(), key, value, generation, plan)
        })
    }

    fn plan_delete(&self, pool: &[u64], key: u64, generation: u64) -> Planned {
        // SAFETY: the pool is lent with its own length, the plan for all its words.
        planned(|plan| unsafe { c::wort_plan_delete(pool.as_ptr(), pool.len(), key, generation, plan) })
    }

    fn plan_open(&self, pool: &[u64], generation: u64) -> Planned {
        // SAFETY: the pool is lent with its own length, the plan for all its words.
        planned(|plan| unsafe { c::wort_plan_open(pool.as_ptr(), pool.len(), generation, plan) })
    }

    fn step(&self, pool: &mut [u64], plan: &Plan, at: u64) -> u64 {
        // SAFETY: the pool is lent with its own length, the plan holds all its words.
        unsafe { c::wort_step(pool.as_mut_ptr(), pool.len(), plan.as_ptr(), at) }
    }

    fn finish(&self, map: &mut [u8], plan: &Plan) -> u64 {
        // SAFETY: the map is lent with its own length, the plan holds all its words.
        unsafe { c::wort_finish(map.as_mut_ptr(), map.len(), plan.as_ptr()) }
    }
}
