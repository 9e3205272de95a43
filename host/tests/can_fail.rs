//! The tests of cuts can fail: with a fence left out they find what the fence is there for. The library's own plans are tried, with their
//! groups joined on purpose.

use wort_host::answers::*;
use wort_host::chance::Chance;
use wort_host::crash::Crash;
use wort_host::cuts::{all, cuts, groups, left, Arrived};
use wort_host::exhaust::{search, Bounds, KEY_SETS};
use wort_host::table::listed_not_openable;
use wort_host::{pools, Library};

/// Many times the tries that any of these takes.
const MOST_TRIES: u64 = 1000;

/// The library without the fence between the two groups of a plan of so many stores: 3, 20 and 21 are a put's, 2 a delete's.
#[derive(Clone, Copy, Debug)]
struct Unfenced(u64);

impl Unfenced {
    fn joined(self, mut planned: Planned) -> Planned {
        if planned.plan[PLAN_COUNT] == self.0 {
            planned.plan[PLAN_FIRST] = self.0;
        }
        planned
    }
}

impl Calls for Unfenced {
    fn plan_put(&self, pool: &[u64], map: &[u8], key: u64, value: u64, generation: u64) -> Planned {
        self.joined(Library.plan_put(pool, map, key, value, generation))
    }

    fn plan_delete(&self, pool: &[u64], key: u64, generation: u64) -> Planned {
        self.joined(Library.plan_delete(pool, key, generation))
    }

    fn format(&self, pool: &mut [u64], map: &mut [u8], n: u64) -> u64 {
        Library.format(pool, map, n)
    }

    fn open(&self, pool: &mut [u64], map: &mut [u8]) -> Opened {
        Library.open(pool, map)
    }

    fn lookup(&self, pool: &[u64], key: u64) -> Found {
        Library.lookup(pool, key)
    }
    fn lookup_quick(&self, pool: &[u64], key: u64) -> Found {
        Library.lookup_quick(pool, key)
    }

    fn list(&self, pool: &[u64], from: u64, keys: &mut [u64], values: &mut [u64]) -> Listed {
        Library.list(pool, from, keys, values)
    }

    fn put(&self, pool: &mut [u64], map: &mut [u8], key: u64, value: u64) -> Made {
        Library.put(pool, map, key, value)
    }

    fn delete(&self, pool: &mut [u64], map: &mut [u8], key: u64) -> Made {
        Library.delete(pool, map, key)
    }

    fn plan_open(&self, pool: &[u64], generation: u64) -> Planned {
        Library.plan_open(pool, generation)
    }

    fn step(&self, pool: &mut [u64], plan: &Plan, at: u64) -> u64 {
        Library.step(pool, plan, at)
    }

    fn finish(&self, map: &mut [u8], plan: &Plan) -> u64 {
        Library.finish(map, plan)
    }
}

/// What the crash runs find on pools of four places.
fn crash_finds(calls: Unfenced) -> String {
    let mut crash = Crash::new(&calls, 1, 4);
    let found = (1..=MOST_TRIES).find_map(|i| crash.operation().err().map(|what| format!("operation {i}: {what}")));
    found.unwrap_or_else(|| panic!("{calls:?} is not found by a crash run"))
}

/// What the exhaustive search finds on pools of three places.
fn search_finds(calls: Unfenced) -> String {
    let (_, keys) = KEY_SETS[1];
    let bounds = Bounds { n: 3, keys, values: &[1], free: Some(0), most: usize::MAX };
    search(&calls, &bounds).expect_err("a search that finds the missing fence")
}

/// Both find a lookup that answers otherwise, in an operation of the kind.
fn is_found(calls: Unfenced, kind: &str) {
    for found in [crash_finds(calls), search_finds(calls)] {
        println!("{calls:?}: {found}");
        assert!(found.contains(kind) && found.contains("lookup"), "{calls:?}: {found}");
    }
}

#[test]
fn a_put_in_one_group_is_found() {
    for stores in [3, 20, 21] {
        is_found(Unfenced(stores), "Put");
    }
}

#[test]
fn a_delete_in_one_group_is_found() {
    is_found(Unfenced(2), "Delete");
}

/// A delete that is finished, and the put after it, of which a cut leaves some stores. With a fence behind the delete its last group is in
/// memory before the put begins; without, that group and the put's first are one. A name that is then listed and cannot be opened.
fn delete_then_put(chance: &mut Chance, fenced: bool) -> Option<u64> {
    let made = pools::sound(chance, 4);
    let (pool, mut map) = (made.pool, made.map);
    let delete = Library.plan_delete(&pool, chance.pick(&made.keys), ADR).plan;
    let deleted = left(&pool, &delete, all(&delete));
    assert_eq!(Library.finish(&mut map, &delete), DONE);
    let put = Library.plan_put(&deleted, &map, chance.pick(&made.keys), 1, ADR).plan;
    let (memory, plan) = match fenced {
        true => (deleted, put),
        false => run_together(&pool, &delete, &put),
    };
    cuts(&memory, &plan, chance)
        .into_iter()
        .find_map(|arrived| listed_not_openable(&Library, &left(&memory, &plan, arrived)))
}

/// The memory before the last group of a plan, and that group with the next plan's first as one.
fn run_together(pool: &[u64], plan: &Plan, next: &Plan) -> (Vec<u64>, Plan) {
    let last = groups(plan).into_iter().rev().find(|group| !group.is_empty()).unwrap_or(0..0);
    let memory = left(pool, plan, Arrived::of(0..last.start));
    let late = &stores_of(plan)[last];
    let first = late.len() + next[PLAN_FIRST] as usize;
    (memory, plan_of(&[late, &stores_of(next)].concat(), first))
}

#[test]
fn a_delete_not_complete_before_the_next_put_is_found() {
    let tried = |fenced| (1..=MOST_TRIES).find_map(|i| Some((i, delete_then_put(&mut Chance::new(i), fenced)?)));
    assert_eq!(tried(true), None, "with the fence there is none");
    let (i, name) = tried(false).expect("a name that is listed and cannot be opened");
    println!("try {i}: {name:016x} is listed and cannot be opened");
}
