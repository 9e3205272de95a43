//! What a cut leaves of a plan's stores. 02 (ii): "Between two fences the processor may let any store reach memory first." "A cut
//! leaves all earlier groups and any subset of the current one."

use crate::answers::*;
use crate::chance::Chance;
use std::fmt;
use std::ops::Range;

/// A group of at most so many stores that change memory is cut in every subset of them, a larger one in some.
const EVERY: usize = 12;

/// Which of a plan's stores have reached memory: a bit for each.
#[derive(Clone, Copy, PartialEq, Eq, PartialOrd, Ord)]
pub struct Arrived(u32);

impl Arrived {
    pub fn has(self, at: usize) -> bool {
        self.0 >> at & 1 == 1
    }

    pub fn of(stores: impl IntoIterator<Item = usize>) -> Self {
        Arrived(stores.into_iter().fold(0, |arrived, at| arrived | 1 << at))
    }

    fn with(self, other: Arrived) -> Self {
        Arrived(self.0 | other.0)
    }

    fn without(self, at: usize) -> Self {
        Arrived(self.0 & !(1 << at))
    }
}

/// The numbers of the stores, from 1 on.
impl fmt::Debug for Arrived {
    fn fmt(&self, out: &mut fmt::Formatter) -> fmt::Result {
        out.debug_set().entries((0..PLAN_ROOM).filter(|at| self.has(*at)).map(|at| at + 1)).finish()
    }
}

/// The memory that some stores of a plan leave.
pub fn left(pool: &[u64], plan: &Plan, arrived: Arrived) -> Vec<u64> {
    let mut left = pool.to_vec();
    for at in (0..plan[PLAN_COUNT] as usize).filter(|at| arrived.has(*at)) {
        let (place, value) = store_of(plan, at);
        left[place] = value;
    }
    left
}

/// The two groups, by the numbers of their stores; the second may be empty.
pub fn groups(plan: &Plan) -> [Range<usize>; 2] {
    let (first, count) = (plan[PLAN_FIRST] as usize, plan[PLAN_COUNT] as usize);
    [0..first, first..count]
}

pub fn all(plan: &Plan) -> Arrived {
    Arrived::of(0..plan[PLAN_COUNT] as usize)
}

/// What a cut of the plan can leave on a pool, each memory once: for each group every subset, or some if it is large. A store of what
/// memory holds already is taken as arrived: with it or without, the memory is the same.
pub fn cuts(pool: &[u64], plan: &Plan, chance: &mut Chance) -> Vec<Arrived> {
    let mut cuts = Vec::new();
    for group in groups(plan) {
        let earlier = Arrived::of(0..group.start);
        let memory = left(pool, plan, earlier);
        let changes = |(place, value): Store| memory[place] != value;
        let (changing, same): (Vec<usize>, Vec<usize>) = group.partition(|at| changes(store_of(plan, *at)));
        let base = earlier.with(Arrived::of(same));
        let subsets = match changing.len() <= EVERY {
            true => all_subsets(&changing),
            false => some_subsets(&changing, chance),
        };
        cuts.extend(subsets.into_iter().map(|subset| base.with(subset)));
    }
    cuts.sort_unstable();
    cuts.dedup();
    cuts
}

fn all_subsets(stores: &[usize]) -> Vec<Arrived> {
    let chosen = |subset: usize| stores.iter().enumerate().filter(move |(i, _)| subset >> i & 1 == 1);
    (0..1 << stores.len()).map(|subset| Arrived::of(chosen(subset).map(|(_, at)| *at))).collect()
}

/// None and all, each alone, all but each, the first of them in their order, and as many by chance as there are stores.
fn some_subsets(stores: &[usize], chance: &mut Chance) -> Vec<Arrived> {
    let all = Arrived::of(stores.iter().copied());
    let mut some = vec![all];
    for (i, at) in stores.iter().enumerate() {
        some.push(Arrived::of([*at]));
        some.push(all.without(*at));
        some.push(Arrived::of(stores[..i].iter().copied()));
        some.push(subset(stores, chance));
    }
    some
}

fn subset(stores: &[usize], chance: &mut Chance) -> Arrived {
    Arrived::of(stores.iter().copied().filter(|_| chance.one_in(2)))
}

/// Some cut of a plan.
pub fn a_cut(plan: &Plan, chance: &mut Chance) -> Arrived {
    let current = chance.pick(&[0, 1]);
    let group = groups(plan)[current].clone();
    let stores: Vec<usize> = group.clone().collect();
    Arrived::of(0..group.start).with(subset(&stores, chance))
}

/// Makes the stores that arrive by single steps, those of a group in any order. False if a step is refused.
pub fn arrive(calls: &impl Calls, pool: &mut [u64], plan: &Plan, arrived: Arrived, chance: &mut Chance) -> bool {
    groups(plan).into_iter().all(|group| {
        let mut order: Vec<usize> = group.filter(|at| arrived.has(*at)).collect();
        chance.shuffle(&mut order);
        order.into_iter().all(|at| calls.step(pool, plan, at as u64) == DONE)
    })
}
