//! A write-back cache in front of a pool. 02 (v): "Newer machines (eADR) let stores arrive in list order; older ones (ADR) follow (ii)."
//!
//! The processor sees each store at once. On ADR memory holds what was stored before the last fence, and of the stores since then any
//! subset, those to one word in their order. On eADR the cache outlives a cut: a store is in memory when it is made.

use crate::answers::*;
use crate::chance::Chance;
use std::collections::BTreeMap;

/// So many memories at most are all tried; of more, some.
const EVERY: usize = 64;

pub struct Cached {
    generation: u64,
    seen: Vec<u64>,
    /// What has arrived for certain.
    memory: Vec<u64>,
    /// The stores since the last fence: for each word its values in their order.
    waiting: BTreeMap<usize, Vec<u64>>,
    /// The fences so far.
    pub fences: u64,
}

impl Cached {
    /// All of the pool is in memory.
    pub fn new(generation: u64, pool: Vec<u64>) -> Self {
        Cached { generation, memory: pool.clone(), seen: pool, waiting: BTreeMap::new(), fences: 0 }
    }

    /// The pool as the processor reads it.
    pub fn seen(&self) -> &[u64] {
        &self.seen
    }

    /// Whether every store has arrived.
    pub fn arrived(&self) -> bool {
        self.waiting.is_empty()
    }

    /// A call that may store to the pool. A store of what a word holds already makes no other memory and is not noted.
    pub fn call<A>(&mut self, call: impl FnOnce(&mut [u64]) -> A) -> A {
        let before = self.seen.clone();
        let answer = call(&mut self.seen);
        for (place, value) in self.seen.iter().enumerate().filter(|(place, value)| before[*place] != **value) {
            self.waiting.entry(place).or_default().push(*value);
        }
        if self.generation == EADR {
            self.all_arrive();
        }
        answer
    }

    /// The caller's fence, behind flushes of all that it stored.
    pub fn fence(&mut self) {
        self.fences += 1;
        self.all_arrive();
    }

    fn all_arrive(&mut self) {
        self.memory.copy_from_slice(&self.seen);
        self.waiting.clear();
    }

    /// What a cut may leave now: every such memory if they are few. Else with none and all of the words that wait, each alone, all but
    /// each, and as many by chance.
    pub fn cuts(&self, chance: &mut Chance) -> Vec<Vec<u64>> {
        let choices = self.waiting.values().fold(1, |all: usize, values| all.saturating_mul(values.len() + 1));
        if choices <= EVERY {
            return (0..choices).map(|choice| self.chosen(choice)).collect();
        }
        let mut cuts = vec![self.memory.clone(), self.seen.clone()];
        for at in 0..self.waiting.len() {
            cuts.push(self.left(|word, values| if word == at { values } else { 0 }));
            cuts.push(self.left(|word, values| if word == at { 0 } else { values }));
            cuts.push(self.a_cut(chance));
        }
        cuts
    }

    /// One of them, by chance.
    pub fn a_cut(&self, chance: &mut Chance) -> Vec<u64> {
        self.left(|_, values| chance.below(values + 1))
    }

    /// One of them, by its number.
    fn chosen(&self, mut choice: usize) -> Vec<u64> {
        self.left(|_, values| {
            let stores = choice % (values + 1);
            choice /= values + 1;
            stores
        })
    }

    /// The memory when of the stores to each word that waits so many have arrived; the words are numbered in their order.
    fn left(&self, mut arrived: impl FnMut(usize, usize) -> usize) -> Vec<u64> {
        let mut left = self.memory.clone();
        for (word, (place, values)) in self.waiting.iter().enumerate() {
            let stores = arrived(word, values.len());
            if stores > 0 {
                left[*place] = values[stores - 1];
            }
        }
        left
    }
}
