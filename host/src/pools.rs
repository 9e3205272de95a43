//! Pools, maps and keys for the tests: sound, stale, damaged, and such as no operation ever left.

use crate::answers::*;
use crate::chance::Chance;
use crate::cuts::{a_cut, left};
use crate::model::{child_place, digit, header, header_place, survey, value_place, Model, FIRST_NODE};

const ROOT: usize = 1;

/// A pool with its map, and keys of the kind it was filled with.
pub struct Made {
    pub n: usize,
    pub pool: Vec<u64>,
    pub map: Vec<u8>,
    pub keys: Vec<u64>,
}

/// A small capacity most of the time: every rule shows at small N, and a call is quick there.
pub fn capacity(chance: &mut Chance) -> usize {
    match chance.below(100) {
        0..=54 => 1 + chance.below(4),
        55..=84 => 5 + chance.below(8),
        85..=95 => 13 + chance.below(28),
        96..=98 => 64 + chance.below(193),
        _ => 1024 - chance.below(2) * chance.below(24),
    }
}

/// Keys of one shape, so that they share digits in ways chance alone would not give.
pub fn keys(chance: &mut Chance, count: usize) -> Vec<u64> {
    let base = chance.word();
    let folders = [chance.word(), chance.word(), chance.word()];
    let shape = chance.below(6);
    (0..count)
        .map(|i| match shape {
            0 => base.wrapping_add(i as u64),
            1 => chance.word(),
            2 => chance.pick(&folders) & !0xffff_ffff | chance.word() & 0xffff_ffff,
            3 => with_digit(base, chance.below(16) as u64, chance.word()),
            4 => few_digits(chance, base),
            _ => chance.pick(&[0, 1, 15, 16, 1 << 63, u64::MAX, u64::MAX - 1, u64::MAX << 4, base]),
        })
        .collect()
}

/// The key with another digit at place `k`.
fn with_digit(key: u64, k: u64, digit: u64) -> u64 {
    let shift = 60 - 4 * k;
    key & !(15 << shift) | (digit & 15) << shift
}

/// Keys that part at three places alone: deep trees of full nodes, and many splits above nodes.
fn few_digits(chance: &mut Chance, base: u64) -> u64 {
    let mut key = base;
    for k in [2, 9, 15] {
        key = with_digit(key, k, chance.pick(&[0, 1, 7, 15]));
    }
    key
}

/// One of the keys, or one beside them.
pub fn a_key(chance: &mut Chance, keys: &[u64]) -> u64 {
    let key = chance.pick(keys);
    match chance.below(8) {
        0 => with_digit(key, chance.below(16) as u64, chance.word()),
        1 => chance.word(),
        _ => key,
    }
}

/// A pool filled by puts and deletes, over memory that held something before.
pub fn sound(chance: &mut Chance, n: usize) -> Made {
    let count = n + 1 + chance.below(4);
    let keys = keys(chance, count);
    let mut pool = vec![0; pool_words(n)];
    if chance.one_in(2) {
        pool.iter_mut().for_each(|word| *word = odd_word(chance, n));
    }
    let mut map = vec![7; map_bytes(n)];
    assert_eq!(Model.format(&mut pool, &mut map, n as u64), DONE);
    let puts = chance.below(2 * n + 2);
    for _ in 0..puts {
        let key = chance.pick(&keys);
        if chance.one_in(4) {
            Model.delete(&mut pool, &mut map, key);
        } else {
            Model.put(&mut pool, &mut map, key, chance.word());
        }
    }
    // Names that were reserved before puts of 0 were refused: such entries in existing pools stay.
    for leaf in 0..n {
        if chance.one_in(8) {
            pool[value_place(leaf)] = 0;
        }
    }
    Made { n, pool, map, keys }
}

/// A sound pool that a cut of one more put or delete has left.
pub fn cut(chance: &mut Chance, n: usize) -> Made {
    let mut made = sound(chance, n);
    let key = a_key(chance, &made.keys);
    let planned = if chance.one_in(2) {
        Model.plan_put(&made.pool, &made.map, key, chance.word(), ADR)
    } else {
        Model.plan_delete(&made.pool, key, ADR)
    };
    made.pool = left(&made.pool, &planned.plan, a_cut(&planned.plan, chance));
    made
}

/// A sound pool in which many headers are stale.
pub fn stale(chance: &mut Chance, n: usize) -> Made {
    let mut made = sound(chance, n);
    for (node, w, b, sample) in survey(&made.pool).expect("a sound pool").nodes {
        let h = w + chance.below((b - w + 1) as usize) as u64;
        made.pool[header_place(n, node)] = header(h, b, sample);
    }
    made
}

/// A pool that was sound or stale, with some words damaged.
pub fn damaged(chance: &mut Chance, n: usize) -> Made {
    let mut made = match chance.below(3) {
        0 => cut(chance, n),
        1 => stale(chance, n),
        _ => sound(chance, n),
    };
    let reached: Vec<usize> =
        survey(&made.pool).map_or_else(Vec::new, |survey| survey.nodes.iter().map(|(node, ..)| *node).collect());
    for _ in 0..1 + chance.below(3) {
        damage(chance, &mut made, &reached);
    }
    made
}

/// One damage, in a node that is reached if there is one.
fn damage(chance: &mut Chance, made: &mut Made, reached: &[usize]) {
    let (n, words) = (made.n, made.pool.len());
    if reached.is_empty() || chance.one_in(8) {
        let place = 1 + chance.below(words - 1);
        made.pool[place] = odd_word(chance, n);
        return;
    }
    let node = chance.pick(reached);
    let head = header_place(n, node);
    let child = child_place(n, node, chance.below(16) as u64);
    match chance.below(8) {
        0 => made.pool[head] = edge_header(chance, made.pool[head]),
        1 => made.pool[head] ^= 1 << chance.below(64),
        2 => made.pool[child] = a_reference(chance, n),
        3 => made.pool[child] = shared_reference(chance, made, reached),
        4 => made.pool[head + 1..head + 17].fill(0),
        5 => {
            let kept = made.pool[child];
            made.pool[head + 1..head + 17].fill(0);
            made.pool[child] = kept;
        }
        6 => made.pool[ROOT] = a_reference(chance, n),
        _ => {
            let place = 2 + 2 * chance.below(n);
            made.pool[place] = with_digit(made.pool[place], chance.below(16) as u64, chance.word());
        }
    }
}

/// A reference that stands somewhere else in the pool too.
fn shared_reference(chance: &mut Chance, made: &Made, reached: &[usize]) -> u64 {
    let node = chance.pick(reached);
    let children = &made.pool[header_place(made.n, node) + 1..][..16];
    let held: Vec<u64> = children.iter().copied().filter(|r| *r != 0).collect();
    match held.is_empty() || chance.one_in(3) {
        true => FIRST_NODE + node as u64,
        false => chance.pick(&held),
    }
}

/// A header on the edge of the walk's rules, near one that was right.
fn edge_header(chance: &mut Chance, right: u64) -> u64 {
    let (h, length) = (right >> 56, right >> 48 & 255);
    let depth = chance.pick(&[h, h.wrapping_sub(1), h + 1, 0, 8, 15, 16, 250, 255]) & 255;
    let near = [length, length + 1, length.wrapping_sub(1), 0, 7, 8, 10, 15, 16, 255];
    let length = match chance.below(3) {
        // The last branch place that is good, and the first that is not.
        0 => 15u64.wrapping_sub(depth),
        1 => 16u64.wrapping_sub(depth),
        _ => chance.pick(&near),
    };
    depth << 56 | (length & 255) << 48 | right & 0xffff_ffff_ffff
}

/// A reference inside the pool, one on the edge of it, or one that a narrower number would take for good.
fn a_reference(chance: &mut Chance, n: usize) -> u64 {
    let n = n as u64;
    let nodes_end = FIRST_NODE + n - 1;
    match chance.below(4) {
        0 => 1 + chance.word() % n,
        1 => FIRST_NODE + chance.word() % n,
        2 => chance.pick(&[0, 1, n, n + 1, MOST_LEAVES, FIRST_NODE, nodes_end, nodes_end + 1, 2047, 2048]),
        _ => chance.pick(&[n | 1 << 16, 1 << 32 | 1, 1 << 63 | FIRST_NODE, u64::MAX, 3]),
    }
}

/// A word that could be a reference, a header, or anything.
fn odd_word(chance: &mut Chance, n: usize) -> u64 {
    match chance.below(6) {
        0 | 1 => 0,
        2 | 3 => a_reference(chance, n),
        4 => {
            let right = (chance.word() % 16) << 56;
            edge_header(chance, right)
        }
        _ => chance.word(),
    }
}

/// Words of chance, the headers such that walks go deep; nodes share children, lead back, and end anywhere.
pub fn tangle(chance: &mut Chance, n: usize) -> Made {
    let keys = keys(chance, n + 2);
    let mut pool: Vec<u64> = (0..pool_words(n)).map(|_| odd_word(chance, n)).collect();
    pool[0] = n as u64;
    for leaf in 0..n {
        pool[2 + 2 * leaf] = chance.pick(&keys);
    }
    for node in 0..n - 1 {
        let depth = (node as u64).min(15).saturating_sub(chance.word() % 3 / 2);
        let b = depth + (15 - depth).min(chance.word() % 2 * (chance.word() % 3));
        pool[header_place(n, node)] = header(depth, b, chance.pick(&keys));
        for c in 0..16 {
            if chance.one_in(2) {
                pool[child_place(n, node, c)] = downward(chance, n, node);
            }
        }
    }
    pool[ROOT] = if n > 1 && !chance.one_in(6) { FIRST_NODE } else { a_reference(chance, n) };
    Made { n, pool, map: vec![0; map_bytes(n)], keys }
}

/// A leaf, or a node with a higher number: under `tangle`'s headers, most often one that a walk accepts.
fn downward(chance: &mut Chance, n: usize, node: usize) -> u64 {
    let later = n - 1 - node - 1;
    match chance.below(5) {
        0 => 0,
        1 | 2 if later > 0 => FIRST_NODE + (node + 1 + chance.below(later.min(3))) as u64,
        _ => 1 + chance.below(n) as u64,
    }
}

/// Sixteen levels of nodes, each child of one being the next: a visit that does not count would never end.
pub fn doubling(chance: &mut Chance, n: usize) -> Made {
    let keys = keys(chance, n + 2);
    let mut pool = vec![0; pool_words(n)];
    let levels = (n - 1).min(16);
    let end = chance.pick(&[0, 1, n as u64, 2048, FIRST_NODE]);
    pool[0] = n as u64;
    pool[ROOT] = if levels == 0 { 1 } else { FIRST_NODE };
    for leaf in 0..n {
        pool[2 + 2 * leaf] = chance.pick(&keys);
    }
    let all = chance.one_in(2);
    for level in 0..levels {
        let next = if level + 1 == levels { end } else { FIRST_NODE + level as u64 + 1 };
        pool[header_place(n, level)] = header(level as u64, level as u64, 0);
        for c in 0..16 {
            // All sixteen lead on, or the one that the first key takes: a chain.
            if all || c == digit(keys[0], level as u64) {
                pool[child_place(n, level, c)] = next;
            }
        }
    }
    Made { n, pool, map: vec![0; map_bytes(n)], keys }
}

/// A map that is not true of its pool.
pub fn untrue(chance: &mut Chance, map: &mut [u8]) {
    match chance.below(4) {
        0 => map.fill(0),
        1 => map.fill(1 + (chance.word() % 255) as u8),
        2 => map.iter_mut().for_each(|byte| *byte = (chance.word() % 3) as u8),
        _ => {
            let at = chance.below(map.len());
            map[at] = if map[at] == 0 { 255 } else { 0 };
        }
    }
}
