//! A model of document 01, with what document 02 has added so far, written from their text: every call, every answer, every word, byte
//! and buffer afterwards.
//!
//! It is made to be read beside the documents, not to be quick. Comments give the documents' own words.

use crate::answers::*;

/// The model of the library.
#[derive(Clone, Copy, Debug)]
pub struct Model;

const DIGITS: u64 = 16;
const CHILDREN: usize = 16;
const STORED_DIGITS: u64 = 12;
const LAST_DIGIT: u64 = DIGITS - 1;
/// "1025 to 2047 is node number r - 1025".
pub const FIRST_NODE: u64 = MOST_LEAVES + 1;
const NODE_WORDS: usize = 1 + CHILDREN;

/// "Word 0 is N. Word 1 is the root reference."
const CAPACITY: usize = 0;
const ROOT: usize = 1;

// ---- digits and headers ----

/// "Digit k of a key is bits 63 - 4k down to 60 - 4k, k from 0 to 15."
pub fn digit(key: u64, k: u64) -> u64 {
    assert!(k <= LAST_DIGIT);
    (key >> (60 - 4 * k)) & 15
}

/// "The count of leading zero bits of their exclusive or, divided by four; it is 16 for equal keys."
pub fn first_differing(one: u64, other: u64) -> u64 {
    let same = |k: &u64| digit(one, *k) == digit(other, *k);
    (0..DIGITS).take_while(same).count() as u64
}

/// "Bits 63..56 depth, 55..48 length, 47..0 the first twelve digits of the prefix, first digit highest,
/// unused places zero": the header of a node at `depth` with branch place `b`, its digits taken from `key`.
pub fn header(depth: u64, b: u64, key: u64) -> u64 {
    let length = b - depth;
    let mut word = (depth << 56) | (length << 48);
    for i in 0..length.min(STORED_DIGITS) {
        word |= digit(key, depth + i) << (44 - 4 * i);
    }
    word
}

fn depth_of(header: u64) -> u64 {
    header >> 56
}

fn length_of(header: u64) -> u64 {
    (header >> 48) & 255
}

/// Place i of the twelve that a header stores.
fn stored_digit(header: u64, i: u64) -> u64 {
    assert!(i < STORED_DIGITS);
    (header >> (44 - 4 * i)) & 15
}

/// Document 02, (i): whether a stored digit differs from the key's. Compared are the places below the smaller of length and
/// twelve, each with the key's digit at the header's own depth + place.
fn differs(header: u64, key: u64) -> bool {
    let used = length_of(header).min(STORED_DIGITS);
    (0..used).any(|i| stored_digit(header, i) != digit(key, depth_of(header) + i))
}

/// "At a node with depth h it is damage if h < w, length > 15 or b > 15": the branch place, or nothing for damage.
fn branch_place(header: u64, w: u64) -> Option<u64> {
    let (h, length) = (depth_of(header), length_of(header));
    let b = h + length;
    (h >= w && length <= LAST_DIGIT && b <= LAST_DIGIT).then_some(b)
}

// ---- pool and map ----

#[derive(Clone, Copy, Debug, PartialEq, Eq)]
pub enum Target {
    Empty,
    Leaf(usize),
    Node(usize),
    Damage,
}

/// "0 is empty, 1 to 1024 is leaf number r - 1, 1025 to 2047 is node number r - 1025. Anything else, or a number
/// outside this pool's N leaves or N-1 nodes, is damage."
pub fn target(r: u64, n: usize) -> Target {
    match r {
        0 => Target::Empty,
        1..=MOST_LEAVES if r <= n as u64 => Target::Leaf((r - 1) as usize),
        FIRST_NODE..=2047 if r - FIRST_NODE + 1 < n as u64 => Target::Node((r - FIRST_NODE) as usize),
        _ => Target::Damage,
    }
}

fn leaf_reference(leaf: usize) -> u64 {
    leaf as u64 + 1
}

fn node_reference(node: usize) -> u64 {
    node as u64 + FIRST_NODE
}

fn key_place(leaf: usize) -> usize {
    2 + 2 * leaf
}

pub fn value_place(leaf: usize) -> usize {
    3 + 2 * leaf
}

/// "Node j begins at word 2+2N+17j: its header, then children 0 to 15."
pub fn header_place(n: usize, node: usize) -> usize {
    2 + 2 * n + NODE_WORDS * node
}

pub fn child_place(n: usize, node: usize, digit: u64) -> usize {
    header_place(n, node) + 1 + digit as usize
}

/// The capacity, if it is 1 to 1024 and the pool has exactly its words.
fn capacity(pool: &[u64]) -> Option<usize> {
    let n = *pool.first()?;
    fits(n, pool.len()).then_some(n as usize)
}

/// N is judged before its number of words is formed.
fn fits(n: u64, words: usize) -> bool {
    (1..=MOST_LEAVES).contains(&n) && words == pool_words(n as usize)
}

fn capacity_with_map(pool: &[u64], map: &[u8]) -> Option<usize> {
    capacity(pool).filter(|n| map.len() == map_bytes(*n))
}

fn lowest_free(map: &[u8]) -> Option<usize> {
    map.iter().position(|byte| *byte == 0)
}

// ---- the walk ----

/// A node with an accepted header on a walk.
#[derive(Clone, Copy, Debug)]
struct Met {
    node: usize,
    /// The word that holds the reference to it.
    place: usize,
    w: u64,
    b: u64,
}

#[derive(Debug)]
struct Walk {
    met: Vec<Met>,
    /// "The walk ends at a leaf, at an empty reference or at damage": at a node only where it was to stop there.
    end: Target,
    /// The word of the last reference, and the walk depth there.
    place: usize,
    w: u64,
}

/// "Stored digits are not compared; the leaf's key decides."
fn walk(pool: &[u64], n: usize, key: u64) -> Walk {
    walk_until(pool, n, key, |_| false)
}

/// "It begins at the root reference with walk depth w = 0." It ends at the first node whose header is accepted and then is to stop it.
fn walk_until(pool: &[u64], n: usize, key: u64, stops: impl Fn(u64) -> bool) -> Walk {
    let mut met = Vec::with_capacity(CHILDREN);
    let (mut place, mut w) = (ROOT, 0);
    loop {
        let end = target(pool[place], n);
        let Target::Node(node) = end else {
            return Walk { met, end, place, w };
        };
        let head = pool[header_place(n, node)];
        let Some(b) = branch_place(head, w) else {
            let end = Target::Damage;
            return Walk { met, end, place, w };
        };
        met.push(Met { node, place, w, b });
        if stops(head) {
            return Walk { met, end, place, w };
        }
        place = child_place(n, node, digit(key, b));
        w = b + 1;
    }
}

/// "Following the lowest non-empty child each time, under the walk's damage rules; a childless node is damage."
fn lowest_leaf(pool: &[u64], n: usize, reference: u64, w: u64) -> Option<usize> {
    let (mut reference, mut w) = (reference, w);
    loop {
        match target(reference, n) {
            Target::Leaf(leaf) => return Some(leaf),
            Target::Node(node) => {
                let b = branch_place(pool[header_place(n, node)], w)?;
                reference = children(pool, n, node).iter().copied().find(|r| *r != 0)?;
                w = b + 1;
            }
            Target::Empty | Target::Damage => return None,
        }
    }
}

fn children(pool: &[u64], n: usize, node: usize) -> &[u64] {
    &pool[child_place(n, node, 0)..][..CHILDREN]
}

/// What a lookup answers by its walk; a walk that was stopped at a node misses.
fn found(pool: &[u64], key: u64, walk: &Walk) -> Found {
    let (number, value) = match walk.end {
        Target::Leaf(leaf) if pool[key_place(leaf)] == key => (DONE, pool[value_place(leaf)]),
        Target::Leaf(_) | Target::Empty | Target::Node(_) => (ABSENT, 0),
        Target::Damage => (DAMAGE, 0),
    };
    Found { number, value, nodes: walk.met.len() as u64 }
}

// ---- plans ----

/// What a plan does to the map. Slots are named by their byte number in it.
#[derive(Clone, Copy, Debug)]
enum Effect {
    Nothing,
    TakesLeaf(usize),
    TakesLeafAndNode(usize, usize),
    FreesLeaf(usize),
    FreesLeafAndNode(usize, usize),
}

impl Effect {
    /// The plan's words for it: effect, the leaf's byte, the node's byte.
    fn words(self) -> [u64; 3] {
        match self {
            Effect::Nothing => [0, 0, 0],
            Effect::TakesLeaf(leaf) => [1, leaf as u64, 0],
            Effect::TakesLeafAndNode(leaf, node) => [2, leaf as u64, node as u64],
            Effect::FreesLeaf(leaf) => [3, leaf as u64, 0],
            Effect::FreesLeafAndNode(leaf, node) => [4, leaf as u64, node as u64],
        }
    }
}

/// 02 (ii): "A plan now carries its stores in groups", "no group is empty".
fn grouped(groups: [&[Store]; 2], effect: Effect) -> Plan {
    let stores = groups.concat();
    assert!(stores.len() <= MOST_STORES);
    let first = groups.iter().map(|group| group.len()).find(|length| *length > 0);
    let mut plan = plan_of(&stores, first.unwrap_or(0));
    plan[PLAN_EFFECT..=PLAN_NODE].copy_from_slice(&effect.words());
    plan
}

/// "For a put, everything but the last store, then the last."
fn put_groups(stores: &[Store]) -> [&[Store]; 2] {
    let (before, switch) = stores.split_at(stores.len() - 1);
    [before, switch]
}

/// "For a delete, the switch, then the header."
fn delete_groups(stores: &[Store]) -> [&[Store]; 2] {
    let (switch, header) = stores.split_at(1);
    [switch, header]
}

/// 02 (v): "Planning takes the generation." "Any other generation is 1, before all else." A refusal gives a plan that does nothing.
fn planned(generation: u64, outcome: impl FnOnce() -> Result<Plan, u64>) -> Planned {
    let outcome = match generation {
        ADR | EADR => outcome(),
        _ => Err(SIZE),
    };
    match outcome {
        Ok(plan) => Planned { number: DONE, plan: with_fences(generation, plan) },
        Err(number) => Planned { number, plan: NO_PLAN },
    }
}

/// "An ADR plan has a fence after each group, an eADR plan none, and the plan reports the number."
fn with_fences(generation: u64, mut plan: Plan) -> Plan {
    let groups = [plan[PLAN_FIRST], plan[PLAN_COUNT] - plan[PLAN_FIRST]];
    if generation == ADR {
        plan[PLAN_FENCES] = groups.into_iter().filter(|stores| *stores > 0).count() as u64;
    }
    plan
}

/// "The whole call plans, makes all stores and finishes."
fn carry_out(pool: &mut [u64], map: &mut [u8], outcome: Result<Plan, u64>) -> Made {
    match outcome {
        Ok(plan) => {
            for i in 0..plan[PLAN_COUNT] {
                assert_eq!(make_step(pool, &plan, i), DONE);
            }
            assert_eq!(finish(map, &plan), DONE);
            Made { number: DONE, stores: plan[PLAN_COUNT] }
        }
        Err(number) => Made { number, stores: 0 },
    }
}

/// "Count over 21, step number not below the count, or its word outside the pool": 5. "One step makes one store." What stands in the
/// words of groups and fences plays no part here, nor in a finish.
fn make_step(pool: &mut [u64], plan: &Plan, at: u64) -> u64 {
    let count = plan[PLAN_COUNT];
    if count > MOST_STORES as u64 || at >= count {
        return NO_STEP;
    }
    let place = plan[PLAN_PLACES + at as usize];
    if place >= pool.len() as u64 {
        return NO_STEP;
    }
    pool[place as usize] = plan[PLAN_VALUES + at as usize];
    DONE
}

/// "Finishing changes only the named map bytes"; one of them outside the map is 5. Takes writes 1, frees writes 0.
/// An effect above 4 is none of the five that a plan can say: it is refused with finish's only number, 5.
fn finish(map: &mut [u8], plan: &Plan) -> u64 {
    let (leaf, node) = (plan[PLAN_LEAF], plan[PLAN_NODE]);
    match plan[PLAN_EFFECT] {
        0 => DONE,
        1 => write_bytes(map, &[leaf], 1),
        2 => write_bytes(map, &[leaf, node], 1),
        3 => write_bytes(map, &[leaf], 0),
        4 => write_bytes(map, &[leaf, node], 0),
        _ => NO_STEP,
    }
}

fn write_bytes(map: &mut [u8], named: &[u64], byte: u8) -> u64 {
    if named.iter().any(|slot| *slot >= map.len() as u64) {
        return NO_STEP;
    }
    for slot in named {
        map[*slot as usize] = byte;
    }
    DONE
}

// ---- put ----

/// Where a new key goes, every question of damage settled.
enum Fit {
    /// The leaf that holds it.
    Held(usize),
    /// An empty reference: the root's or a child's word.
    Empty(usize),
    Split(Split),
}

/// "Split of a reference met at walk depth w."
struct Split {
    /// The word of the reference.
    place: usize,
    w: u64,
    f: u64,
    k2: u64,
    /// A node target and its branch place.
    target: Option<(usize, u64)>,
}

fn fit(pool: &[u64], n: usize, k: u64) -> Option<Fit> {
    let walk = walk(pool, n, k);
    let leaf = match walk.end {
        Target::Leaf(leaf) if pool[key_place(leaf)] == k => return Some(Fit::Held(leaf)),
        Target::Leaf(leaf) => leaf,
        Target::Empty => match walk.met.last() {
            None => return Some(Fit::Empty(ROOT)),
            Some(last) => lowest_leaf(pool, n, pool[last.place], last.w)?,
        },
        Target::Node(_) | Target::Damage => return None,
    };
    let k2 = pool[key_place(leaf)];
    fit_beside(&walk, k2, first_differing(k, k2))
}

/// "Take the first node of the walk with b >= f." All other cases, f = 16 among them, are damage.
fn fit_beside(walk: &Walk, k2: u64, f: u64) -> Option<Fit> {
    let at_empty = walk.end == Target::Empty;
    match walk.met.iter().position(|met| met.b >= f) {
        Some(i) if walk.met[i].b > f => {
            let Met { node, place, w, b } = walk.met[i];
            let target = Some((node, b));
            Some(Fit::Split(Split { place, w, f, k2, target }))
        }
        Some(i) if i + 1 == walk.met.len() && at_empty => Some(Fit::Empty(walk.place)),
        None if !at_empty => Some(Fit::Split(Split { place: walk.place, w: walk.w, f, k2, target: None })),
        _ => None,
    }
}

fn put_plan(pool: &[u64], map: &[u8], k: u64, v: u64) -> Result<Plan, u64> {
    let n = capacity_with_map(pool, map).ok_or(SIZE)?;
    // 02 (x): "Puts of file number 0 are refused, for new and held keys alike." "7, after 1 and before 2"
    if v == 0 {
        return Err(RETIRED);
    }
    let (leaves, nodes) = map.split_at(n);
    match fit(pool, n, k).ok_or(DAMAGE)? {
        Fit::Held(leaf) => Ok(grouped(put_groups(&[(value_place(leaf), v)]), Effect::Nothing)),
        Fit::Empty(place) => {
            let leaf = lowest_free(leaves).ok_or(NO_ROOM)?;
            let mut stores = leaf_stores(leaf, k, v);
            stores.push((place, leaf_reference(leaf)));
            Ok(grouped(put_groups(&stores), Effect::TakesLeaf(leaf)))
        }
        Fit::Split(split) => {
            let leaf = lowest_free(leaves).ok_or(NO_ROOM)?;
            let node = lowest_free(nodes).ok_or(NO_ROOM)?;
            let stores = split_stores(pool, n, (k, v), (leaf, node), &split);
            Ok(grouped(put_groups(&stores), Effect::TakesLeafAndNode(leaf, n + node)))
        }
    }
}

/// "Leaf key, leaf value."
fn leaf_stores(leaf: usize, k: u64, v: u64) -> Vec<Store> {
    vec![(key_place(leaf), k), (value_place(leaf), v)]
}

/// "Leaf key, leaf value; new node header (depth w, length f-w, digits of k from w); its children 0 to 15 in order, the
/// new leaf at digit f of k, the old target at digit f of k2, the rest 0; if the target is a node, its header (depth
/// f+1, length b-f-1, digits of k2 from f+1); last, the reference."
fn split_stores(pool: &[u64], n: usize, (k, v): (u64, u64), (leaf, node): (usize, usize), split: &Split) -> Vec<Store> {
    let Split { place, w, f, k2, target } = *split;
    let mut stores = leaf_stores(leaf, k, v);
    stores.push((header_place(n, node), header(w, f, k)));
    for c in 0..CHILDREN as u64 {
        let child = if c == digit(k, f) {
            leaf_reference(leaf)
        } else if c == digit(k2, f) {
            pool[place]
        } else {
            0
        };
        stores.push((child_place(n, node, c), child));
    }
    if let Some((old, b)) = target {
        stores.push((header_place(n, old), header(f + 1, b, k2)));
    }
    stores.push((place, node_reference(node)));
    stores
}

// ---- delete ----

fn delete_plan(pool: &[u64], k: u64) -> Result<Plan, u64> {
    let n = capacity(pool).ok_or(SIZE)?;
    let walk = walk(pool, n, k);
    let leaf = match walk.end {
        Target::Leaf(leaf) if pool[key_place(leaf)] == k => leaf,
        Target::Leaf(_) | Target::Empty => return Err(ABSENT),
        Target::Node(_) | Target::Damage => return Err(DAMAGE),
    };
    let Some(parent) = walk.met.last() else {
        return Ok(grouped(delete_groups(&[(ROOT, 0)]), Effect::FreesLeaf(leaf)));
    };
    let held = children(pool, n, parent.node).iter().filter(|r| **r != 0).count();
    match held {
        0 | 1 => Err(DAMAGE),
        2 => {
            let stores = merge_stores(pool, n, parent, walk.place).ok_or(DAMAGE)?;
            Ok(grouped(delete_groups(&stores), Effect::FreesLeafAndNode(leaf, n + parent.node)))
        }
        _ => Ok(grouped(delete_groups(&[(walk.place, 0)]), Effect::FreesLeaf(leaf))),
    }
}

/// "The reference to P takes the other child. If that child is a node, its header follows (depth: walk depth of P; same
/// branch place; digits from its lowest leaf)." The other child is read under the walk's rules, at depth b+1 of P.
fn merge_stores(pool: &[u64], n: usize, parent: &Met, gone: usize) -> Option<Vec<Store>> {
    let other = (0..CHILDREN as u64)
        .map(|c| child_place(n, parent.node, c))
        .find(|place| *place != gone && pool[*place] != 0)?;
    let reference = pool[other];
    let mut stores = vec![(parent.place, reference)];
    match target(reference, n) {
        Target::Leaf(_) => {}
        Target::Node(node) => {
            let place = header_place(n, node);
            let b = branch_place(pool[place], parent.b + 1)?;
            let lowest = lowest_leaf(pool, n, reference, parent.b + 1)?;
            stores.push((place, header(parent.w, b, pool[key_place(lowest)])));
        }
        Target::Empty | Target::Damage => return None,
    }
    Some(stores)
}

// ---- soundness and open ----

/// What a sound pool holds.
#[derive(Debug)]
pub struct Survey {
    /// Each slot, by its byte number in the map.
    pub reached: Vec<bool>,
    /// Every reached node with its walk depth, branch place and a key below it, in order of node number.
    pub nodes: Vec<(usize, u64, u64, u64)>,
    pub keys: u64,
}

/// The whole pool checked against "Sound and straight"; nothing if it is not sound.
pub fn survey(pool: &[u64]) -> Option<Survey> {
    let n = capacity(pool)?;
    let mut survey = Survey { reached: vec![false; map_bytes(n)], nodes: Vec::new(), keys: 0 };
    if pool[ROOT] != 0 {
        survey.reach(pool, n, pool[ROOT], 0)?;
    }
    survey.nodes.sort_unstable();
    Some(survey)
}

impl Survey {
    /// The keys below a reference that is not empty, met at walk depth w.
    fn reach(&mut self, pool: &[u64], n: usize, reference: u64, w: u64) -> Option<Vec<u64>> {
        match target(reference, n) {
            Target::Leaf(leaf) => {
                self.mark(leaf)?;
                self.keys += 1;
                Some(vec![pool[key_place(leaf)]])
            }
            Target::Node(node) => {
                self.mark(n + node)?;
                self.reach_node(pool, n, node, w)
            }
            Target::Empty | Target::Damage => None,
        }
    }

    /// "No slot is reached twice."
    fn mark(&mut self, slot: usize) -> Option<()> {
        let before = std::mem::replace(&mut self.reached[slot], true);
        (!before).then_some(())
    }

    fn reach_node(&mut self, pool: &[u64], n: usize, node: usize, w: u64) -> Option<Vec<u64>> {
        let head = pool[header_place(n, node)];
        let h = depth_of(head);
        let b = h + length_of(head);
        // "A node reached at depth w has w <= h <= b <= 15."
        if !(w <= h && h <= b && b <= LAST_DIGIT) {
            return None;
        }
        let mut keys = Vec::new();
        let mut held = 0;
        for (c, reference) in children(pool, n, node).iter().enumerate() {
            if *reference == 0 {
                continue;
            }
            held += 1;
            let below = self.reach(pool, n, *reference, b + 1)?;
            // "A key below child c has c as digit b."
            if below.iter().any(|key| digit(*key, b) != c as u64) {
                return None;
            }
            keys.extend(below);
        }
        // "It has at least two children."
        if held < 2 {
            return None;
        }
        // "Every key below it agrees in digits 0 to b-1 with every other."
        let sample = keys[0];
        if keys.iter().any(|key| first_differing(*key, sample) < b) {
            return None;
        }
        // "Stored digits are the keys' digits from h on, for the smaller of length and twelve, the rest zero."
        if head != header(h, b, sample) {
            return None;
        }
        self.nodes.push((node, w, b, sample));
        Some(keys)
    }

    /// "Each stale header (depth w, same branch place, digits from w of the keys below) as one store each,
    /// lower-numbered nodes first."
    fn stale_stores(&self, pool: &[u64], n: usize) -> Vec<Store> {
        self.nodes
            .iter()
            .filter(|(node, w, _, _)| depth_of(pool[header_place(n, *node)]) > *w)
            .map(|(node, w, b, sample)| (header_place(n, *node), header(*w, *b, *sample)))
            .collect()
    }
}

/// "A planning call answers the first such store as a plan, or a plan of none." 02 (ii): "Each header open rewrites is a group."
fn open_plan(pool: &[u64]) -> Result<Plan, u64> {
    let n = capacity(pool).ok_or(SIZE)?;
    let stale = survey(pool).ok_or(DAMAGE)?.stale_stores(pool, n);
    Ok(grouped([&stale[..stale.len().min(1)], &[]], Effect::Nothing))
}

// ---- listing ----

/// What a listing has handed out and met.
struct Listing<'a> {
    pool: &'a [u64],
    n: usize,
    from: u64,
    keys: &'a mut [u64],
    values: &'a mut [u64],
    count: usize,
    leaves: usize,
}

/// Why a visit ends early.
enum Stop {
    /// A further leaf was found behind full buffers.
    Further,
    Damage,
}

impl Listing<'_> {
    fn visit(&mut self, reference: u64, w: u64) -> Result<(), Stop> {
        match target(reference, self.n) {
            Target::Empty => Ok(()),
            Target::Leaf(leaf) => self.visit_leaf(leaf),
            Target::Node(node) => self.visit_node(node, w),
            Target::Damage => Err(Stop::Damage),
        }
    }

    /// "More than N leaves met, judged before that stop, refuses."
    fn visit_leaf(&mut self, leaf: usize) -> Result<(), Stop> {
        self.leaves += 1;
        if self.leaves > self.n {
            return Err(Stop::Damage);
        }
        let key = self.pool[key_place(leaf)];
        if key < self.from {
            return Ok(());
        }
        if self.count == self.keys.len() {
            return Err(Stop::Further);
        }
        self.keys[self.count] = key;
        self.values[self.count] = self.pool[value_place(leaf)];
        self.count += 1;
        Ok(())
    }

    /// "A node's visit visits its sixteen references, lowest first, no subtree skipped"; a childless node refuses.
    fn visit_node(&mut self, node: usize, w: u64) -> Result<(), Stop> {
        let place = header_place(self.n, node);
        let b = branch_place(self.pool[place], w).ok_or(Stop::Damage)?;
        let held = children(self.pool, self.n, node);
        if held.iter().all(|reference| *reference == 0) {
            return Err(Stop::Damage);
        }
        for reference in held {
            self.visit(*reference, b + 1)?;
        }
        Ok(())
    }
}

fn listed(number: u64, count: usize, further: bool) -> Listed {
    Listed { number, count: count as u64, more: u64::from(further) }
}

// ---- the calls ----

impl Calls for Model {
    /// "Word 1 := 0, then word 0 := N, all map bytes 0; other words keep their contents."
    fn format(&self, pool: &mut [u64], map: &mut [u8], n: u64) -> u64 {
        if !fits(n, pool.len()) || map.len() != map_bytes(n as usize) {
            return SIZE;
        }
        pool[ROOT] = 0;
        pool[CAPACITY] = n;
        map.fill(0);
        DONE
    }

    fn open(&self, pool: &mut [u64], map: &mut [u8]) -> Opened {
        let refused = |number| Opened { number, keys: 0, headers: 0 };
        let Some(n) = capacity_with_map(pool, map) else {
            return refused(SIZE);
        };
        let Some(survey) = survey(pool) else {
            map.fill(0);
            return refused(DAMAGE);
        };
        let stale = survey.stale_stores(pool, n);
        for (place, header) in &stale {
            pool[*place] = *header;
        }
        for (byte, reached) in map.iter_mut().zip(&survey.reached) {
            *byte = u8::from(*reached);
        }
        Opened { number: DONE, keys: survey.keys, headers: stale.len() as u64 }
    }

    /// "Lookup also reports how many nodes had an accepted header on its walk."
    fn lookup(&self, pool: &[u64], key: u64) -> Found {
        let Some(n) = capacity(pool) else {
            return Found { number: SIZE, value: 0, nodes: 0 };
        };
        found(pool, key, &walk(pool, n, key))
    }

    /// Document 02, (i): "a lookup that compares stored digits on the way and stops at the first that differs".
    fn lookup_quick(&self, pool: &[u64], key: u64) -> Found {
        let Some(n) = capacity(pool) else {
            return Found { number: SIZE, value: 0, nodes: 0 };
        };
        found(pool, key, &walk_until(pool, n, key, |head| differs(head, key)))
    }

    fn list(&self, pool: &[u64], from: u64, keys: &mut [u64], values: &mut [u64]) -> Listed {
        let Some(n) = capacity(pool) else {
            return listed(SIZE, 0, false);
        };
        if keys.is_empty() || keys.len() != values.len() {
            return listed(BUFFERS, 0, false);
        }
        let mut listing = Listing { pool, n, from, keys, values, count: 0, leaves: 0 };
        match listing.visit(pool[ROOT], 0) {
            Ok(()) => listed(DONE, listing.count, false),
            Err(Stop::Further) => listed(DONE, listing.count, true),
            Err(Stop::Damage) => {
                keys.fill(0);
                values.fill(0);
                listed(DAMAGE, 0, false)
            }
        }
    }

    fn put(&self, pool: &mut [u64], map: &mut [u8], key: u64, value: u64) -> Made {
        let outcome = put_plan(pool, map, key, value);
        carry_out(pool, map, outcome)
    }

    fn delete(&self, pool: &mut [u64], map: &mut [u8], key: u64) -> Made {
        let outcome = match capacity_with_map(pool, map) {
            Some(_) => delete_plan(pool, key),
            None => Err(SIZE),
        };
        carry_out(pool, map, outcome)
    }

    fn plan_put(&self, pool: &[u64], map: &[u8], key: u64, value: u64, generation: u64) -> Planned {
        planned(generation, || put_plan(pool, map, key, value))
    }

    fn plan_delete(&self, pool: &[u64], key: u64, generation: u64) -> Planned {
        planned(generation, || delete_plan(pool, key))
    }

    fn plan_open(&self, pool: &[u64], generation: u64) -> Planned {
        planned(generation, || open_plan(pool))
    }

    fn step(&self, pool: &mut [u64], plan: &Plan, at: u64) -> u64 {
        make_step(pool, plan, at)
    }

    fn finish(&self, map: &mut [u8], plan: &Plan) -> u64 {
        finish(map, plan)
    }
}
