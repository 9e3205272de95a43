/* The rules of document 01, with what document 02 has added so far, in plain C, written for speed: no checks but the documents'.
 * A whole put or delete decides first and then stores straight into the pool; it builds no plan. */
#include "plain.h"
#include <stdbool.h>
#include <string.h>

enum { DONE, SIZE, DAMAGE, ABSENT, NO_ROOM, NO_STEP, BUFFERS, RETIRED };
enum { ADR = 1, EADR };
enum { NOTHING, TAKES_LEAF, TAKES_LEAF_AND_NODE, FREES_LEAF, FREES_LEAF_AND_NODE };

#define MOST_LEAVES 1024
#define MOST_STORES 21
#define FIRST_NODE 1025
#define NODE_WORDS 17
#define CHILDREN 16
#define STORED_DIGITS 12
#define LAST_DIGIT 15

/* ---- pool, digits, headers ---- */

/* The capacity, or 0 if word 0 and the length do not agree. */
static inline uint64_t capacity(const uint64_t *pool, size_t words)
{
    uint64_t n = words ? pool[0] : 0;
    return n - 1 < MOST_LEAVES && words == 19 * n - 15 ? n : 0;
}

static inline uint64_t capacity_with_map(const uint64_t *pool, size_t words, size_t bytes)
{
    uint64_t n = capacity(pool, words);
    return bytes == 2 * n - 1 ? n : 0;
}

static inline bool is_leaf(uint64_t reference, uint64_t n)
{
    return reference - 1 < n;
}

static inline bool is_node(uint64_t reference, uint64_t n)
{
    return reference - FIRST_NODE < n - 1;
}

static inline size_t key_place(uint64_t reference)
{
    return 2 * reference;
}

static inline size_t header_place(uint64_t reference, uint64_t n)
{
    return 2 + 2 * n + NODE_WORDS * (reference - FIRST_NODE);
}

static inline unsigned digit(uint64_t key, unsigned k)
{
    return key >> (60 - 4 * k) & 15;
}

static inline unsigned first_differing(uint64_t one, uint64_t other)
{
    return one == other ? 16 : __builtin_clzll(one ^ other) / 4;
}

static inline uint64_t header_of(unsigned depth, unsigned b, uint64_t key)
{
    uint64_t length = b - depth;
    unsigned stored = length < STORED_DIGITS ? length : STORED_DIGITS;
    uint64_t digits = key << 4 * depth >> 16 & ~(uint64_t)0 << (48 - 4 * stored);
    return (uint64_t)depth << 56 | length << 48 | digits;
}

static inline unsigned depth_of(uint64_t header)
{
    return header >> 56;
}

/* b alone: a length over 15 makes it over 15 too. */
static inline unsigned branch_place(uint64_t header)
{
    return depth_of(header) + (header >> 48 & 255);
}

static inline bool accepted(uint64_t header, unsigned w)
{
    return depth_of(header) >= w && branch_place(header) <= LAST_DIGIT;
}

/* A stored digit differs from the key's: of the twelve places those below the length, of an accepted header. Most have length 0. */
static inline bool differs(uint64_t header, uint64_t key)
{
    unsigned length = header >> 48 & 255;
    uint64_t apart = (key << 4 * depth_of(header) ^ header << 16) >> 16 << 16;
    return __builtin_expect(length, 0) && apart >> (64 - 4 * length);
}

/* ---- lookup ---- */

/* Inlined with a constant for `quick`: the plain lookup's loop compares no stored digits. */
static inline __attribute__((always_inline)) uint64_t look_up(const uint64_t *pool, size_t words, uint64_t key, bool quick,
                                                              uint64_t *value, uint64_t *nodes)
{
    uint64_t n = capacity(pool, words);
    uint64_t met = 0, number = SIZE;
    unsigned w = 0;
    *value = 0;
    if (n) {
        uint64_t reference = pool[1];
        while (is_node(reference, n)) {
            const uint64_t *node = pool + header_place(reference, n);
            if (!accepted(node[0], w))
                break;
            met++;
            if (quick && differs(node[0], key)) {
                reference = 0;
                break;
            }
            unsigned b = branch_place(node[0]);
            reference = node[1 + digit(key, b)];
            w = b + 1;
        }
        if (is_leaf(reference, n)) {
            const uint64_t *leaf = pool + key_place(reference);
            number = leaf[0] == key ? DONE : ABSENT;
            if (number == DONE)
                *value = leaf[1];
        } else {
            number = reference ? DAMAGE : ABSENT;
        }
    }
    *nodes = met;
    return number;
}

uint64_t plain_lookup(const uint64_t *pool, size_t words, uint64_t key, uint64_t *value, uint64_t *nodes)
{
    return look_up(pool, words, key, false, value, nodes);
}

uint64_t plain_lookup_quick(const uint64_t *pool, size_t words, uint64_t key, uint64_t *value, uint64_t *nodes)
{
    return look_up(pool, words, key, true, value, nodes);
}

/* ---- the lowest leaf ---- */

/* The place of the lowest leaf's key below a reference met at w, or 0 for damage. */
static size_t lowest_key_place(const uint64_t *pool, uint64_t n, uint64_t reference, unsigned w)
{
    while (is_node(reference, n)) {
        const uint64_t *node = pool + header_place(reference, n);
        if (!accepted(node[0], w))
            return 0;
        w = branch_place(node[0]) + 1;
        unsigned c = 0;
        while (c < CHILDREN && !node[1 + c])
            c++;
        if (c == CHILDREN)
            return 0;
        reference = node[1 + c];
    }
    return is_leaf(reference, n) ? key_place(reference) : 0;
}

/* ---- put ---- */

/* Where a key goes: HELD at a value's word, an EMPTY reference's word, or a SPLIT of a reference. */
enum fitting { HELD, EMPTY, SPLIT, UNFIT };

struct fit {
    size_t place;  /* the word of the value or reference */
    size_t target; /* a split's target: the word of its header, 0 for a leaf */
    uint64_t k2;
    unsigned w, f, b;
};

struct path {
    size_t places[CHILDREN];
    unsigned branches[CHILDREN];
    unsigned met;
};

static inline unsigned depth_at(const struct path *path, unsigned i)
{
    return i ? path->branches[i - 1] + 1 : 0;
}

/* The first node of the walk with b >= f decides. */
static enum fitting fit_beside(const uint64_t *pool, uint64_t n, const struct path *path, bool at_empty, size_t place,
                               uint64_t key, struct fit *fit)
{
    unsigned f = first_differing(key, fit->k2);
    unsigned i = 0;
    while (i < path->met && path->branches[i] < f)
        i++;
    fit->f = f;
    fit->w = depth_at(path, i);
    fit->target = 0;
    fit->place = place;
    if (i == path->met)
        return at_empty ? UNFIT : SPLIT;
    if (path->branches[i] == f)
        return at_empty && i + 1 == path->met ? EMPTY : UNFIT;
    fit->place = path->places[i];
    fit->target = header_place(pool[fit->place], n);
    fit->b = path->branches[i];
    return SPLIT;
}

static inline enum fitting find_fit(const uint64_t *pool, uint64_t n, uint64_t key, struct fit *fit)
{
    struct path path;
    size_t place = 1;
    unsigned w = 0, met = 0;
    uint64_t reference = pool[1];
    while (is_node(reference, n)) {
        size_t at = header_place(reference, n);
        if (!accepted(pool[at], w))
            return UNFIT;
        unsigned b = branch_place(pool[at]);
        path.places[met] = place;
        path.branches[met++] = b;
        place = at + 1 + digit(key, b);
        reference = pool[place];
        w = b + 1;
    }
    path.met = met;
    if (is_leaf(reference, n)) {
        fit->k2 = pool[key_place(reference)];
        fit->place = key_place(reference) + 1;
        return fit->k2 == key ? HELD : fit_beside(pool, n, &path, false, place, key, fit);
    }
    if (reference)
        return UNFIT;
    fit->place = place;
    if (!met)
        return EMPTY;
    size_t lowest = lowest_key_place(pool, n, pool[path.places[met - 1]], depth_at(&path, met - 1));
    if (!lowest)
        return UNFIT;
    fit->k2 = pool[lowest];
    return fit_beside(pool, n, &path, true, place, key, fit);
}

/* The number of the lowest free slot, or the length if none is free. */
static inline size_t lowest_free(const uint8_t *slots, size_t length)
{
    const uint8_t *free_slot = length ? memchr(slots, 0, length) : NULL;
    return free_slot ? (size_t)(free_slot - slots) : length;
}

uint64_t plain_put(uint64_t *pool, size_t words, uint8_t *map, size_t bytes, uint64_t key, uint64_t value, uint64_t *stores)
{
    struct fit fit;
    uint64_t n = capacity_with_map(pool, words, bytes);
    *stores = 0;
    if (!n)
        return SIZE;
    if (!value)
        return RETIRED;
    enum fitting fitting = find_fit(pool, n, key, &fit);
    if (fitting == UNFIT)
        return DAMAGE;
    if (fitting == HELD) {
        pool[fit.place] = value;
        *stores = 1;
        return DONE;
    }
    size_t leaf = lowest_free(map, n);
    if (leaf == n)
        return NO_ROOM;
    uint64_t link = leaf + 1;
    if (fitting == SPLIT) {
        size_t free_node = lowest_free(map + n, n - 1);
        if (free_node == n - 1)
            return NO_ROOM;
        uint64_t target = pool[fit.place];
        link = free_node + FIRST_NODE;
        pool[key_place(leaf + 1)] = key;
        pool[key_place(leaf + 1) + 1] = value;
        uint64_t *node = pool + header_place(link, n);
        node[0] = header_of(fit.w, fit.f, key);
        memset(node + 1, 0, CHILDREN * sizeof *node);
        node[1 + digit(key, fit.f)] = leaf + 1;
        node[1 + digit(fit.k2, fit.f)] = target;
        if (fit.target)
            pool[fit.target] = header_of(fit.f + 1, fit.b, fit.k2);
        map[n + free_node] = 1;
        *stores = fit.target ? 21 : 20;
    } else {
        pool[key_place(leaf + 1)] = key;
        pool[key_place(leaf + 1) + 1] = value;
        *stores = 3;
    }
    pool[fit.place] = link;
    map[leaf] = 1;
    return DONE;
}

/* ---- delete ---- */

struct removal {
    size_t switched, header;  /* the words stored to; header 0 for none */
    uint64_t with, fresh;     /* what they take */
    uint64_t leaf, node;      /* references freed; node 0 for none */
};

static inline unsigned count_children(const uint64_t *children)
{
    unsigned count = 0;
    for (unsigned c = 0; c < CHILDREN; c++)
        count += children[c] != 0;
    return count;
}

/* P has two children: the reference to it takes the other. */
static uint64_t find_merge(const uint64_t *pool, uint64_t n, size_t parent, unsigned w, size_t gone, struct removal *removal)
{
    unsigned b = branch_place(pool[header_place(pool[parent], n)]);
    size_t other = header_place(pool[parent], n) + 1;
    while (!pool[other] || other == gone)
        other++;
    uint64_t reference = pool[other];
    removal->switched = parent;
    removal->with = reference;
    removal->node = pool[parent];
    if (is_leaf(reference, n))
        return DONE;
    size_t lowest = lowest_key_place(pool, n, reference, b + 1);
    if (!lowest)
        return DAMAGE;
    removal->header = header_place(reference, n);
    removal->fresh = header_of(w, branch_place(pool[removal->header]), pool[lowest]);
    return DONE;
}

static inline uint64_t find_removal(const uint64_t *pool, uint64_t n, uint64_t key, struct removal *removal)
{
    size_t place = 1, parent = 0;
    unsigned w = 0, parent_w = 0;
    uint64_t reference = pool[1];
    while (is_node(reference, n)) {
        size_t at = header_place(reference, n);
        if (!accepted(pool[at], w))
            return DAMAGE;
        unsigned b = branch_place(pool[at]);
        parent = place;
        parent_w = w;
        place = at + 1 + digit(key, b);
        reference = pool[place];
        w = b + 1;
    }
    if (!is_leaf(reference, n))
        return reference ? DAMAGE : ABSENT;
    if (pool[key_place(reference)] != key)
        return ABSENT;
    *removal = (struct removal){.switched = place, .leaf = reference};
    if (!parent)
        return DONE;
    unsigned held = count_children(pool + header_place(pool[parent], n) + 1);
    if (held > 2)
        return DONE;
    return held == 2 ? find_merge(pool, n, parent, parent_w, place, removal) : DAMAGE;
}

uint64_t plain_delete(uint64_t *pool, size_t words, uint8_t *map, size_t bytes, uint64_t key, uint64_t *stores)
{
    struct removal removal;
    uint64_t n = capacity_with_map(pool, words, bytes);
    *stores = 0;
    if (!n)
        return SIZE;
    uint64_t number = find_removal(pool, n, key, &removal);
    if (number != DONE)
        return number;
    pool[removal.switched] = removal.with;
    if (removal.header)
        pool[removal.header] = removal.fresh;
    map[removal.leaf - 1] = 0;
    if (removal.node)
        map[n + removal.node - FIRST_NODE] = 0;
    *stores = removal.header ? 2 : 1;
    return DONE;
}

/* ---- listing ---- */

enum visit { ON, FURTHER, BAD };

struct listing {
    const uint64_t *pool;
    uint64_t n, from, leaves;
    uint64_t *keys, *values;
    size_t length, count;
};

static inline enum visit list_leaf(struct listing *listing, uint64_t reference)
{
    const uint64_t *leaf = listing->pool + key_place(reference);
    if (++listing->leaves > listing->n)
        return BAD;
    if (leaf[0] < listing->from)
        return ON;
    if (listing->count == listing->length)
        return FURTHER;
    listing->keys[listing->count] = leaf[0];
    listing->values[listing->count++] = leaf[1];
    return ON;
}

static enum visit list_node(struct listing *listing, uint64_t reference, unsigned w)
{
    const uint64_t *node = listing->pool + header_place(reference, listing->n);
    if (!accepted(node[0], w))
        return BAD;
    w = branch_place(node[0]) + 1;
    bool childless = true;
    for (unsigned c = 0; c < CHILDREN; c++) {
        uint64_t child = node[1 + c];
        if (!child)
            continue;
        childless = false;
        enum visit visit = is_leaf(child, listing->n)   ? list_leaf(listing, child)
                           : is_node(child, listing->n) ? list_node(listing, child, w)
                                                        : BAD;
        if (visit != ON)
            return visit;
    }
    return childless ? BAD : ON;
}

uint64_t plain_list(const uint64_t *pool, size_t words, uint64_t from,
                    uint64_t *keys, size_t keys_len, uint64_t *values, size_t values_len, uint64_t *count, uint64_t *more)
{
    uint64_t n = capacity(pool, words);
    *count = *more = 0;
    if (!n)
        return SIZE;
    if (!keys_len || keys_len != values_len)
        return BUFFERS;
    struct listing listing = {.pool = pool, .n = n, .from = from, .keys = keys, .values = values, .length = keys_len};
    uint64_t root = pool[1];
    enum visit visit = !root              ? ON
                       : is_leaf(root, n) ? list_leaf(&listing, root)
                       : is_node(root, n) ? list_node(&listing, root, 0)
                                          : BAD;
    if (visit == BAD) {
        memset(keys, 0, keys_len * sizeof *keys);
        memset(values, 0, values_len * sizeof *values);
        return DAMAGE;
    }
    *count = listing.count;
    *more = visit == FURTHER;
    return DONE;
}

/* ---- open ---- */

/* What one visit of a sound pool finds: the slots reached, and for each stale node its new header. */
struct survey {
    const uint64_t *pool;
    uint64_t n, keys, headers;
    uint8_t reached[2 * MOST_LEAVES - 1];
    uint64_t stale[MOST_LEAVES / 64];
    uint64_t fresh[MOST_LEAVES - 1];
};

static bool survey_node(struct survey *survey, uint64_t reference, unsigned w, uint64_t *sample);

/* Leaves a key below the reference in sample; false for anything unsound. */
static inline bool survey_reference(struct survey *survey, uint64_t reference, unsigned w, uint64_t *sample)
{
    if (is_leaf(reference, survey->n)) {
        uint8_t *reached = survey->reached + reference - 1;
        if (*reached)
            return false;
        *reached = 1;
        survey->keys++;
        *sample = survey->pool[key_place(reference)];
        return true;
    }
    return is_node(reference, survey->n) && survey_node(survey, reference, w, sample);
}

static inline void note_stale(struct survey *survey, uint64_t node, uint64_t fresh)
{
    survey->stale[node / 64] |= (uint64_t)1 << node % 64;
    survey->fresh[node] = fresh;
    survey->headers++;
}

/* A child's keys agree with one another above the node's branch place, so one key of each child stands for all. */
static bool survey_node(struct survey *survey, uint64_t reference, unsigned w, uint64_t *sample)
{
    uint64_t node = reference - FIRST_NODE;
    const uint64_t *words = survey->pool + header_place(reference, survey->n);
    uint64_t header = words[0];
    if (survey->reached[survey->n + node] || !accepted(header, w))
        return false;
    survey->reached[survey->n + node] = 1;
    unsigned b = branch_place(header), held = 0;
    uint64_t first = 0;
    for (unsigned c = 0; c < CHILDREN; c++) {
        uint64_t key;
        if (!words[1 + c])
            continue;
        if (!survey_reference(survey, words[1 + c], b + 1, &key) || digit(key, b) != c)
            return false;
        if (!held++)
            first = key;
        else if (first_differing(first, key) < b)
            return false;
    }
    if (held < 2 || header != header_of(depth_of(header), b, first))
        return false;
    if (depth_of(header) > w)
        note_stale(survey, node, header_of(w, b, first));
    *sample = first;
    return true;
}

static bool survey_pool(struct survey *survey, const uint64_t *pool, uint64_t n)
{
    uint64_t sample;
    survey->pool = pool;
    survey->n = n;
    survey->keys = survey->headers = 0;
    memset(survey->reached, 0, 2 * n - 1);
    memset(survey->stale, 0, sizeof survey->stale);
    return !pool[1] || survey_reference(survey, pool[1], 0, &sample);
}

uint64_t plain_open(uint64_t *pool, size_t words, uint8_t *map, size_t bytes, uint64_t *keys, uint64_t *headers)
{
    struct survey survey;
    uint64_t n = capacity_with_map(pool, words, bytes);
    *keys = *headers = 0;
    if (!n)
        return SIZE;
    if (!survey_pool(&survey, pool, n)) {
        memset(map, 0, bytes);
        return DAMAGE;
    }
    for (unsigned i = 0; survey.headers && i < MOST_LEAVES / 64; i++) {
        for (uint64_t left = survey.stale[i]; left; left &= left - 1) {
            unsigned node = 64 * i + __builtin_ctzll(left);
            pool[header_place(FIRST_NODE + node, n)] = survey.fresh[node];
        }
    }
    memcpy(map, survey.reached, bytes);
    *keys = survey.keys;
    *headers = survey.headers;
    return DONE;
}

/* ---- format, step, finish ---- */

uint64_t plain_format(uint64_t *pool, size_t words, uint8_t *map, size_t bytes, uint64_t n)
{
    if (n - 1 >= MOST_LEAVES || words != 19 * n - 15 || bytes != 2 * n - 1)
        return SIZE;
    pool[1] = 0;
    pool[0] = n;
    memset(map, 0, bytes);
    return DONE;
}

uint64_t plain_step(uint64_t *pool, size_t words, const uint64_t plan[PLAIN_PLAN], uint64_t at)
{
    if (plan[PLAN_COUNT] > MOST_STORES || at >= plan[PLAN_COUNT] || plan[PLAN_PLACES + at] >= words)
        return NO_STEP;
    pool[plan[PLAN_PLACES + at]] = plan[PLAN_VALUES + at];
    return DONE;
}

/* An effect above 4 names no change of a map. */
uint64_t plain_finish(uint8_t *map, size_t bytes, const uint64_t plan[PLAIN_PLAN])
{
    uint64_t effect = plan[PLAN_EFFECT];
    if (effect == NOTHING)
        return DONE;
    bool with_node = effect == TAKES_LEAF_AND_NODE || effect == FREES_LEAF_AND_NODE;
    uint8_t byte = effect == TAKES_LEAF || effect == TAKES_LEAF_AND_NODE;
    if (effect > FREES_LEAF_AND_NODE || plan[PLAN_LEAF] >= bytes || (with_node && plan[PLAN_NODE] >= bytes))
        return NO_STEP;
    map[plan[PLAN_LEAF]] = byte;
    if (with_node)
        map[plan[PLAN_NODE]] = byte;
    return DONE;
}

/* ---- planning ---- */

static inline void add_store(uint64_t *plan, size_t place, uint64_t value)
{
    uint64_t at = plan[PLAN_COUNT]++;
    plan[PLAN_PLACES + at] = place;
    plan[PLAN_VALUES + at] = value;
}

/* The plan is made: so many of its stores are its first group. On ADR each group has a fence behind it. */
static inline uint64_t grouped(uint64_t *plan, uint64_t first, uint64_t generation)
{
    plan[PLAN_FIRST] = first;
    plan[PLAN_FENCES] = generation == ADR ? 1 + (first < plan[PLAN_COUNT]) : 0;
    return DONE;
}

static inline bool known(uint64_t generation)
{
    return generation == ADR || generation == EADR;
}

uint64_t plain_plan_put(const uint64_t *pool, size_t words, const uint8_t *map, size_t bytes, uint64_t key, uint64_t value,
                        uint64_t generation, uint64_t plan[PLAIN_PLAN])
{
    struct fit fit;
    uint64_t n = capacity_with_map(pool, words, bytes);
    memset(plan, 0, PLAIN_PLAN * sizeof *plan);
    if (!known(generation) || !n)
        return SIZE;
    if (!value)
        return RETIRED;
    enum fitting fitting = find_fit(pool, n, key, &fit);
    if (fitting == UNFIT)
        return DAMAGE;
    if (fitting == HELD) {
        add_store(plan, fit.place, value);
        return grouped(plan, 1, generation);
    }
    size_t leaf = lowest_free(map, n);
    size_t node = fitting == SPLIT ? lowest_free(map + n, n - 1) : 0;
    if (leaf == n || (fitting == SPLIT && node == n - 1))
        return NO_ROOM;
    add_store(plan, key_place(leaf + 1), key);
    add_store(plan, key_place(leaf + 1) + 1, value);
    plan[PLAN_EFFECT] = TAKES_LEAF;
    plan[PLAN_LEAF] = leaf;
    if (fitting == EMPTY) {
        add_store(plan, fit.place, leaf + 1);
        return grouped(plan, plan[PLAN_COUNT] - 1, generation);
    }
    plan[PLAN_EFFECT] = TAKES_LEAF_AND_NODE;
    plan[PLAN_NODE] = n + node;
    uint64_t link = node + FIRST_NODE;
    size_t at = header_place(link, n);
    add_store(plan, at, header_of(fit.w, fit.f, key));
    for (unsigned c = 0; c < CHILDREN; c++)
        add_store(plan, at + 1 + c, 0);
    plan[PLAN_VALUES + 3 + digit(key, fit.f)] = leaf + 1;
    plan[PLAN_VALUES + 3 + digit(fit.k2, fit.f)] = pool[fit.place];
    if (fit.target)
        add_store(plan, fit.target, header_of(fit.f + 1, fit.b, fit.k2));
    add_store(plan, fit.place, link);
    return grouped(plan, plan[PLAN_COUNT] - 1, generation);
}

uint64_t plain_plan_delete(const uint64_t *pool, size_t words, uint64_t key, uint64_t generation, uint64_t plan[PLAIN_PLAN])
{
    struct removal removal;
    uint64_t n = capacity(pool, words);
    memset(plan, 0, PLAIN_PLAN * sizeof *plan);
    if (!known(generation) || !n)
        return SIZE;
    uint64_t number = find_removal(pool, n, key, &removal);
    if (number != DONE)
        return number;
    add_store(plan, removal.switched, removal.with);
    if (removal.header)
        add_store(plan, removal.header, removal.fresh);
    plan[PLAN_EFFECT] = removal.node ? FREES_LEAF_AND_NODE : FREES_LEAF;
    plan[PLAN_LEAF] = removal.leaf - 1;
    plan[PLAN_NODE] = removal.node ? n + removal.node - FIRST_NODE : 0;
    return grouped(plan, 1, generation);
}

uint64_t plain_plan_open(const uint64_t *pool, size_t words, uint64_t generation, uint64_t plan[PLAIN_PLAN])
{
    struct survey survey;
    uint64_t n = capacity(pool, words);
    memset(plan, 0, PLAIN_PLAN * sizeof *plan);
    if (!known(generation) || !n)
        return SIZE;
    if (!survey_pool(&survey, pool, n))
        return DAMAGE;
    for (unsigned i = 0; survey.headers && i < MOST_LEAVES / 64; i++) {
        if (survey.stale[i]) {
            unsigned node = 64 * i + __builtin_ctzll(survey.stale[i]);
            add_store(plan, header_place(FIRST_NODE + node, n), survey.fresh[node]);
            return grouped(plan, 1, generation);
        }
    }
    return DONE;
}
