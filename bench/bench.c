/* Times the library, the same rules in plain C, JudyL, LMDB and Rust's BTreeMap side by side in one run, and counts what the
 * library's plans cost to make persistent. Prints tab-parted lines; report.py makes the table and the plot of them. */
#include "plain.h"
#include "wort.h"
#include <Judy.h>
#include <lmdb.h>
#include <stdbool.h>
#include <stdio.h>
#include <stdlib.h>
#include <string.h>
#include <time.h>

#define KEYS 1024
#define ROUNDS 201
#define WORDS WORT_WORDS(KEYS)
#define BYTES WORT_BYTES(KEYS)
#define LINE_WORDS 8 /* a line is 64 bytes */

_Static_assert(WORT_PLAN == PLAIN_PLAN, "plain.h's places are those of the library's plans too");

static uint64_t pool[WORDS] __attribute__((aligned(64)));
static uint8_t map[BYTES];

static uint64_t now(void)
{
    struct timespec t;
    clock_gettime(CLOCK_MONOTONIC, &t);
    return (uint64_t)t.tv_sec * 1000000000 + t.tv_nsec;
}

static void expect(bool held)
{
    if (!held) {
        fprintf(stderr, "bench: an operation gave a wrong answer\n");
        exit(1);
    }
}

static uint64_t value_of(uint64_t key)
{
    return key * 3 + 1;
}

/* ---- keys ---- */

static uint64_t chance_state = 2026;

static uint64_t chance(void)
{
    uint64_t z = chance_state += 0x9e3779b97f4a7c15;
    z = (z ^ z >> 30) * 0xbf58476d1ce4e5b9;
    z = (z ^ z >> 27) * 0x94d049bb133111eb;
    return z ^ z >> 31;
}

static void shuffle(uint64_t *keys, size_t count)
{
    for (size_t i = count - 1; i > 0; i--) {
        size_t j = chance() % (i + 1);
        uint64_t kept = keys[i];
        keys[i] = keys[j];
        keys[j] = kept;
    }
}

/* The first half of each set is put, the second is looked up in vain. */
static void dense(uint64_t *keys)
{
    for (size_t i = 0; i < 2 * KEYS; i++)
        keys[i] = i + 1;
}

static void sparse(uint64_t *keys)
{
    for (size_t i = 0; i < 2 * KEYS; i++)
        keys[i] = chance();
}

/* Sixteen folders: 32 bits of folder, then 32 bits of name. The names in vain are of the same folders. */
static void clustered(uint64_t *keys)
{
    uint64_t folders[16];
    for (size_t i = 0; i < 16; i++)
        folders[i] = chance() << 32;
    for (size_t i = 0; i < 2 * KEYS; i++)
        keys[i] = folders[i % 16] | chance() >> 32;
}

static const struct {
    const char *name;
    void (*make)(uint64_t *keys);
} shapes[] = {{"dense", dense}, {"sparse", sparse}, {"clustered", clustered}};

#define SHAPES (sizeof shapes / sizeof *shapes)

/* ---- the contenders ---- */

#define CALL(name) wort_##name
#define PASS(name) wort_pass_##name
#include "passes.h"
#undef CALL
#undef PASS
#define CALL(name) plain_##name
#define PASS(name) plain_pass_##name
#include "passes.h"
#undef CALL
#undef PASS

/* A second copy of plain C: how far two copies of one program lie apart is what a ratio cannot tell. */
uint64_t again_format(uint64_t *, size_t, uint8_t *, size_t, uint64_t);
uint64_t again_open(uint64_t *, size_t, uint8_t *, size_t, uint64_t *, uint64_t *);
uint64_t again_lookup(const uint64_t *, size_t, uint64_t, uint64_t *, uint64_t *);
uint64_t again_lookup_quick(const uint64_t *, size_t, uint64_t, uint64_t *, uint64_t *);
uint64_t again_list(const uint64_t *, size_t, uint64_t, uint64_t *, size_t, uint64_t *, size_t, uint64_t *, uint64_t *);
uint64_t again_put(uint64_t *, size_t, uint8_t *, size_t, uint64_t, uint64_t, uint64_t *);
uint64_t again_delete(uint64_t *, size_t, uint8_t *, size_t, uint64_t, uint64_t *);
#define CALL(name) again_##name
#define PASS(name) again_pass_##name
#include "passes.h"

static Pvoid_t judy;

static void judy_empty(void)
{
    JudyLFreeArray(&judy, PJE0);
}

static void judy_put(const uint64_t *keys)
{
    for (size_t i = 0; i < KEYS; i++)
        *(Word_t *)JudyLIns(&judy, keys[i], PJE0) = value_of(keys[i]);
}

static uint64_t judy_hit(const uint64_t *keys)
{
    uint64_t sum = 0;
    for (size_t i = 0; i < KEYS; i++)
        sum += *(Word_t *)JudyLGet(judy, keys[i], PJE0);
    return sum;
}

static uint64_t judy_miss(const uint64_t *keys)
{
    uint64_t missed = 0;
    for (size_t i = 0; i < KEYS; i++)
        missed += JudyLGet(judy, keys[i], PJE0) == NULL;
    return missed;
}

static size_t judy_list(uint64_t *keys, uint64_t *values)
{
    size_t count = 0;
    Word_t key = 0;
    for (Word_t *value = (Word_t *)JudyLFirst(judy, &key, PJE0); value; value = (Word_t *)JudyLNext(judy, &key, PJE0)) {
        keys[count] = key;
        values[count++] = *value;
    }
    return count;
}

static void judy_del(const uint64_t *keys)
{
    for (size_t i = 0; i < KEYS; i++)
        expect(JudyLDel(&judy, keys[i], PJE0) == 1);
}

/* One transaction an operation, each synchronised, as it must be to survive a cut. The file is in memory where there is such a
 * place, so that no disk is waited for. */
static MDB_env *lmdb;
static MDB_dbi table;
static MDB_txn *reading;

static void lmdb_start(const char *directory)
{
    MDB_txn *txn;
    expect(!mdb_env_create(&lmdb) && !mdb_env_set_mapsize(lmdb, 64 << 20));
    expect(!mdb_env_open(lmdb, directory, MDB_NOTLS, 0600));
    expect(!mdb_txn_begin(lmdb, NULL, 0, &txn) && !mdb_dbi_open(txn, NULL, MDB_INTEGERKEY, &table));
    expect(!mdb_txn_commit(txn));
    expect(!mdb_txn_begin(lmdb, NULL, MDB_RDONLY, &reading));
    mdb_txn_reset(reading);
}

static void lmdb_empty(void)
{
    MDB_txn *txn;
    expect(!mdb_txn_begin(lmdb, NULL, 0, &txn) && !mdb_drop(txn, table, 0) && !mdb_txn_commit(txn));
}

static void lmdb_put(const uint64_t *keys)
{
    for (size_t i = 0; i < KEYS; i++) {
        MDB_txn *txn;
        uint64_t key = keys[i], value = value_of(key);
        MDB_val k = {sizeof key, &key}, v = {sizeof value, &value};
        expect(!mdb_txn_begin(lmdb, NULL, 0, &txn) && !mdb_put(txn, table, &k, &v, 0) && !mdb_txn_commit(txn));
    }
}

static bool lmdb_get(uint64_t key, uint64_t *value)
{
    MDB_val k = {sizeof key, &key}, v;
    expect(!mdb_txn_renew(reading));
    bool found = !mdb_get(reading, table, &k, &v);
    if (found)
        memcpy(value, v.mv_data, sizeof *value);
    mdb_txn_reset(reading);
    return found;
}

static uint64_t lmdb_hit(const uint64_t *keys)
{
    uint64_t sum = 0, value = 0;
    for (size_t i = 0; i < KEYS; i++) {
        lmdb_get(keys[i], &value);
        sum += value;
    }
    return sum;
}

static uint64_t lmdb_miss(const uint64_t *keys)
{
    uint64_t missed = 0, value;
    for (size_t i = 0; i < KEYS; i++)
        missed += !lmdb_get(keys[i], &value);
    return missed;
}

static size_t lmdb_list(uint64_t *keys, uint64_t *values)
{
    size_t count = 0;
    MDB_cursor *cursor;
    MDB_val k, v;
    expect(!mdb_txn_renew(reading) && !mdb_cursor_open(reading, table, &cursor));
    while (!mdb_cursor_get(cursor, &k, &v, MDB_NEXT)) {
        memcpy(keys + count, k.mv_data, sizeof *keys);
        memcpy(values + count++, v.mv_data, sizeof *values);
    }
    mdb_cursor_close(cursor);
    mdb_txn_reset(reading);
    return count;
}

static void lmdb_del(const uint64_t *keys)
{
    for (size_t i = 0; i < KEYS; i++) {
        MDB_txn *txn;
        uint64_t key = keys[i];
        MDB_val k = {sizeof key, &key};
        expect(!mdb_txn_begin(lmdb, NULL, 0, &txn) && !mdb_del(txn, table, &k, NULL) && !mdb_txn_commit(txn));
    }
}

extern void *btree_new(void);
extern void btree_free(void *btree);
extern void btree_put(void *btree, uint64_t key, uint64_t value);
extern bool btree_lookup(const void *btree, uint64_t key, uint64_t *value);
extern bool btree_delete(void *btree, uint64_t key);
extern size_t btree_list(const void *btree, uint64_t *keys, uint64_t *values, size_t length);

static void *btree;

static void btree_pass_empty(void)
{
    if (btree)
        btree_free(btree);
    btree = btree_new();
}

static void btree_pass_put(const uint64_t *keys)
{
    for (size_t i = 0; i < KEYS; i++)
        btree_put(btree, keys[i], value_of(keys[i]));
}

static uint64_t btree_pass_hit(const uint64_t *keys)
{
    uint64_t sum = 0, value = 0;
    for (size_t i = 0; i < KEYS; i++) {
        btree_lookup(btree, keys[i], &value);
        sum += value;
    }
    return sum;
}

static uint64_t btree_pass_miss(const uint64_t *keys)
{
    uint64_t missed = 0, value;
    for (size_t i = 0; i < KEYS; i++)
        missed += !btree_lookup(btree, keys[i], &value);
    return missed;
}

static size_t btree_pass_list(uint64_t *keys, uint64_t *values)
{
    return btree_list(btree, keys, values, KEYS);
}

static void btree_pass_del(const uint64_t *keys)
{
    for (size_t i = 0; i < KEYS; i++)
        expect(btree_delete(btree, keys[i]));
}

/* JudyL, BTreeMap and LMDB have one lookup: it is timed once more beside the quick one. */
static const struct contender {
    const char *name;
    void (*empty)(void);
    void (*put)(const uint64_t *keys);
    uint64_t (*hit)(const uint64_t *keys);
    uint64_t (*miss)(const uint64_t *keys);
    uint64_t (*quick_hit)(const uint64_t *keys);
    uint64_t (*quick_miss)(const uint64_t *keys);
    size_t (*list)(uint64_t *keys, uint64_t *values);
    void (*del)(const uint64_t *keys);
} contenders[] = {
    {"wort", wort_pass_empty, wort_pass_put, wort_pass_hit, wort_pass_miss, wort_pass_quick_hit, wort_pass_quick_miss,
     wort_pass_list, wort_pass_del},
    {"plain", plain_pass_empty, plain_pass_put, plain_pass_hit, plain_pass_miss, plain_pass_quick_hit, plain_pass_quick_miss,
     plain_pass_list, plain_pass_del},
    {"again", again_pass_empty, again_pass_put, again_pass_hit, again_pass_miss, again_pass_quick_hit, again_pass_quick_miss,
     again_pass_list, again_pass_del},
    {"judy", judy_empty, judy_put, judy_hit, judy_miss, judy_hit, judy_miss, judy_list, judy_del},
    {"btree", btree_pass_empty, btree_pass_put, btree_pass_hit, btree_pass_miss, btree_pass_hit, btree_pass_miss,
     btree_pass_list, btree_pass_del},
    {"lmdb", lmdb_empty, lmdb_put, lmdb_hit, lmdb_miss, lmdb_hit, lmdb_miss, lmdb_list, lmdb_del},
};

#define CONTENDERS (sizeof contenders / sizeof *contenders)

/* ---- times ---- */

static int by_size(const void *one, const void *other)
{
    double a = *(const double *)one, b = *(const double *)other;
    return (a > b) - (a < b);
}

static double median(double *times)
{
    qsort(times, ROUNDS, sizeof *times, by_size);
    return times[ROUNDS / 2];
}

static const char *const operations[] = {"put", "hit", "miss", "quick hit", "quick miss", "list", "delete"};

#define OPERATIONS (sizeof operations / sizeof *operations)

struct orders {
    uint64_t put[KEYS], hit[KEYS], miss[KEYS], del[KEYS];
    uint64_t sum; /* of all values held */
};

static void make_orders(struct orders *orders, const uint64_t *keys)
{
    uint64_t *const held[] = {orders->put, orders->hit, orders->del};
    for (size_t i = 0; i < 3; i++) {
        memcpy(held[i], keys, KEYS * sizeof *keys);
        shuffle(held[i], KEYS);
    }
    memcpy(orders->miss, keys + KEYS, KEYS * sizeof *keys);
    shuffle(orders->miss, KEYS);
    orders->sum = 0;
    for (size_t i = 0; i < KEYS; i++)
        orders->sum += value_of(keys[i]);
}

/* One pass of every operation, from empty to empty; nanoseconds for each key. */
static void run_round(const struct contender *contender, const struct orders *orders, double times[OPERATIONS])
{
    static uint64_t keys[KEYS], values[KEYS];
    contender->empty();
    uint64_t begin = now();
    contender->put(orders->put);
    uint64_t put = now();
    uint64_t sum = contender->hit(orders->hit);
    uint64_t hit = now();
    uint64_t missed = contender->miss(orders->miss);
    uint64_t miss = now();
    uint64_t quick_sum = contender->quick_hit(orders->hit);
    uint64_t quick_hit = now();
    uint64_t quick_missed = contender->quick_miss(orders->miss);
    uint64_t quick_miss = now();
    size_t listed = contender->list(keys, values);
    uint64_t list = now();
    contender->del(orders->del);
    uint64_t end = now();
    expect(sum == orders->sum && missed == KEYS && listed == KEYS);
    expect(quick_sum == orders->sum && quick_missed == KEYS);
    for (size_t i = 0; i + 1 < KEYS; i++)
        expect(keys[i] < keys[i + 1] && values[i] == value_of(keys[i]));
    const uint64_t spent[] = {put - begin, hit - put, miss - hit, quick_hit - miss, quick_miss - quick_hit, list - quick_miss, end - list};
    for (size_t i = 0; i < OPERATIONS; i++)
        times[i] = (double)spent[i] / KEYS;
}

static void time_shape(const char *shape, const uint64_t *keys)
{
    static double times[CONTENDERS][OPERATIONS][ROUNDS];
    static struct orders orders;
    make_orders(&orders, keys);
    for (size_t round = 0; round < ROUNDS; round++) {
        for (size_t i = 0; i < CONTENDERS; i++) {
            size_t c = (round + i) % CONTENDERS; /* each goes first in its turn */
            double spent[OPERATIONS];
            run_round(&contenders[c], &orders, spent);
            for (size_t o = 0; o < OPERATIONS; o++)
                times[c][o][round] = spent[o];
        }
    }
    for (size_t c = 0; c < CONTENDERS; c++)
        for (size_t o = 0; o < OPERATIONS; o++)
            printf("time\t%s\t%s\t%s\t%.2f\n", shape, operations[o], contenders[c].name, median(times[c][o]));
}

/* ---- open ---- */

/* Makes every header stale that can be: its depth becomes its branch place, and it stores no digits. A header of length 0
 * cannot be stale, so the keys of this pool part at every second digit. */
static uint64_t make_stale(uint64_t *stale, uint64_t n)
{
    uint64_t count = 0, *node = stale + 2 + 2 * n;
    for (uint64_t j = 0; j < n - 1 && map[n + j]; j++, node += 17) {
        uint64_t length = *node >> 48 & 255, b = (*node >> 56) + length;
        *node = b << 56;
        count += length > 0;
    }
    return count;
}

/* Keys whose digits at odd places alone differ, four children to a node: each node has a prefix, the root too. */
static uint64_t open_key(uint64_t i)
{
    uint64_t key = 0x1010101010101010;
    for (unsigned place = 1; i; place += 2, i /= 4)
        key |= (i % 4) << (60 - 4 * place);
    return key;
}

static void time_open(uint64_t n)
{
    double (*const opens[])(uint64_t *, uint64_t, uint64_t *) = {wort_pass_open, plain_pass_open, again_pass_open};
    static double times[2][3][ROUNDS];
    static uint64_t straight[WORDS], stale[WORDS], opened[WORDS];
    uint64_t stores, headers, size = WORT_WORDS(n) * sizeof *straight;
    expect(!wort_format(straight, WORT_WORDS(n), map, WORT_BYTES(n), n));
    for (uint64_t i = 0; i < n; i++)
        expect(!wort_put(straight, WORT_WORDS(n), map, WORT_BYTES(n), open_key(i), i + 1, &stores));
    memcpy(stale, straight, size);
    uint64_t wanted = make_stale(stale, n);
    for (size_t round = 0; round < ROUNDS; round++) {
        for (size_t all = 0; all < 2; all++) {
            for (size_t i = 0; i < 3; i++) {
                size_t c = (round + i) % 3;
                memcpy(opened, all ? stale : straight, size);
                times[all][c][round] = opens[c](opened, n, &headers);
                expect(headers == (all ? wanted : 0) && !memcmp(opened, straight, size));
            }
        }
    }
    for (size_t all = 0; all < 2; all++)
        for (size_t c = 0; c < 3; c++)
            printf("open\t%lu\t%s\t%s\t%.0f\t%lu\n", (unsigned long)n, all ? "all" : "none", contenders[c].name,
                   median(times[all][c]), (unsigned long)(all ? wanted : 0));
}

/* ---- what a plan costs to make persistent ---- */

struct cost {
    uint64_t operations, stores, groups, parts, lines, flushes;
};

/* What the paper's algorithm 1 flushes, a call for each: leaf, new node, header, reference. */
static uint64_t count_parts(uint64_t stores)
{
    return stores < 3 ? stores : stores == 3 ? 2 : stores == 20 ? 3 : 4;
}

/* Distinct lines among the stores from one to another. */
static uint64_t count_lines(const uint64_t *plan, uint64_t from, uint64_t to)
{
    uint64_t lines = 0;
    for (uint64_t i = from; i < to; i++) {
        bool before = false;
        for (uint64_t j = from; j < i; j++)
            before |= plan[PLAN_PLACES + j] / LINE_WORDS == plan[PLAN_PLACES + i] / LINE_WORDS;
        lines += !before;
    }
    return lines;
}

/* A line is flushed once for each group that stores to it. The plans are for ADR: a fence behind each group. */
static void add_cost(struct cost *cost, const uint64_t *plan)
{
    uint64_t count = plan[PLAN_COUNT], first = plan[PLAN_FIRST];
    cost->operations++;
    cost->stores += count;
    cost->groups += plan[PLAN_FENCES];
    cost->parts += count_parts(count);
    cost->lines += count_lines(plan, 0, count);
    cost->flushes += count_lines(plan, 0, first) + count_lines(plan, first, count);
}

static void carry_out(const uint64_t *plan)
{
    for (uint64_t at = 0; at < plan[PLAN_COUNT]; at++)
        expect(!wort_step(pool, WORDS, plan, at));
    expect(!wort_finish(map, BYTES, plan));
}

static void show_cost(const char *shape, const char *operation, const struct cost *cost)
{
    double operations = cost->operations ? cost->operations : 1;
    printf("cost\t%s\t%s\t%lu\t%.3f\t%.3f\t%.3f\t%.3f\t%.3f\n", shape, operation, (unsigned long)cost->operations,
           cost->stores / operations, cost->groups / operations, cost->parts / operations, cost->lines / operations,
           cost->flushes / operations);
}

static void count_costs(const char *shape, const uint64_t *keys)
{
    static struct orders orders;
    struct cost insert = {0}, add = {0}, split_leaf = {0}, split_node = {0}, replace = {0}, del = {0}, merge_node = {0};
    uint64_t plan[WORT_PLAN];
    make_orders(&orders, keys);
    wort_pass_empty();
    for (size_t i = 0; i < KEYS; i++) {
        expect(!wort_plan_put(pool, WORDS, map, BYTES, orders.put[i], 1, WORT_ADR, plan));
        add_cost(&insert, plan);
        add_cost(plan[PLAN_COUNT] == 3 ? &add : plan[PLAN_COUNT] == 20 ? &split_leaf : &split_node, plan);
        carry_out(plan);
    }
    for (size_t i = 0; i < KEYS; i++) {
        expect(!wort_plan_put(pool, WORDS, map, BYTES, orders.hit[i], 2, WORT_ADR, plan));
        add_cost(&replace, plan);
        carry_out(plan);
    }
    for (size_t i = 0; i < KEYS; i++) {
        expect(!wort_plan_delete(pool, WORDS, orders.del[i], WORT_ADR, plan));
        add_cost(&del, plan);
        if (plan[PLAN_COUNT] == 2)
            add_cost(&merge_node, plan);
        carry_out(plan);
    }
    show_cost(shape, "put, new key", &insert);
    show_cost(shape, "into an empty reference", &add);
    show_cost(shape, "split of a leaf's reference", &split_leaf);
    show_cost(shape, "split of a node's reference", &split_node);
    show_cost(shape, "put, held key", &replace);
    show_cost(shape, "delete", &del);
    show_cost(shape, "merge with a node", &merge_node);
}

int main(int argc, char **argv)
{
    static uint64_t keys[SHAPES][2 * KEYS];
    if (argc != 2) {
        fprintf(stderr, "usage: bench DIRECTORY (where LMDB may keep its file)\n");
        return 2;
    }
    lmdb_start(argv[1]);
    for (size_t s = 0; s < SHAPES; s++) {
        shapes[s].make(keys[s]);
        time_shape(shapes[s].name, keys[s]);
    }
    time_open(64);
    time_open(256);
    time_open(1024);
    for (size_t s = 0; s < SHAPES; s++)
        count_costs(shapes[s].name, keys[s]);
    return 0;
}
