/* One pass of each operation over the calls CALL(put), CALL(lookup), ...: included once for each version of the rules,
 * so that both are called in the same way. */

static void PASS(empty)(void)
{
    CALL(format)(pool, WORDS, map, BYTES, KEYS);
}

static void PASS(put)(const uint64_t *keys)
{
    uint64_t stores;
    for (size_t i = 0; i < KEYS; i++)
        expect(CALL(put)(pool, WORDS, map, BYTES, keys[i], value_of(keys[i]), &stores) == 0);
}

typedef uint64_t PASS(look)(const uint64_t *, size_t, uint64_t, uint64_t *, uint64_t *);

/* Inlined with one of the two lookups, which is called by its name then. */
static inline __attribute__((always_inline)) uint64_t PASS(hits)(PASS(look) *look, const uint64_t *keys)
{
    uint64_t sum = 0, value, nodes;
    for (size_t i = 0; i < KEYS; i++) {
        look(pool, WORDS, keys[i], &value, &nodes);
        sum += value;
    }
    return sum;
}

static inline __attribute__((always_inline)) uint64_t PASS(misses)(PASS(look) *look, const uint64_t *keys)
{
    uint64_t missed = 0, value, nodes;
    for (size_t i = 0; i < KEYS; i++)
        missed += look(pool, WORDS, keys[i], &value, &nodes) != 0;
    return missed;
}

static uint64_t PASS(hit)(const uint64_t *keys)
{
    return PASS(hits)(CALL(lookup), keys);
}

static uint64_t PASS(miss)(const uint64_t *keys)
{
    return PASS(misses)(CALL(lookup), keys);
}

static uint64_t PASS(quick_hit)(const uint64_t *keys)
{
    return PASS(hits)(CALL(lookup_quick), keys);
}

static uint64_t PASS(quick_miss)(const uint64_t *keys)
{
    return PASS(misses)(CALL(lookup_quick), keys);
}

static size_t PASS(list)(uint64_t *keys, uint64_t *values)
{
    uint64_t count, more;
    CALL(list)(pool, WORDS, 0, keys, KEYS, values, KEYS, &count, &more);
    return count;
}

static void PASS(del)(const uint64_t *keys)
{
    uint64_t stores;
    for (size_t i = 0; i < KEYS; i++)
        expect(CALL(delete)(pool, WORDS, map, BYTES, keys[i], &stores) == 0);
}

static double PASS(open)(uint64_t *opened, uint64_t n, uint64_t *headers)
{
    uint64_t keys;
    uint64_t begin = now();
    uint64_t number = CALL(open)(opened, WORT_WORDS(n), map, WORT_BYTES(n), &keys, headers);
    uint64_t end = now();
    expect(number == 0 && keys == n);
    return end - begin;
}
