/* The whole calls once more, over the planning calls of plain.c: each store is one 8-byte move, in the plan's order, as in the library.
 * The test of stores at the machine is tried on it, as it stands and with a mistake that the test has to find:
 *   -DEXCHANGED   a new leaf's value is stored before its key
 *   -DWIDE        the first two children of a new node are stored at once, in 16 bytes
 *   -DREPEATED    the children of a new node are stored by one repeated instruction: word by word under single steps, but not else */
#include "../include/wort.h"
#include "plain.h"
#include <emmintrin.h>

enum { SPLIT = 20, FIRST_CHILD = 3, CHILDREN = 16 }; /* a split's stores at least, and which are the children's */

/* The compiler may neither join nor exchange volatile stores. */
static void store(uint64_t *pool, const uint64_t *plan, uint64_t at)
{
    *(volatile uint64_t *)(pool + plan[PLAN_PLACES + at]) = plan[PLAN_VALUES + at];
}

static void make(uint64_t *pool, const uint64_t *plan)
{
    for (uint64_t at = 0; at < plan[PLAN_COUNT]; at++) {
#if defined EXCHANGED
        store(pool, plan, plan[PLAN_COUNT] > 2 && at < 2 ? 1 - at : at);
        continue;
#elif defined WIDE
        if (plan[PLAN_COUNT] >= SPLIT && at == FIRST_CHILD) {
            __m128i two = _mm_loadu_si128((const __m128i *)(plan + PLAN_VALUES + at));
            _mm_storeu_si128((__m128i *)(pool + plan[PLAN_PLACES + at]), two);
            at++;
            continue;
        }
#elif defined REPEATED
        if (plan[PLAN_COUNT] >= SPLIT && at == FIRST_CHILD) {
            uint64_t *to = pool + plan[PLAN_PLACES + at], left = CHILDREN;
            const uint64_t *from = plan + PLAN_VALUES + at;
            __asm__ volatile("rep movsq" : "+D"(to), "+S"(from), "+c"(left) : : "memory");
            at += CHILDREN - 1;
            continue;
        }
#endif
        store(pool, plan, at);
    }
}

/* The planning calls of delete and open do not judge the map. */
static int map_fits(const uint64_t *pool, size_t words, size_t bytes)
{
    return words && bytes == 2 * pool[0] - 1;
}

uint64_t wort_format(uint64_t *pool, size_t words, uint8_t *map, size_t bytes, uint64_t n)
{
    const uint64_t plan[PLAIN_PLAN] = {[PLAN_COUNT] = 2, [PLAN_PLACES] = 1, 0, [PLAN_VALUES] = 0, n};
    if (n - 1 >= 1024 || words != WORT_WORDS(n) || bytes != WORT_BYTES(n))
        return 1;
    make(pool, plan);
    for (size_t i = 0; i < bytes; i++)
        map[i] = 0;
    return 0;
}

uint64_t wort_put(uint64_t *pool, size_t words, uint8_t *map, size_t bytes, uint64_t key, uint64_t value, uint64_t *stores)
{
    uint64_t plan[PLAIN_PLAN];
    uint64_t number = wort_plan_put(pool, words, map, bytes, key, value, WORT_EADR, plan);
    make(pool, plan);
    wort_finish(map, bytes, plan);
    *stores = plan[PLAN_COUNT];
    return number;
}

uint64_t wort_delete(uint64_t *pool, size_t words, uint8_t *map, size_t bytes, uint64_t key, uint64_t *stores)
{
    uint64_t plan[PLAIN_PLAN];
    *stores = 0;
    if (!map_fits(pool, words, bytes))
        return 1;
    uint64_t number = wort_plan_delete(pool, words, key, WORT_EADR, plan);
    make(pool, plan);
    wort_finish(map, bytes, plan);
    *stores = plan[PLAN_COUNT];
    return number;
}

/* When no stale header is left, plain.c's open stores nothing and makes the map. */
uint64_t wort_open(uint64_t *pool, size_t words, uint8_t *map, size_t bytes, uint64_t *keys, uint64_t *headers)
{
    uint64_t plan[PLAIN_PLAN], made = 0;
    while (map_fits(pool, words, bytes) && !wort_plan_open(pool, words, WORT_EADR, plan) && plan[PLAN_COUNT]) {
        make(pool, plan);
        made++;
    }
    uint64_t number = plain_open(pool, words, map, bytes, keys, headers);
    *headers = made;
    return number;
}
