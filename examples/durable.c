/* A put that is durable when it returns, and the recovery at start, on each platform generation. A put is cut on purpose, and recovered from.
 * (cd crates/wort && rt lib) && mkdir -p build && gcc -Iinclude examples/durable.c crates/wort/out/libwort.a -o build/durable && build/durable */
#include "wort.h"
#include <stdio.h>

#define N 16

static uint64_t pool[WORT_WORDS(N)]; /* in persistent memory */
static uint8_t map[WORT_BYTES(N)];   /* lost at a cut: wort_open makes it anew */
static unsigned flushed;

/* The caller's own. On x86-64: clwb, or clflushopt, of the word's line. */
static void flush(const uint64_t *word)
{
    flushed += word >= pool && word < pool + WORT_WORDS(N);
}

/* And sfence. Here it says how many words were flushed since the last one. */
static void fence(void)
{
    printf(" flush %u, fence;", flushed);
    flushed = 0;
}

enum { COUNT, FIRST, FENCES, WORD = 7 };

uint64_t put_adr(uint64_t key, uint64_t value)
{
    uint64_t plan[WORT_PLAN];
    uint64_t number = wort_plan_put(pool, WORT_WORDS(N), map, WORT_BYTES(N), key, value, WORT_ADR, plan);
    for (uint64_t at = 0; at < plan[COUNT]; at++) {
        wort_step(pool, WORT_WORDS(N), plan, at);
        flush(&pool[plan[WORD + at]]);
        if (at + 1 == plan[FIRST] || at + 1 == plan[COUNT])
            fence();
    }
    wort_finish(map, WORT_BYTES(N), plan);
    return number;
}

uint64_t recover_adr(void)
{
    uint64_t plan[WORT_PLAN], keys, headers;
    while (wort_plan_open(pool, WORT_WORDS(N), WORT_ADR, plan) == 0 && plan[COUNT] == 1) {
        wort_step(pool, WORT_WORDS(N), plan, 0);
        flush(&pool[plan[WORD]]);
        fence();
    }
    return wort_open(pool, WORT_WORDS(N), map, WORT_BYTES(N), &keys, &headers);
}

uint64_t put_eadr(uint64_t key, uint64_t value)
{
    uint64_t stores;
    return wort_put(pool, WORT_WORDS(N), map, WORT_BYTES(N), key, value, &stores);
}

uint64_t recover_eadr(void)
{
    uint64_t keys, headers;
    return wort_open(pool, WORT_WORDS(N), map, WORT_BYTES(N), &keys, &headers);
}

/* Power goes before a put's last store: what was stored stays, and the map is lost. The plan's fences, or a refusal's -1. */
static int cut_put(uint64_t key, uint64_t value, uint64_t generation)
{
    uint64_t plan[WORT_PLAN];
    if (wort_plan_put(pool, WORT_WORDS(N), map, WORT_BYTES(N), key, value, generation, plan) != 0)
        return -1;
    for (uint64_t at = 0; at + 1 < plan[COUNT]; at++)
        wort_step(pool, WORT_WORDS(N), plan, at);
    for (size_t i = 0; i < WORT_BYTES(N); i++)
        map[i] = 1;
    return (int)plan[FENCES];
}

static int show(const char *what, uint64_t number)
{
    printf(" %s %lu\n", what, (unsigned long)number);
    return number != 0;
}

/* The third put splits the reference to a node, whose header is then stale until it is recovered. */
static int run(const char *name, uint64_t generation, uint64_t (*put)(uint64_t, uint64_t), uint64_t (*recover)(void))
{
    const uint64_t keys[] = {0x200, 0x202, 0x222};
    uint64_t value, nodes;
    int wrong = wort_format(pool, WORT_WORDS(N), map, WORT_BYTES(N), N) != 0;
    if (generation == WORT_ADR) { /* format stores to two words */
        printf("%s, format:", name);
        flush(&pool[0]);
        flush(&pool[1]);
        fence();
        printf("\n");
    }
    for (uint64_t i = 0; i < 3; i++) {
        if (i == 2) {
            printf("%s, a put of %lx cut: its plan has %d fences\n", name, (unsigned long)keys[i], cut_put(keys[i], i + 1, generation));
            printf("%s, recovery:", name);
            wrong |= show("open", recover());
        }
        printf("%s, put of %lx:", name, (unsigned long)keys[i]);
        wrong |= show("put", put(keys[i], i + 1));
    }
    for (uint64_t i = 0; i < 3; i++)
        wrong |= wort_lookup(pool, WORT_WORDS(N), keys[i], &value, &nodes) != 0 || value != i + 1;
    return wrong;
}

int main(void)
{
    return run("ADR", WORT_ADR, put_adr, recover_adr) | run("eADR", WORT_EADR, put_eadr, recover_eadr);
}
