/* Formats a pool of 16 places, puts three names, looks one up, lists all.
 * (cd crates/wort && rt lib) && mkdir -p build && gcc -Iinclude examples/hello.c crates/wort/out/libwort.a -o build/hello && build/hello */
#include "wort.h"
#include <stdio.h>

#define N 16

int main(void)
{
    static uint64_t pool[WORT_WORDS(N)]; /* in persistent memory: see examples/durable.c */
    static uint8_t map[WORT_BYTES(N)];   /* lost at a cut: wort_open makes it anew */
    uint64_t keys[N], values[N], stores, value, nodes, count, more;

    if (wort_format(pool, WORT_WORDS(N), map, WORT_BYTES(N), N) != 0)
        return 1;
    for (uint64_t name = 1; name <= 3; name++) {
        uint64_t key = (uint64_t)7 << 32 | name * 257; /* 32 bits of folder, then 32 bits of name */
        if (wort_put(pool, WORT_WORDS(N), map, WORT_BYTES(N), key, 100 + name, &stores) != 0)
            return 1;
        printf("put    %016lx: file %lu, %lu stores\n", (unsigned long)key, 100 + (unsigned long)name, (unsigned long)stores);
    }
    if (wort_lookup(pool, WORT_WORDS(N), (uint64_t)7 << 32 | 514, &value, &nodes) != 0)
        return 1;
    printf("lookup %016lx: file %lu\n", 7ul << 32 | 514, (unsigned long)value);
    if (wort_list(pool, WORT_WORDS(N), 0, keys, N, values, N, &count, &more) != 0)
        return 1;
    for (uint64_t i = 0; i < count; i++)
        printf("listed %016lx: file %lu\n", (unsigned long)keys[i], (unsigned long)values[i]);
    return 0;
}
