/* The calls of include/wort.h, with the prefix plain_: the same rules in plain C, as a measure for the library. */
#ifndef PLAIN_H
#define PLAIN_H
#include <stddef.h>
#include <stdint.h>

/* A plan's words, by their places: the count, the stores of the first group, fences, effect, its data (a leaf's and a node's map byte, a
 * word that no effect uses), then the word numbers and the values, with places for more stores than a plan may hold. */
enum { PLAN_COUNT, PLAN_FIRST, PLAN_FENCES, PLAN_EFFECT, PLAN_LEAF, PLAN_NODE, PLAN_SPARE, PLAN_PLACES, PLAN_ROOM = 23 };
#define PLAN_VALUES (PLAN_PLACES + PLAN_ROOM)
#define PLAIN_PLAN (PLAN_VALUES + PLAN_ROOM)

uint64_t plain_format(uint64_t *pool, size_t words, uint8_t *map, size_t bytes, uint64_t n);
uint64_t plain_open(uint64_t *pool, size_t words, uint8_t *map, size_t bytes, uint64_t *keys, uint64_t *headers);
uint64_t plain_lookup(const uint64_t *pool, size_t words, uint64_t key, uint64_t *value, uint64_t *nodes);
uint64_t plain_lookup_quick(const uint64_t *pool, size_t words, uint64_t key, uint64_t *value, uint64_t *nodes);
uint64_t plain_list(const uint64_t *pool, size_t words, uint64_t from,
                    uint64_t *keys, size_t keys_len, uint64_t *values, size_t values_len, uint64_t *count, uint64_t *more);
uint64_t plain_put(uint64_t *pool, size_t words, uint8_t *map, size_t bytes, uint64_t key, uint64_t value, uint64_t *stores);
uint64_t plain_delete(uint64_t *pool, size_t words, uint8_t *map, size_t bytes, uint64_t key, uint64_t *stores);

uint64_t plain_plan_put(const uint64_t *pool, size_t words, const uint8_t *map, size_t bytes, uint64_t key, uint64_t value,
                        uint64_t generation, uint64_t plan[PLAIN_PLAN]);
uint64_t plain_plan_delete(const uint64_t *pool, size_t words, uint64_t key, uint64_t generation, uint64_t plan[PLAIN_PLAN]);
uint64_t plain_plan_open(const uint64_t *pool, size_t words, uint64_t generation, uint64_t plan[PLAIN_PLAN]);
uint64_t plain_step(uint64_t *pool, size_t words, const uint64_t plan[PLAIN_PLAN], uint64_t at);
uint64_t plain_finish(uint8_t *map, size_t bytes, const uint64_t plan[PLAIN_PLAN]);

#endif
