/* Counts checks, and prints the first that fail with their place; numbers that are the same at each run, and lent memory.
 * Each test program includes it once. */
#ifndef DUSKVEYRA_TESTS_CHECK_H
#define DUSKVEYRA_TESTS_CHECK_H

#include <stdint.h>
#include <stdio.h>
#include <stdlib.h>
#include <string.h>

static unsigned long checks = 0;
static unsigned long failed = 0;

static void check(int holds, const char *file, int line, const char *what)
{
    checks++;
    if (!holds) {
        failed++;
        if (failed <= 20)
            printf("%s:%d: %s\n", file, line, what);
    }
}

#define CHECK(condition) check((condition) != 0, __FILE__, __LINE__, #condition)

/* What a byte of lent memory holds before a call. */
#define FILL 0xa5

/* Memory of an exact length on the heap, so that valgrind sees an access past either end. */
static inline void *lent_memory(size_t length)
{
    void *memory = malloc(length == 0 ? 1 : length);
    if (memory == NULL)
        abort();
    memset(memory, FILL, length == 0 ? 1 : length);
    return memory;
}

static uint64_t random_state = UINT64_C(0x9e3779b97f4a7c15);

static inline uint64_t random64(void)
{
    random_state ^= random_state << 13;
    random_state ^= random_state >> 7;
    random_state ^= random_state << 17;
    return random_state * UINT64_C(0x2545f4914f6cdd1d);
}

static inline uint64_t below(uint64_t limit)
{
    return (random64() >> 11) % limit;
}

#endif
