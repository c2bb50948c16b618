/* What the C programs share: counting what holds, the answer's words, lent memory, a record's words. See tests/ffi/run. */
#ifndef EXPECT_H
#define EXPECT_H

#include "tikfazrul.h"
#include <stdio.h>
#include <stdlib.h>
#include <string.h>

static int passed, failed;

static inline void expect(const char *what, int holds)
{
    if (holds) {
        passed++;
    } else {
        failed++;
        printf("failed: %s\n", what);
    }
}

/* The last line, and the program's exit status. */
static inline int report(void)
{
    printf("%d passed, %d failed\n", passed, failed);
    return failed != 0;
}

/* number, place and two values; the other words are 0 */
static inline int answers(const uint64_t a[8], uint64_t number, uint64_t place, uint64_t first, uint64_t second)
{
    return a[0] == number && a[1] == place && a[2] == first && a[3] == second && !a[4] && !a[5] && !a[6] && !a[7];
}

/* So many zero bytes. */
static inline void *lent(size_t bytes)
{
    void *p = calloc(bytes ? bytes : 1, 1);
    if (!p)
        exit(2);
    return p;
}

/* So many records of zero words. */
static inline uint32_t *lent_records(size_t n)
{
    return lent(n * TIKFAZRUL_WORDS * sizeof(uint32_t));
}

/* So many words that no call leaves by chance. */
static inline uint32_t *filled(size_t words)
{
    uint32_t *t = lent(4 * words);
    for (size_t i = 0; i < words; i++)
        t[i] = 0xABABABAB;
    return t;
}

static inline int all(const uint32_t *t, size_t from, size_t to, uint32_t word)
{
    for (size_t i = from; i < to; i++)
        if (t[i] != word)
            return 0;
    return 1;
}

/* Record n of a table. */
static inline void put(uint32_t *t, size_t n, uint32_t kind, uint32_t name, uint32_t name_len, uint32_t start, uint32_t len, uint32_t count,
                       uint32_t list_kind, uint32_t end, uint32_t parent)
{
    uint32_t words[TIKFAZRUL_WORDS] = {kind, name, name_len, start, len, count, list_kind, end, parent};
    memcpy(t + TIKFAZRUL_WORDS * n, words, sizeof words);
}

/* A table of the root and lists within it, so many containers deep, whose names and payloads are empty: each stands in the one before. */
static inline uint32_t *chain(uint32_t deep)
{
    uint32_t *t = lent_records(deep);
    for (uint32_t i = 0; i < deep; i++)
        put(t, i, i ? 9 : 10, 0, 0, 0, 0, i + 1 < deep, i && i + 1 < deep ? 9 : 0, deep, i ? i - 1 : 0);
    return t;
}

#endif
