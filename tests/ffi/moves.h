/* What the programs on moves share: both ways, and what is wrong of a move. See tests/ffi/run. */
#ifndef MOVES_H
#define MOVES_H

#include "built.h"
#include "lines.h"

/* One way: the call, and the words of a record that it takes and gives. */
struct way {
    const char *name;
    void (*move)(size_t doc_len, const uint8_t *lines, size_t lines_len, uint8_t *out, size_t out_len, uint64_t *answer);
    size_t from, to;
};
static const struct way ways[] = {{"up", tikfazrul_lines_up, 8, 9}, {"down", tikfazrul_lines_down, 9, 8}};
#define UP (&ways[0])
#define DOWN (&ways[1])
#define EACH_WAY(way) for (const struct way *way = ways; way < ways + 2; way++)

/* Bytes that are lines, or are meant to be. */
struct lines {
    const uint8_t *bytes;
    size_t n;
};
static const struct lines none;

#define LINES(s) ((struct lines){(const uint8_t *)(s), sizeof(s) - 1})

/* The bytes of a line of so many words. */
static inline size_t line_of(size_t width)
{
    return width == 9 ? LINE : OLD_LINE;
}

/* The lines of a table in one width; to be freed. */
static inline struct lines kept(const uint32_t *t, size_t records, size_t width)
{
    return (struct lines){lines_of(t, records, width), records * line_of(width)};
}

static inline void drop(struct lines lines)
{
    free((void *)lines.bytes);
}

/* Moves lines into so many bytes: refused with the number at the place unless that is 0, else these lines are made. What is wrong of it; bytes
 * behind the room are looked at too. */
static inline int moving(const struct way *way, size_t doc_len, struct lines from, size_t room, uint64_t number, uint64_t place, struct lines made)
{
    const size_t around = room + 8;
    uint8_t *out = lent(around), *before = lent(from.n);
    uint64_t a[8];
    int wrong = 0;
    size_t i;
    memset(out, 0xAA, around);
    if (from.n)
        memcpy(before, from.bytes, from.n);
    memset(a, 0x55, sizeof a);
    way->move(doc_len, from.bytes, from.n, room ? out : NULL, room, a);
    if (!answers(a, number, place, made.n, 0))
        wrong |= ANSWER;
    if (from.n && memcmp(before, from.bytes, from.n))
        wrong |= SOURCE;
    if (made.n && memcmp(out, made.bytes, made.n))
        wrong |= MADE;
    for (i = made.n; i < around && out[i] == 0xAA; i++)
        ;
    if (i < around)
        wrong |= OTHER;
    free(out);
    free(before);
    return wrong;
}

/* The same where it is refused, or moved into as many bytes as it takes. */
static inline int refusing(const struct way *way, size_t doc_len, struct lines from, size_t room, uint64_t number, uint64_t place)
{
    return moving(way, doc_len, from, room, number, place, none);
}

static inline int moving_all(const struct way *way, size_t doc_len, struct lines from, struct lines made)
{
    return moving(way, doc_len, from, made.n, 0, 0, made);
}

static inline void judge_way(const struct way *way, const char *what, int wrong)
{
    if (wrong)
        printf("%s, ", way->name);
    judge(what, wrong);
}

static inline void moved(const char *what, const struct way *way, size_t doc_len, struct lines from, struct lines made)
{
    judge_way(way, what, moving_all(way, doc_len, from, made));
}

static inline void refused(const char *what, const struct way *way, size_t doc_len, struct lines from, size_t room, uint64_t number, uint64_t place)
{
    judge_way(way, what, refusing(way, doc_len, from, room, number, place));
}

/* One move after the other: the first lines come back. */
static inline int there_and_back(const struct way *there, const struct way *back, size_t doc_len, struct lines from, size_t records)
{
    const size_t n = records * line_of(there->to);
    uint8_t *out = lent(n), *again = lent(from.n);
    uint64_t a[8], b[8];
    there->move(doc_len, from.bytes, from.n, out, n, a);
    back->move(doc_len, out, n, again, from.n, b);
    int wrong = answers(a, 0, 0, n, 0) && answers(b, 0, 0, from.n, 0) ? 0 : ANSWER;
    if (memcmp(again, from.bytes, from.n))
        wrong |= MADE;
    free(out);
    free(again);
    return wrong;
}

/* A table with the right parents, both ways and back. */
static inline int both_ways(const uint32_t *t, size_t records, size_t doc_len)
{
    struct lines old = kept(t, records, 8), now = kept(t, records, 9);
    int wrong = moving_all(UP, doc_len, old, now) | moving_all(DOWN, doc_len, now, old);
    wrong |= there_and_back(UP, DOWN, doc_len, old, records) | there_and_back(DOWN, UP, doc_len, now, records);
    drop(old);
    drop(now);
    return wrong;
}

/* Any words: moved where they form a table of the width that is taken, else 10 before 13. `table` says which; on the way up their parents are
 * worked out, into `t`. */
static inline int by_rule(const struct way *way, size_t doc_len, uint32_t *t, size_t records, int *table)
{
    struct lines from = kept(t, records, way->from), made;
    int wrong;
    *table = forms_table(t, records, way->from, doc_len);
    if (way == UP)
        for (size_t i = 0; i < records; i++)
            t[TIKFAZRUL_WORDS * i + TIKFAZRUL_PARENT] = parent_of(t, i);
    made = kept(t, records, way->to);
    if (*table)
        wrong = moving_all(way, doc_len, from, made) | refusing(way, doc_len, from, made.n - 1, 13, 0);
    else
        wrong = refusing(way, doc_len, from, made.n, 10, 0) | refusing(way, doc_len, from, made.n - 1, 10, 0);
    drop(from);
    drop(made);
    return wrong;
}

#endif
