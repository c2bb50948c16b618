/* Tables and documents built, and tables judged, by the rules alone: no call of the library is in it. Words stand by nines; where a table of eight
 * words is meant (02, [8]), the ninth is not looked at. See tests/ffi/run. */
#ifndef BUILT_H
#define BUILT_H

#include "expect.h"

/* A random number below n, the same in each run. */
static inline uint32_t below(uint32_t n)
{
    static uint64_t seed = 88172645463325252;
    seed ^= seed << 13;
    seed ^= seed >> 7;
    seed ^= seed << 17;
    return seed % n;
}

static inline uint32_t word(const uint32_t *t, size_t n, size_t k)
{
    return t[TIKFAZRUL_WORDS * n + k];
}

static inline int is_container(const uint32_t *t, size_t n)
{
    return word(t, n, TIKFAZRUL_KIND) == 9 || word(t, n, TIKFAZRUL_KIND) == 10;
}

/* The bytes of a number (rule 4), or of an array's element. */
static inline uint64_t bytes_each(uint32_t kind)
{
    static const uint64_t bytes[] = {0, 1, 2, 4, 8, 4, 8, 1, 0, 0, 0, 4, 8};
    return bytes[kind];
}

/* Rule 7 of a record by itself: kind, spans, lengths, and the words that are 0. */
static inline int record_agrees(const uint32_t *t, size_t n, uint64_t doc_len)
{
    const uint32_t *r = t + TIKFAZRUL_WORDS * n;
    uint32_t kind = r[TIKFAZRUL_KIND];
    uint64_t length = r[TIKFAZRUL_LENGTH], count = r[TIKFAZRUL_COUNT];
    if (kind < 1 || kind > 12)
        return 0;
    if ((uint64_t)r[TIKFAZRUL_NAME] + r[TIKFAZRUL_NAME_LENGTH] > doc_len || r[TIKFAZRUL_START] + length > doc_len)
        return 0;
    if (kind != 9 && r[TIKFAZRUL_LIST_KIND])
        return 0;
    if (is_container(t, n))
        return !r[TIKFAZRUL_START] && !length;
    if (r[TIKFAZRUL_END] != n + 1)
        return 0;
    if (kind == 7 || kind == 11 || kind == 12)
        return length == count * bytes_each(kind);
    return !count && (kind == 8 || length == bytes_each(kind));
}

/* Rule 7 of a container's children: they tile it, are as many as it says, and have no name in a list, which knows the first one's kind; with nine
 * words each names the container (02, [7]). */
static inline int children_agree(const uint32_t *t, size_t n, size_t records, size_t width)
{
    size_t end = word(t, n, TIKFAZRUL_END), count = 0, i = n + 1;
    int list = word(t, n, TIKFAZRUL_KIND) == 9;
    if (end <= n || end > records)
        return 0;
    if (list && word(t, n, TIKFAZRUL_LIST_KIND) != (i < end ? word(t, i, TIKFAZRUL_KIND) : 0))
        return 0;
    for (; i < end; i = word(t, i, TIKFAZRUL_END), count++) {
        if (list && (word(t, i, TIKFAZRUL_NAME) || word(t, i, TIKFAZRUL_NAME_LENGTH)))
            return 0;
        if (width == 9 && word(t, i, TIKFAZRUL_PARENT) != n)
            return 0;
        if (word(t, i, TIKFAZRUL_END) <= i)
            return 0;
    }
    return i == end && count == word(t, n, TIKFAZRUL_COUNT);
}

/* Whether records of so many words form a table (rule 7). */
static inline int forms_table(const uint32_t *t, size_t records, size_t width, uint64_t doc_len)
{
    if (!records || word(t, 0, TIKFAZRUL_KIND) != 10 || word(t, 0, TIKFAZRUL_END) != records)
        return 0;
    if (width == 9 && word(t, 0, TIKFAZRUL_PARENT))
        return 0;
    for (size_t n = 0; n < records; n++)
        if (!record_agrees(t, n, doc_len) || (is_container(t, n) && !children_agree(t, n, records, width)))
            return 0;
    return 1;
}

/* The record in which another stands: the last before it that reaches beyond it. */
static inline uint32_t parent_of(const uint32_t *t, uint32_t n)
{
    for (uint32_t i = n; i-- > 0;)
        if (word(t, i, TIKFAZRUL_END) > n)
            return i;
    return 0;
}

/* Records in file order, of which record n stands `level[n]` levels below the root: parents, counts and ends. The parent is the last record one
 * level up; the end is the next record that is not deeper. */
static inline uint32_t *shaped(const uint32_t *level, uint32_t records)
{
    uint32_t *t = lent_records(records), *last = lent(4 * records);
    for (uint32_t n = 0; n < records; n++) {
        uint32_t parent = n ? last[level[n] - 1] : 0;
        t[TIKFAZRUL_WORDS * n + TIKFAZRUL_PARENT] = parent;
        t[TIKFAZRUL_WORDS * parent + TIKFAZRUL_COUNT] += n != 0;
        last[level[n]] = n;
    }
    for (uint32_t n = records; n-- > 0;) {
        uint32_t end = n + 1;
        while (end < records && level[end] > level[n])
            end = word(t, end, TIKFAZRUL_END);
        t[TIKFAZRUL_WORDS * n + TIKFAZRUL_END] = end;
    }
    free(last);
    return t;
}

/* A span anywhere in the document. */
static inline void span(uint32_t *start_and_length, uint32_t length, uint32_t doc_len)
{
    start_and_length[0] = below(doc_len - length + 1);
    start_and_length[1] = length;
}

/* A leaf, or a container without children, of any kind. */
static inline void dress_leaf(uint32_t *r, uint32_t doc_len)
{
    uint32_t kind = 1 + below(12), n = below(6);
    r[TIKFAZRUL_KIND] = kind;
    if (kind == 7 || kind == 11 || kind == 12)
        r[TIKFAZRUL_COUNT] = n;
    if (kind == 8)
        span(r + TIKFAZRUL_START, n, doc_len);
    else if (kind != 9 && kind != 10)
        span(r + TIKFAZRUL_START, (kind < 7 ? 1 : n) * bytes_each(kind), doc_len);
}

/* The other words of records that have their shape: any that rule 7 allows over a document of so many bytes, at least 48. */
static inline void dress(uint32_t *t, uint32_t records, uint32_t doc_len)
{
    for (uint32_t n = 0; n < records; n++) {
        uint32_t *r = t + TIKFAZRUL_WORDS * n, *parent = t + TIKFAZRUL_WORDS * r[TIKFAZRUL_PARENT];
        if (!n || r[TIKFAZRUL_COUNT])
            r[TIKFAZRUL_KIND] = n ? 9 + below(2) : 10;
        else
            dress_leaf(r, doc_len);
        if (!n || parent[TIKFAZRUL_KIND] == 10)
            span(r + TIKFAZRUL_NAME, below(40), doc_len);
        else if (parent + TIKFAZRUL_WORDS == r)
            parent[TIKFAZRUL_LIST_KIND] = r[TIKFAZRUL_KIND];
    }
}

/* A table of so many records, in which going on to the next record is going down where it can be in `down` of 100 cases, and up by any number
 * of levels as often as not. */
static inline uint32_t *any_table(uint32_t records, uint32_t doc_len, uint32_t down)
{
    uint32_t *level = lent(4 * records), *t;
    for (uint32_t n = 1; n < records; n++) {
        uint32_t before = level[n - 1];
        level[n] = !before || below(100) < down ? before + 1 : below(2) ? before : 1 + below(before);
    }
    t = shaped(level, records);
    dress(t, records, doc_len);
    free(level);
    return t;
}

/* A document that is being written. */
struct document {
    uint8_t *bytes;
    size_t n;
};

/* So many bytes, big-endian. */
static inline void add(struct document *d, uint64_t number, size_t bytes)
{
    for (size_t i = bytes; i-- > 0;)
        d->bytes[d->n++] = i < 8 ? number >> 8 * i : 0;
}

/* A kind of tag, a list or a compound as often as not while there are levels left for them. */
static inline uint32_t any_kind(uint32_t levels)
{
    if (levels && below(2))
        return 9 + below(2);
    uint32_t kind = 1 + below(10);
    return kind < 9 ? kind : kind + 2;
}

/* A payload (rule 4), with at most four children in each of so many levels. */
static inline void add_payload(struct document *d, uint32_t kind, uint32_t levels)
{
    uint32_t n = below(5), child = any_kind(levels);
    if (kind == 9) {
        add(d, n ? child : 0, 1);
        add(d, n, 4);
        for (uint32_t i = 0; i < n; i++)
            add_payload(d, child, levels ? levels - 1 : 0);
    } else if (kind == 10) {
        for (uint32_t i = 0; i < n; i++, child = any_kind(levels)) {
            add(d, child, 1);
            add(d, 1, 2);
            add(d, 'a' + i, 1);
            add_payload(d, child, levels ? levels - 1 : 0);
        }
        add(d, 0, 1);
    } else if (kind == 8) {
        add(d, n, 2);
        add(d, 0x6162636465, n);
    } else if (kind < 7) {
        add(d, n, bytes_each(kind));
    } else {
        add(d, n, 4);
        add(d, n, n * bytes_each(kind));
    }
}

#endif
