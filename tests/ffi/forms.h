/* Calls in a form (02, [2]), each with a check of the answer and of every word and byte that is lent. See tests/ffi/run. */
#ifndef FORMS_H
#define FORMS_H

#include "expect.h"

/* The bytes of a literal and their number. */
#define BYTES(s) (const uint8_t *)(s), sizeof(s) - 1
#define NOTHING NULL, 0

/* The records' words are `records` where given. */
static inline void read_is(const char *what, uint32_t form, const uint8_t *doc, size_t n, size_t words, uint64_t number, uint64_t place,
                           uint64_t consumed, uint64_t count, const uint32_t *records)
{
    uint32_t *t = filled(words);
    uint64_t a[8];
    memset(a, 0x55, sizeof a);
    tikfazrul_read_in(form, doc, n, t, words, a);
    expect(what, answers(a, number, place, consumed, count));
    if (number)
        expect("a refused read zeroes the whole table", all(t, 0, words, 0));
    else
        expect("an accepted read changes nine words a record", all(t, TIKFAZRUL_WORDS * count, words, 0xABABABAB));
    if (records)
        expect("the records' words", !memcmp(t, records, count * TIKFAZRUL_WORDS * sizeof *t));
    free(t);
}

/* Whether bytes from there on are those that they were filled with. */
static inline int untouched(const uint8_t *out, size_t from, size_t to)
{
    while (from < to && out[from] == 0xAA)
        from++;
    return from >= to;
}

/* `value` is the length, or in 4 the record; the written bytes are `bytes` where given. */
static inline void write_is(const char *what, uint32_t form, const uint8_t *doc, size_t n, uint32_t *t, size_t words, size_t room,
                            uint64_t number, uint64_t place, uint64_t value, const uint8_t *bytes)
{
    uint8_t *out = lent(room);
    uint32_t *before = lent(4 * words);
    uint64_t a[8];
    size_t length = number ? 0 : value;
    memset(out, 0xAA, room);
    if (words)
        memcpy(before, t, 4 * words);
    memset(a, 0x55, sizeof a);
    tikfazrul_write_in(form, doc, n, t, words, out, room, a);
    expect(what, answers(a, number, place, value, 0));
    expect("a write leaves the table as it was", !words || !memcmp(before, t, 4 * words));
    expect("a write changes no other byte", untouched(out, length, room));
    if (bytes)
        expect("the written bytes", !memcmp(out, bytes, length));
    free(out);
    free(before);
}

/* A table to be asked in a form. */
struct asked {
    uint32_t form;
    const uint8_t *doc;
    size_t doc_len;
    const uint32_t *words;
    size_t len;
};

/* The matches are `wanted`. */
static inline void query_is(const char *what, struct asked t, const uint8_t *q, size_t len, size_t room, uint64_t number, uint64_t place,
                            uint64_t count, const uint32_t *wanted)
{
    uint32_t *list = filled(room);
    uint64_t a[8];
    size_t found = number ? 0 : count;
    memset(a, 0x55, sizeof a);
    tikfazrul_query_in(t.form, t.doc, t.doc_len, t.words, t.len, q, len, list, room, a);
    expect(what, answers(a, number, place, count, 0));
    expect("the matches", found <= room && (!found || !memcmp(list, wanted, 4 * found)));
    expect("a query changes no other word", all(list, found, room, 0xABABABAB));
    free(list);
}

/* An accepted rescue writes `bytes` and `lines`; but for 31 the table is zero. */
static inline void rescue_is(const char *what, uint32_t form, const void *doc, size_t n, size_t words, size_t room, size_t changes,
                             uint64_t number, uint64_t place, uint64_t first, uint64_t second, const void *bytes, const uint32_t *lines)
{
    uint32_t *t = filled(words), *c = filled(changes);
    uint8_t *out = lent(room);
    uint64_t a[8];
    size_t written = number ? 0 : first, listed = number ? 0 : 3 * second;
    memset(out, 0xAA, room);
    memset(a, 0x55, sizeof a);
    tikfazrul_rescue(form, doc, n, t, words, out, room, c, changes, a);
    expect(what, answers(a, number, place, first, second));
    expect("the bytes written", untouched(out, written, room) && (!written || !memcmp(out, bytes, written)));
    expect("the lines", all(c, listed, changes, 0xABABABAB) && (!listed || !memcmp(c, lines, 4 * listed)));
    expect("the table", number == 31 || all(t, 0, words, 0));
    free(t);
    free(c);
    free(out);
}

static inline void string_is(const char *what, uint32_t form, const void *bytes, size_t n, uint64_t number, uint64_t place)
{
    uint64_t a[8];
    memset(a, 0x55, sizeof a);
    tikfazrul_check_string(form, bytes, n, a);
    expect(what, answers(a, number, place, 0, 0));
}

#endif
