/* Conversions (02, [2]), each with a check of the answer and of every word and byte that is lent. See tests/ffi/run. */
#ifndef CONVERT_H
#define CONVERT_H

#include "forms.h"

enum { JAVA = TIKFAZRUL_JAVA, POCKET = TIKFAZRUL_POCKET, WORDS = TIKFAZRUL_WORDS };

/* A table over a document of one form, to be written in another. */
struct source {
    uint32_t from, to;
    const uint8_t *doc;
    size_t n;
    uint32_t *words;
    size_t len;
};

/* Converts, and checks the answer, that the table is as it was, and that no byte but the written ones changed; these are `bytes` where given.
 * `value` is the length, or in 4 the record. */
static inline void convert_is(const char *what, struct source s, size_t room, uint64_t number, uint64_t place, uint64_t value, const void *bytes)
{
    uint8_t *out = lent(room);
    uint32_t *before = lent(4 * s.len);
    uint64_t a[8];
    size_t length = number ? 0 : value;
    memset(out, 0xAA, room);
    if (s.len)
        memcpy(before, s.words, 4 * s.len);
    memset(a, 0x55, sizeof a);
    tikfazrul_convert(s.from, s.to, s.doc, s.n, s.words, s.len, out, room, a);
    expect(what, answers(a, number, place, value, 0));
    expect("a conversion leaves the table as it was", !s.len || !memcmp(before, s.words, 4 * s.len));
    expect("a conversion changes no other byte", untouched(out, length, room));
    if (bytes)
        expect("the converted bytes", length <= room && !memcmp(out, bytes, length));
    free(out);
    free(before);
}

/* The same refusal whatever the room, none of which it changes: 13 comes last. */
static inline void refused_is(const char *what, struct source s, uint64_t number, uint64_t place, uint64_t value)
{
    static const size_t rooms[] = {0, 1, 9, 30, 200000};
    for (size_t i = 0; i < sizeof rooms / sizeof *rooms; i++)
        convert_is(what, s, rooms[i], number, place, value, NULL);
}

#endif
