/* Sequences that are not modified UTF-8, each with the offset of the first that can't be read, worked out from 01's rule 2 and 02, [3], and such
 * that are not UTF-8 (02, [2]); and strings with one at their start, within them and at their end. See tests/ffi/run. */
#ifndef CHARACTERS_H
#define CHARACTERS_H

#include "expect.h"

struct sequence {
    const char *what, *bytes;
    size_t n, offset;
};

/* No text that is put before or behind one makes a part of it readable, or begins with a continuation byte. */
static const struct sequence sequences[] = {
    {"a zero byte", "\0", 1, 0},
    {"a stray continuation byte", "\x80", 1, 0},
    {"the last continuation byte, stray", "\xBF", 1, 0},
    {"no lead", "\xFF", 1, 0},
    {"two bytes cut to one", "\xC3", 1, 0},
    {"three bytes cut to two", "\xE2\x82", 2, 0},
    {"three bytes, the third no continuation", "\xE2\x82" "a", 3, 0},
    {"three bytes, the second no continuation", "\xE2" "a\x82", 3, 0},
    {"two bytes, the second a zero byte", "\xC3\0", 2, 0},
    {"C1BF, overlong", "\xC1\xBF", 2, 0},
    {"C081, overlong", "\xC0\x81", 2, 0},
    {"E09FBF, overlong", "\xE0\x9F\xBF", 3, 0},
    {"four bytes", "\xF0\x9F\x98\x80", 4, 0},
    {"a high half", "\xED\xA0\xBD", 3, 0},
    {"a high half, then a zero byte", "\xED\xA0\xBD\0", 4, 0},
    {"a high half, then a letter", "\xED\xA0\xBD" "a", 4, 0},
    {"a high half, then another", "\xED\xA0\xBD\xED\xA0\xBD", 6, 0},
    {"a high half, then a low one cut to a byte", "\xED\xA0\xBD\xED", 4, 0},
    {"a high half, then a low one cut to two", "\xED\xA0\xBD\xED\xB8", 5, 0},
    {"a high half, then a low one wrongly continued", "\xED\xA0\xBD\xED\xB8" "a", 6, 0},
    {"a low half", "\xED\xB8\x80", 3, 0},
    {"a low half after a whole pair", "\xED\xA0\xBD\xED\xB8\x80\xED\xB8\x80", 9, 6},
    {"a high half after a whole pair", "\xED\xA0\xBD\xED\xB8\x80\xED\xA0\xBD", 9, 6},
    {"a letter before four bytes", "a\xF0\x9F\x98\x80", 5, 1},
    {"two that can't be read", "\x80\xFF", 2, 0},
};
enum { SEQUENCES = sizeof sequences / sizeof *sequences };

/* The same in the pocket form. */
static const struct sequence utf8_sequences[] = {
    {"a stray continuation byte", "\x80", 1, 0},
    {"the last continuation byte, stray", "\xBF", 1, 0},
    {"no lead", "\xFF", 1, 0},
    {"a lead of five bytes", "\xF8\x88\x80\x80\x80", 5, 0},
    {"two bytes cut to one", "\xC3", 1, 0},
    {"three bytes cut to two", "\xE2\x82", 2, 0},
    {"four bytes cut to three", "\xF0\x9F\x98", 3, 0},
    {"three bytes, the third no continuation", "\xE2\x82" "a", 3, 0},
    {"four bytes, the fourth no continuation", "\xF0\x9F\x98" "a", 4, 0},
    {"two bytes, the second a zero byte", "\xC3\0", 2, 0},
    {"C080, overlong", "\xC0\x80", 2, 0},
    {"C1BF, overlong", "\xC1\xBF", 2, 0},
    {"E09FBF, overlong", "\xE0\x9F\xBF", 3, 0},
    {"F08FBFBF, overlong", "\xF0\x8F\xBF\xBF", 4, 0},
    {"F4908080, above 10FFFF", "\xF4\x90\x80\x80", 4, 0},
    {"F5808080, above 10FFFF", "\xF5\x80\x80\x80", 4, 0},
    {"a high half", "\xED\xA0\xBD", 3, 0},
    {"a low half", "\xED\xB8\x80", 3, 0},
    {"a pair", "\xED\xA0\xBD\xED\xB8\x80", 6, 0},
    {"a zero byte before C080", "\0\xC0\x80", 3, 1},
    {"four bytes before a stray one", "\xF0\x9F\x98\x80\x80", 5, 4},
    {"two that can't be read", "\x80\xFF", 2, 0},
};
enum { UTF8_SEQUENCES = sizeof utf8_sequences / sizeof *utf8_sequences };

/* What stands before and behind: nothing, a letter, and characters of every length. */
#define WELL "r\xC3\xA9\xE2\x82\xAC\xC0\x80\xED\xA0\xBD\xED\xB8\x80"
#define UTF8_WELL "r\xC3\xA9\xE2\x82\xAC\0\xF0\x9F\x98\x80"
static const struct around {
    const char *bytes;
    size_t n;
} around[] = {{"", 0}, {"a", 1}, {WELL, sizeof WELL - 1}}, utf8_around[] = {{"", 0}, {"a", 1}, {UTF8_WELL, sizeof UTF8_WELL - 1}};
enum { AROUND = 3, STRINGS = SEQUENCES * AROUND * AROUND, UTF8_STRINGS = UTF8_SEQUENCES * AROUND * AROUND };

/* A string that is not modified UTF-8, or not UTF-8, and where. */
struct broken {
    uint8_t bytes[64];
    size_t n, offset;
    char what[96];
};

/* A sequence between two others. */
static inline struct broken broken_by(const struct sequence *s, const struct around *before, const struct around *behind)
{
    struct broken b = {.n = before->n + s->n + behind->n, .offset = before->n + s->offset};
    memcpy(b.bytes, before->bytes, before->n);
    memcpy(b.bytes + before->n, s->bytes, s->n);
    memcpy(b.bytes + before->n + s->n, behind->bytes, behind->n);
    snprintf(b.what, sizeof b.what, "%s, %zu bytes before and %zu behind", s->what, before->n, behind->n);
    return b;
}

/* One of the STRINGS. */
static inline struct broken broken_string(size_t which)
{
    return broken_by(&sequences[which / (AROUND * AROUND)], &around[which / AROUND % AROUND], &around[which % AROUND]);
}

/* One of the UTF8_STRINGS. */
static inline struct broken broken_utf8(size_t which)
{
    return broken_by(&utf8_sequences[which / (AROUND * AROUND)], &utf8_around[which / AROUND % AROUND], &utf8_around[which % AROUND]);
}

/* A document of "nop", a string and bytes that would go on with it, and a table over it: the root, n, o and p, the last a list of two strings. */
static inline void nop(const struct broken *b, uint8_t *doc, uint32_t *t)
{
    memcpy(doc, "nop", 3);
    memcpy(doc + 3, b->bytes, b->n);
    memset(doc + 3 + b->n, 0x80, 2);
    put(t, 0, 10, 0, 0, 0, 0, 3, 0, 6, 0);
    put(t, 1, 8, 0, 1, 1, 2, 0, 0, 2, 0);
    put(t, 2, 1, 1, 1, 0, 1, 0, 0, 3, 0);
    put(t, 3, 9, 2, 1, 0, 0, 2, 8, 6, 0);
    put(t, 4, 8, 0, 0, 0, 2, 0, 0, 5, 3);
    put(t, 5, 8, 0, 0, 0, 3, 0, 0, 6, 3);
}

#endif
