/* Documents of one form written in the other from C (02, [2]): every kind and every sort of string written by hand in both, in every room; strings
 * that can't be read; numbers that name no form; empty arguments; the limits. See tests/ffi/run. */
#include "characters.h"
#include "convert.h"
#include "kinds.h"

/* A document is written as that one, in every room that is too short for it, in its own, and in more. */
static void converted_is(const char *what, uint32_t from, uint32_t to, const void *doc, size_t n, const void *wanted, size_t length)
{
    uint32_t t[300 * WORDS];
    uint64_t a[8];
    tikfazrul_read_in(from, doc, n, t, sizeof t / sizeof *t, a);
    expect(what, a[0] == 0);
    struct source s = {from, to, doc, n, t, WORDS * a[3]};
    for (size_t room = 0; room < length; room++)
        convert_is("a room too short is 13", s, room, 13, 0, 0, NULL);
    convert_is(what, s, length, 0, 0, length, wanted);
    convert_is(what, s, length + 3, 0, 0, length, wanted);
}

/* Two documents are each written as the other, and as themselves. */
static void twins_are(const char *what, const void *java, size_t n, const void *pocket, size_t m)
{
    converted_is(what, JAVA, POCKET, java, n, pocket, m);
    converted_is(what, POCKET, JAVA, pocket, m, java, n);
    converted_is(what, JAVA, JAVA, java, n, java, n);
    converted_is(what, POCKET, POCKET, pocket, m, pocket, m);
}

/* The two documents of every kind, with the id 0 in the empty list. */
static uint8_t written[2][KINDS_BYTES];

static void every_kind(void)
{
    uint32_t t[KINDS_WORDS];
    memcpy(t, kinds, sizeof kinds);
    for (size_t i = 0; i < 2; i++) {
        memcpy(written[i], both[i].doc, KINDS_BYTES);
        written[i][EMPTY_ID] = 0;
    }
    twins_are("every kind", written[0], KINDS_BYTES, written[1], KINDS_BYTES);
    for (size_t i = 0; i < 4; i++) {
        struct source s = {both[i / 2].form, both[i % 2].form, both[i / 2].doc, KINDS_BYTES, t, KINDS_WORDS};
        convert_is("with an id in its empty list", s, KINDS_BYTES + 2, 0, 0, KINDS_BYTES, written[i % 2]);
        s.len--;
        convert_is("a word short is 10", s, KINDS_BYTES, 10, 0, 0, NULL);
    }
    converted_is("without what follows the root", JAVA, POCKET, "\x0A\0\1t\0more", 9, "\x0A\1\0t\0", 5);
    converted_is("and the other way round", POCKET, JAVA, "\x0A\1\0t\0more", 9, "\x0A\0\1t\0", 5);
}

/* Floats that are no number, with all that a payload may hold, and the sign of a zero: the same bits. */
static void bits(void)
{
    twins_are("floats", BYTES("\x0A\0\0\x09\0\1f\5\0\0\0\4\x7F\xC0\0\1\x7F\x80\0\1\xFF\xC1\x23\x45\x80\0\0\0\0"),
              BYTES("\x0A\0\0\x09\1\0f\5\4\0\0\0\1\0\xC0\x7F\1\0\x80\x7F\x45\x23\xC1\xFF\0\0\0\x80\0"));
    twins_are("doubles", BYTES("\x0A\0\0\x09\0\1d\6\0\0\0\3\x7F\xF0\0\0\0\0\0\1\xFF\xF8\1\2\3\4\5\6\x80\0\0\0\0\0\0\0\0"),
              BYTES("\x0A\0\0\x09\1\0d\6\3\0\0\0\1\0\0\0\0\0\xF0\x7F\6\5\4\3\2\1\xF8\xFF\0\0\0\0\0\0\0\x80\0"));
    twins_are("a float and a double", BYTES("\x0A\0\0\5\0\1f\x7F\xA0\xBC\xDE\6\0\1d\x7F\xF4\x12\x34\x56\x78\x9A\xBC\0"),
              BYTES("\x0A\0\0\5\1\0f\xDE\xBC\xA0\x7F\6\1\0d\xBC\x9A\x78\x56\x34\x12\xF4\x7F\0"));
    twins_are("the least and the greatest", BYTES("\x0A\0\0\1\0\1b\x80\2\0\1s\x80\0\3\0\1i\x80\0\0\0\4\0\1l\x7F\xFF\xFF\xFF\xFF\xFF\xFF\xFE\0"),
              BYTES("\x0A\0\0\1\1\0b\x80\2\1\0s\0\x80\3\1\0i\0\0\0\x80\4\1\0l\xFE\xFF\xFF\xFF\xFF\xFF\xFF\x7F\0"));
    twins_are("arrays of none and of one", BYTES("\x0A\0\0\x0B\0\1i\0\0\0\0\x0C\0\1l\0\0\0\0\7\0\1b\0\0\0\1\xFE\0"),
              BYTES("\x0A\0\0\x0B\1\0i\0\0\0\0\x0C\1\0l\0\0\0\0\7\1\0b\1\0\0\0\xFE\0"));
}

/* Characters at the edges of every length, in modified UTF-8 and in UTF-8. */
static const struct {
    const char *java, *pocket;
    uint8_t n, m;
} characters[] = {
    {"\xC0\x80", "\0", 2, 1},
    {"\1", "\1", 1, 1},
    {"\x7F", "\x7F", 1, 1},
    {"\xC2\x80", "\xC2\x80", 2, 2},
    {"\xDF\xBF", "\xDF\xBF", 2, 2},
    {"\xE0\xA0\x80", "\xE0\xA0\x80", 3, 3},
    {"\xED\x9F\xBF", "\xED\x9F\xBF", 3, 3},
    {"\xEE\x80\x80", "\xEE\x80\x80", 3, 3},
    {"\xEF\xBF\xBF", "\xEF\xBF\xBF", 3, 3},
    {"\xED\xA0\x80\xED\xB0\x80", "\xF0\x90\x80\x80", 6, 4}, /* U+10000 */
    {"\xED\xA0\xBD\xED\xB8\x80", "\xF0\x9F\x98\x80", 6, 4}, /* U+1F600 */
    {"\xED\xA2\xBF\xED\xBF\xBF", "\xF0\xBF\xBF\xBF", 6, 4}, /* U+3FFFF */
    {"\xED\xA3\x80\xED\xB0\x80", "\xF1\x80\x80\x80", 6, 4}, /* U+40000 */
    {"\xED\xAE\xBF\xED\xBF\xBF", "\xF3\xBF\xBF\xBF", 6, 4}, /* U+FFFFF */
    {"\xED\xAF\x80\xED\xB0\x80", "\xF4\x80\x80\x80", 6, 4}, /* U+100000 */
    {"\xED\xAF\xBF\xED\xBF\xBF", "\xF4\x8F\xBF\xBF", 6, 4}, /* U+10FFFF */
};
enum { CHARACTERS = sizeof characters / sizeof *characters };

/* Behind so many bytes, two characters with a letter between them, and their length before them. */
static size_t put_string(uint32_t form, uint8_t *doc, size_t at, size_t first, size_t second)
{
    int java = form == JAVA;
    size_t n = java ? characters[first].n : characters[first].m, m = java ? characters[second].n : characters[second].m;
    doc[at] = java ? 0 : n + 1 + m;
    doc[at + 1] = java ? n + 1 + m : 0;
    memcpy(doc + at + 2, java ? characters[first].java : characters[first].pocket, n);
    doc[at + 2 + n] = 'x';
    memcpy(doc + at + 3 + n, java ? characters[second].java : characters[second].pocket, m);
    return at + 3 + n + m;
}

static size_t put_bytes(uint8_t *doc, size_t at, const void *bytes, size_t n)
{
    memcpy(doc + at, bytes, n);
    return at + n;
}

/* A string as the root's name, as that of an entry, as its value, and as each element of a list. */
static size_t everywhere(uint32_t form, uint8_t *doc, size_t first, size_t second)
{
    size_t n = put_string(form, doc, put_bytes(doc, 0, "\x0A", 1), first, second);
    n = put_string(form, doc, put_bytes(doc, n, "\x08", 1), first, second);
    n = put_string(form, doc, n, second, first);
    n = put_bytes(doc, n, form == JAVA ? "\x09\0\1l\x08\0\0\0\2" : "\x09\1\0l\x08\2\0\0\0", 9);
    n = put_string(form, doc, n, first, second);
    n = put_string(form, doc, n, second, first);
    return put_bytes(doc, n, "\0", 1);
}

static void strings(void)
{
    char what[64];
    for (size_t i = 0; i < CHARACTERS * CHARACTERS; i++) {
        uint8_t java[128], pocket[128];
        size_t n = everywhere(JAVA, java, i / CHARACTERS, i % CHARACTERS), m = everywhere(POCKET, pocket, i / CHARACTERS, i % CHARACTERS);
        snprintf(what, sizeof what, "the characters %zu and %zu", i / CHARACTERS, i % CHARACTERS);
        twins_are(what, java, n, pocket, m);
    }
    twins_are("by hand", BYTES("\x0A\0\2\xC0\x80\x08\0\6\xED\xA0\xBD\xED\xB8\x80\0\3a\xC0\x80\x09\0\1l\x08\0\0\0\2\0\0\0\2\xC3\xA9\0"),
              BYTES("\x0A\1\0\0\x08\4\0\xF0\x9F\x98\x80\2\0a\0\x09\1\0l\x08\2\0\0\0\0\0\2\0\xC3\xA9\0"));
}

/* Counts and lengths of two bytes: 258 bytes in an array, 258 letters in a string, and 259 bytes in a list. */
static void counted(void)
{
    uint8_t java[1024], pocket[1024];
    size_t n = put_bytes(java, 0, "\x0A\0\0\7\0\1b\0\0\1\2", 11);
    put_bytes(pocket, 0, "\x0A\0\0\7\1\0b\2\1\0\0", 11);
    for (size_t i = 0; i < 258; i++, n++)
        java[n] = pocket[n] = i;
    put_bytes(java, n, "\x08\0\1s\1\2", 6);
    n = put_bytes(pocket, n, "\x08\1\0s\2\1", 6);
    for (size_t i = 0; i < 258; i++, n++)
        java[n] = pocket[n] = 'a' + i % 26;
    put_bytes(java, n, "\x09\0\1l\1\0\0\1\3", 9);
    n = put_bytes(pocket, n, "\x09\1\0l\1\3\1\0\0", 9);
    for (size_t i = 0; i < 259; i++, n++)
        java[n] = pocket[n] = i;
    java[n] = pocket[n] = 0;
    twins_are("counts and lengths of two bytes", java, n + 1, pocket, n + 1);
}

/* Every string that can't be read, in each place where a table has one: 4 at the span's start and the offset, with the record. The document is
 * "nop", the string and bytes that would go on with it; the table is the root, n, o and p, the last a list of two strings. */
static void broken(uint32_t from, const struct broken *b, const void *wanted)
{
    static const struct {
        uint32_t record, span;
    } in[] = {{0, TIKFAZRUL_NAME}, {1, TIKFAZRUL_NAME}, {1, TIKFAZRUL_START}, {3, TIKFAZRUL_NAME}, {5, TIKFAZRUL_START}};
    uint8_t doc[128];
    uint32_t t[6 * WORDS];
    struct source s = {from, from == JAVA ? POCKET : JAVA, doc, b->n + 5, t, 6 * WORDS};
    for (size_t i = 0; i < 5; i++) {
        nop(b, doc, t);
        convert_is("without such a string the table is converted", s, 99, 0, 0, 35, wanted);
        t[WORDS * in[i].record + in[i].span] = 3;
        t[WORDS * in[i].record + in[i].span + 1] = b->n;
        refused_is(b->what, s, 4, 3 + b->offset, in[i].record);
        s.to = from;
        refused_is("and in its own form", s, 4, 3 + b->offset, in[i].record);
        s.to = from == JAVA ? POCKET : JAVA;
    }
}

static void unreadable(void)
{
    for (size_t i = 0; i < STRINGS; i++) {
        struct broken b = broken_string(i);
        broken(JAVA, &b, "\x0A\0\0\x08\1\0n\2\0op\1\1\0on\x09\1\0p\x08\2\0\0\0\2\0no\3\0nop\0");
    }
    for (size_t i = 0; i < UTF8_STRINGS; i++) {
        struct broken b = broken_utf8(i);
        broken(POCKET, &b, "\x0A\0\0\x08\0\1n\0\2op\1\0\1on\x09\0\1p\x08\0\0\0\2\0\2no\0\3nop\0");
    }
}

/* Of all numbers 2 alone is the pocket form, on either side. */
static void numbers(void)
{
    static const uint32_t forms[] = {0, 1, 2, 3, 4, 5, 6, 7, 8, 10, 18, 34, 66, 130, 258, 0x10002, 0x02000000, 0x80000002, 0xFFFFFFFF};
    const size_t n = sizeof forms / sizeof *forms;
    uint32_t t[KINDS_WORDS], rare[WORDS];
    memcpy(t, kinds, sizeof kinds);
    put(rare, 0, 10, 0, 2, 0, 0, 0, 0, 1, 0);
    for (size_t i = 0; i < n * n; i++) {
        uint32_t from = forms[i / n], to = forms[i % n];
        struct source s = {from, to, both[from == 2].doc, KINDS_BYTES, t, KINDS_WORDS}, root = {from, to, BYTES("\xC0\x80"), rare, WORDS};
        convert_is("any other number is Java's form", s, KINDS_BYTES, 0, 0, KINDS_BYTES, written[to == 2]);
        if (from == 2)
            convert_is("C080 is 4 in the pocket form", root, 9, 4, 0, 0, NULL);
        else
            convert_is("C080 in Java's form", root, 9, 0, 0, to == 2 ? 5 : 6, to == 2 ? "\x0A\1\0\0\0" : "\x0A\0\2\xC0\x80\0");
    }
}

/* Null pointers with the number 0; words that form no table, and too many of them; a document that is too long, before 10. */
static void limits(void)
{
    uint32_t *t = lent_records(1048577);
    uint8_t *d = lent(16777217);
    for (uint32_t form = 0; form < 4; form++) {
        struct source none = {form & 2, form << 1 & 2, NULL, 0, NULL, 0}, root = {form & 2, form << 1 & 2, NULL, 0, t, WORDS};
        struct source long_doc = {form & 2, form << 1 & 2, d, 16777216, t, WORDS};
        refused_is("no words are 10", none, 10, 0, 0);
        memset(t, 0, 4 * WORDS);
        refused_is("zero words are 10", root, 10, 0, 0);
        put(t, 0, 10, 0, 0, 0, 0, 0, 0, 1, 0);
        convert_is("no output is 13", root, 0, 13, 0, 0, NULL);
        convert_is("a root over no bytes", root, 4, 0, 0, 4, "\x0A\0\0\0");
        convert_is("a document of 16,777,216 bytes", long_doc, 4, 0, 0, 4, "\x0A\0\0\0");
        long_doc.n++;
        refused_is("and one more is 9", long_doc, 9, 0, 0);
        root.len = 9437184;
        convert_is("9,437,184 words are 10", root, 9, 10, 0, 0, NULL);
        root.len++;
        convert_is("9,437,185 words are 9", root, 9, 9, 0, 0, NULL);
        t[TIKFAZRUL_PARENT] = 1;
        root.len = WORDS;
        refused_is("a wrong parent is 10", root, 10, 0, 0);
    }
    free(t);
    free(d);
}

int main(void)
{
    every_kind();
    bits();
    strings();
    counted();
    unreadable();
    numbers();
    limits();
    return report();
}
