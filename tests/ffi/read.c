/* Calls the library from C: marked documents of 01, and the limits that are too large for the other programs. See tests/ffi/run. */
#include "built.h"
#include "characters.h"
#include "tree.h"

/* Reads, and checks the answer and every word: the records' words are `records` where given. */
static void read_is(const char *what, const uint8_t *doc, size_t n, size_t words, uint64_t number, uint64_t place, uint64_t consumed,
                    uint64_t count, const uint32_t *records)
{
    uint32_t *t = filled(words);
    uint64_t a[8];
    memset(a, 0x55, sizeof a);
    tikfazrul_read(doc, n, t, words, a);
    expect(what, answers(a, number, place, consumed, count));
    if (number)
        expect("a refused read zeroes the whole table", all(t, 0, words, 0));
    else
        expect("an accepted read changes nine words a record", all(t, TIKFAZRUL_WORDS * count, words, 0xABABABAB));
    if (records)
        expect("the records' words", !memcmp(t, records, count * TIKFAZRUL_WORDS * sizeof *t));
    free(t);
}

static void marked(void)
{
    static const uint32_t one[] = {10, 3, 0, 0, 0, 0, 0, 1, 0};
    static const uint32_t two[] = {10, 3, 1, 0, 0, 1, 0, 2, 0, 1, 7, 1, 8, 1, 0, 0, 2, 0};
    const uint8_t *third = (const uint8_t *)"\x0A\0\1a\1\0\1b\xFF\0";
    read_is("0A0000 is 1 at 3", (const uint8_t *)"\x0A\0\0", 3, 90, 1, 3, 0, 0, NULL);
    read_is("0A000000", (const uint8_t *)"\x0A\0\0\0", 4, 90, 0, 0, 4, 1, one);
    read_is("0A00016101000162FF00", third, 10, 90, 0, 0, 10, 2, two);
    read_is("5 at 8", (const uint8_t *)"\x0A\0\0\x09\0\1l\1\xFF\xFF\xFF\xFF\0", 13, 90, 5, 8, 0, 0, NULL);
    read_is("6 at 8", (const uint8_t *)"\x0A\0\0\1\0\1b\1\1\0\1b\2\0", 14, 90, 6, 8, 0, 0, NULL);
    read_is("no bytes, no table", NULL, 0, 0, 1, 0, 0, 0, NULL);
    read_is("bytes after the root's end change nothing", (const uint8_t *)"\x0A\0\0\0\xFF\xFF", 6, 9, 0, 0, 4, 1, one);
    read_is("a table of 16 words has room for one record", third, 10, 16, 8, 8, 0, 0, NULL);
    read_is("and so has one of 17", third, 10, 17, 8, 8, 0, 0, NULL);
    read_is("a table of 18 words has room for two", third, 10, 18, 0, 0, 10, 2, two);
    read_is("and so has one of 26", third, 10, 26, 0, 0, 10, 2, two);
    read_is("a table of 8 words has room for none", (const uint8_t *)"\x0A\0\0\0", 4, 8, 8, 3, 0, 0, NULL);
}

/* The parents of nested compounds and lists (02, [7]), and what rooms one short of them are refused with. */
static void parents(void)
{
    const uint8_t *doc = (const uint8_t *)TREE;
    expect("the ninth word is the parent's number", TIKFAZRUL_WORDS == 9 && TIKFAZRUL_PARENT == 8);
    read_is("lists and compounds in each other", doc, TREE_BYTES, TREE_WORDS, 0, 0, 49, 11, tree);
    read_is("with room for more", doc, TREE_BYTES, TREE_WORDS + 20, 0, 0, 49, 11, tree);
    read_is("a word short is 8 at the last payload", doc, TREE_BYTES, TREE_WORDS - 1, 8, 44, 0, 0, NULL);
    read_is("so is room for eleven records of eight words", doc, TREE_BYTES, 88, 8, 38, 0, 0, NULL);
    read_is("a cut before the last end byte leaves no parent", doc, TREE_BYTES - 1, TREE_WORDS, 1, 48, 0, 0, NULL);
}

/* Compounds in each other down to the deepest level, and on the way back a byte behind each, whose parent is the one that is not yet closed. */
static void way_back(void)
{
    const size_t n = 3 + 4 * 511 + 6 * 512;
    uint8_t *d = lent(n), *p = d;
    uint32_t *t = lent_records(1024);
    memcpy(p, "\x0A\0\0", 3);
    p += 3;
    put(t, 0, 10, 3, 0, 0, 0, 2, 0, 1024, 0);
    for (uint32_t k = 1; k < 512; k++, p += 4) {
        memcpy(p, "\x0A\0\1x", 4);
        put(t, k, 10, 4 * k + 2, 1, 0, 0, k < 511 ? 2 : 1, 0, 1024 - k, k - 1);
    }
    for (uint32_t k = 512; k-- > 0; p += 6) {
        memcpy(p, "\1\0\1z\7\0", 6);
        put(t, 1023 - k, 1, p - d + 3, 1, p - d + 4, 1, 0, 0, 1024 - k, k);
    }
    read_is("down and back through 512 compounds", d, n, 1024 * TIKFAZRUL_WORDS, 0, 0, n, 1024, t);
    free(d);
    free(t);
}

/* The root and so many lists within it, each the one element of the one before. */
static void depth(size_t lists, uint64_t number, uint64_t place)
{
    size_t n = 0;
    uint8_t *d = malloc(16 + 5 * lists);
    uint32_t *t = chain(lists + 1);
    t[TIKFAZRUL_NAME] = 3;
    t[TIKFAZRUL_WORDS + TIKFAZRUL_NAME] = 6;
    memcpy(d, "\x0A\0\0\x09\0\0", 6);
    n = 6;
    for (size_t i = 0; i < lists; i++) {
        memcpy(d + n, i + 1 < lists ? "\x09\0\0\0\1" : "\0\0\0\0\0", 5);
        n += 5;
    }
    d[n++] = 0;
    read_is("depth", d, n, 1024 * TIKFAZRUL_WORDS, number, place, number ? 0 : n, number ? 0 : lists + 1, number ? NULL : t);
    free(d);
    free(t);
}

/* A list of so many bytes in the root: the parent of each is record 1. */
static void records(uint32_t elements, size_t words, uint64_t number, uint64_t place)
{
    uint8_t *d = calloc(1, 16 + elements);
    uint32_t n = 2 + elements, *t = lent_records(n);
    memcpy(d, "\x0A\0\0\x09\0\0\1", 7);
    for (int i = 0; i < 4; i++)
        d[7 + i] = elements >> (24 - 8 * i);
    put(t, 0, 10, 3, 0, 0, 0, 1, 0, n, 0);
    put(t, 1, 9, 6, 0, 0, 0, elements, 1, n, 0);
    for (uint32_t i = 2; i < n; i++)
        put(t, i, 1, 0, 0, 11 + i - 2, 1, 0, 0, i + 1, 1);
    read_is("records", d, 10 + (size_t)n, words, number, place, number ? 0 : 10 + (uint64_t)n, number ? 0 : n, number ? NULL : t);
    free(d);
    free(t);
}

static void bytes(size_t n, uint64_t number)
{
    uint8_t *d = calloc(1, n);
    memcpy(d, "\x0A\0\0\x07\0\0", 6);
    size_t elements = n - 11;
    for (int i = 0; i < 4; i++)
        d[6 + i] = elements >> (24 - 8 * i);
    read_is("bytes", d, n, 90, number, 0, number ? 0 : n, number ? 0 : 2, NULL);
    free(d);
}

static void strings(void)
{
    uint64_t a[8];
    tikfazrul_check_mutf8((const uint8_t *)"\xED\xA0\xBD\xED\xB8\x80", 6, a);
    expect("EDA0BDEDB880 is modified UTF-8", answers(a, 0, 0, 0, 0));
    tikfazrul_check_mutf8((const uint8_t *)"ab\xF0\x9F\x98\x80", 6, a);
    expect("a four-byte form is 4 at 2", answers(a, 4, 2, 0, 0));
    tikfazrul_check_utf8((const uint8_t *)"ab\xF0\x9F\x98\x80", 6, a);
    expect("and is UTF-8", answers(a, 0, 0, 0, 0));
    tikfazrul_check_utf8((const uint8_t *)"\xC0\x80", 2, a);
    expect("C080 is 15 at 0", answers(a, 15, 0, 0, 0));
}

/* A document as far as a string's length, which is added to it with the string. Its content begins at `start`. */
struct before {
    const char *what, *bytes;
    size_t n, start;
};

static const struct before befores[] = {
    {"the root's name", "\x0A", 1, 3},
    {"a name, of an id that there is not, too", "\x0A\0\0\xFF", 4, 6},
    {"a name in the root", "\x0A\0\1t\1\0\1b\7\x0A", 10, 12},
    {"a string in the root", "\x0A\0\0\x08\0\1s", 7, 9},
    {"the first element of a list", "\x0A\0\0\x09\0\1l\x08\0\0\0\2", 12, 14},
    {"the second element of a list", "\x0A\0\0\x09\0\1l\x08\0\0\0\2\0\1a", 15, 17},
    {"a name in a list's compound", "\x0A\0\0\x09\0\1l\x0A\0\0\0\1\x08", 13, 15},
    {"a string in a list's compound", "\x0A\0\0\x09\0\1l\x0A\0\0\0\1\x08\0\1s", 16, 18},
};

/* Every string that can't be read, wherever a string stands: 4 at its content's start and the offset (02, [3]), whatever follows it. */
static void characters(void)
{
    char what[256];
    for (size_t i = 0; i < sizeof befores / sizeof *befores * STRINGS; i++) {
        const struct before *at = &befores[i / STRINGS];
        struct broken b = broken_string(i % STRINGS);
        uint8_t doc[128];
        struct document d = {doc, at->n};
        memcpy(doc, at->bytes, at->n);
        add(&d, b.n, 2);
        memcpy(doc + d.n, b.bytes, b.n);
        d.n += b.n;
        snprintf(what, sizeof what, "%s: %s", at->what, b.what);
        read_is(what, doc, d.n, 90, 4, at->start + b.offset, 0, 0, NULL);
        /* bytes that would go on with the sequence, if they were the string's, are not looked at */
        add(&d, 0x8080, 2);
        read_is(what, doc, d.n, 90, 4, at->start + b.offset, 0, 0, NULL);
        /* and of a string that is not whole nothing is said but that */
        read_is(what, doc, d.n - 3, 90, 1, at->start, 0, 0, NULL);
    }
}

/* The first string that can't be read is the one, a name before its own string; and 4 keeps its rank. */
static void characters_in_order(void)
{
    read_is("a name and its string", (const uint8_t *)"\x0A\0\0\x08\0\2a\xFF\0\2b\xFF\0", 13, 90, 4, 7, 0, 0, NULL);
    read_is("two strings", (const uint8_t *)"\x0A\0\0\x08\0\1a\0\3bc\xFF\x08\0\1b\0\1\xFF\0", 19, 90, 4, 11, 0, 0, NULL);
    read_is("a bad name without room", (const uint8_t *)"\x0A\0\2a\xFF", 5, 0, 4, 4, 0, 0, NULL);
    read_is("a bad string without room is 8", (const uint8_t *)"\x0A\0\0\x08\0\1s\0\1\xFF\0", 11, 9, 8, 7, 0, 0, NULL);
    read_is("no root id before a bad name", (const uint8_t *)"\x09\0\1\xFF", 4, 90, 2, 0, 0, 0, NULL);
}

int main(void)
{
    const size_t most = 1048576 * TIKFAZRUL_WORDS;
    marked();
    parents();
    way_back();
    strings();
    characters();
    characters_in_order();
    depth(511, 0, 0);
    depth(512, 7, 6 + 5 * 511);
    records(1048574, most, 0, 0);
    records(1048574, most - 1, 8, 11 + 1048573);
    records(1048575, most, 8, 11 + 1048574);
    records(1048575, most + TIKFAZRUL_WORDS, 8, 11 + 1048574);
    bytes(16777216, 0);
    bytes(16777217, 9);
    return report();
}
