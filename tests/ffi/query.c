/* Asks tables from C: a marked document of 01, every refusal of rule 9, and the limits that are too large for the other programs. See
 * tests/ffi/run. */
#include "tree.h"

/* The bytes of a literal and their number. */
#define BYTES(s) (const uint8_t *)(s), sizeof(s) - 1

#define NOTHING NULL, 0

struct table {
    const uint8_t *doc;
    size_t doc_len;
    const uint32_t *words;
    size_t len;
};

/* Whether the matches are `wanted`, or 0, 1, 2, … where that is not given. */
static int matches_are(const uint32_t *list, size_t count, const uint32_t *wanted)
{
    for (size_t i = 0; i < count; i++)
        if (list[i] != (wanted ? wanted[i] : i))
            return 0;
    return 1;
}

/* Asks, and checks the answer and every word of a list with so much room. */
static void query_is(const char *what, struct table t, const uint8_t *q, size_t len, size_t room, uint64_t number, uint64_t place,
                     uint64_t count, const uint32_t *wanted)
{
    uint32_t *list = filled(room);
    uint64_t a[8];
    size_t found = number ? 0 : count;
    memset(a, 0x55, sizeof a);
    tikfazrul_query(t.doc, t.doc_len, t.words, t.len, q, len, list, room, a);
    expect(what, answers(a, number, place, count, 0));
    expect("there is room for what is found", found <= room);
    if (found <= room) {
        expect("the matches", matches_are(list, found, wanted));
        expect("a query changes no other word", all(list, found, room, 0xABABABAB));
    }
    free(list);
}

static void marked(void)
{
    static const uint32_t one[] = {1};
    uint32_t words[18];
    uint64_t a[8];
    struct table t = {(const uint8_t *)"\x0A\0\1a\1\0\1b\xFF\0", 10, words, 18};
    tikfazrul_read(t.doc, t.doc_len, words, 18, a);
    expect("0A00016101000162FF00 is read", answers(a, 0, 0, 10, 2));
    query_is("04: both", t, BYTES("\4"), 4, 0, 0, 2, NULL);
    query_is("04 04: both, once each", t, BYTES("\4\4"), 4, 0, 0, 2, NULL);
    query_is("03: the entry", t, BYTES("\3"), 4, 0, 0, 1, one);
    query_is("no step: the root", t, NOTHING, 4, 0, 0, 1, NULL);
    query_is("01 b: the entry", t, BYTES("\1\0\1b"), 4, 0, 0, 1, one);
    query_is("01 a: nothing, for a is the root's name", t, BYTES("\1\0\1a"), 4, 0, 0, 0, NULL);
    query_is("02 0: nothing, for an entry is no element", t, BYTES("\2\0\0\0\0"), 4, 0, 0, 0, NULL);
    query_is("03 03: nothing", t, BYTES("\3\3"), 0, 0, 0, 0, NULL);
    query_is("room for both", t, BYTES("\4"), 2, 0, 0, 2, NULL);
    query_is("room for one is 24 with two", t, BYTES("\4"), 1, 24, 0, 2, NULL);
    query_is("no room is 24 with two", t, BYTES("\4"), 0, 24, 0, 2, NULL);
    t.len = 17;
    query_is("17 words are 10", t, BYTES("\4"), 4, 10, 0, 0, NULL);
    query_is("10 comes before 14", t, BYTES("\5"), 4, 10, 0, 0, NULL);
    t.len = 16;
    query_is("so are 16, twice eight", t, BYTES("\4"), 4, 10, 0, 0, NULL);
}

/* Asks for one match, and climbs from it: the records that are passed, the root last. */
static void climb_is(const char *what, struct table t, const uint8_t *q, size_t len, const uint32_t *wanted, size_t n)
{
    uint32_t record = UINT32_MAX;
    uint64_t a[8];
    size_t i = 0;
    tikfazrul_query(t.doc, t.doc_len, t.words, t.len, q, len, &record, 1, a);
    expect(what, answers(a, 0, 0, 1, 0));
    while (a[0] == 0 && i < n && record == wanted[i] && record != 0) {
        record = t.words[TIKFAZRUL_WORDS * record + TIKFAZRUL_PARENT];
        i++;
    }
    expect("the climb from it", i + 1 == n && record == 0 && wanted[i] == 0);
}

/* From a match to what it stands in (02, [7]), on a table that was read. */
static void climbs(void)
{
    uint32_t words[TREE_WORDS];
    uint64_t a[8];
    struct table t = {(const uint8_t *)TREE, TREE_BYTES, words, TREE_WORDS};
    tikfazrul_read(t.doc, t.doc_len, words, TREE_WORDS, a);
    expect("the tree is read", answers(a, 0, 0, TREE_BYTES, TREE_RECORDS));
    query_is("04: all its records", t, BYTES("\4"), TREE_RECORDS, 0, 0, TREE_RECORDS, NULL);
    climb_is("b, wherever it is", t, BYTES("\4\1\0\1b"), (uint32_t[]){8, 7, 6, 2, 1, 0}, 6);
    climb_is("z, behind lists in the same compound", t, BYTES("\1\0\1c\1\0\1z"), (uint32_t[]){9, 1, 0}, 3);
    climb_is("the second byte of the first list", t, BYTES("\3\3\2\0\0\0\0\2\0\0\0\1"), (uint32_t[]){5, 3, 2, 1, 0}, 5);
    climb_is("s in the root", t, BYTES("\4\1\0\1s"), (uint32_t[]){10, 0}, 2);
    climb_is("the root itself", t, NOTHING, (uint32_t[]){0}, 1);
}

/* A wrong parent is 10 at 0, whatever is asked, and comes before 7, 14 and 24. */
static void wrong_parent(void)
{
    uint32_t words[TREE_WORDS], *deep = chain(513);
    struct table t = {(const uint8_t *)TREE, TREE_BYTES, words, TREE_WORDS}, d = {NULL, 0, deep, 513 * TIKFAZRUL_WORDS};
    for (size_t i = 0; i < WRONG_PARENTS; i++) {
        tree_with(words, wrong_parents[i].record, wrong_parents[i].parent);
        query_is(wrong_parents[i].what, t, BYTES("\4"), TREE_RECORDS, 10, 0, 0, NULL);
        query_is("asked for the root alone", t, NOTHING, 1, 10, 0, 0, NULL);
    }
    query_is("before 14", t, BYTES("\5"), TREE_RECORDS, 10, 0, 0, NULL);
    query_is("before 24", t, BYTES("\4"), 0, 10, 0, 0, NULL);
    t.doc_len = 16777217;
    query_is("behind 9", t, BYTES("\4"), TREE_RECORDS, 9, 0, 0, NULL);
    query_is("513 deep is 7", d, BYTES("\4"), 513, 7, 512, 0, NULL);
    deep[512 * TIKFAZRUL_WORDS + TIKFAZRUL_PARENT] = 510;
    query_is("and 10 with the grandparent in the last", d, BYTES("\4"), 513, 10, 0, 0, NULL);
    free(deep);
}

/* Refusal 14 at the first byte of the step, on the smallest table. */
static void malformed(void)
{
    static const uint32_t words[] = {10, 0, 0, 0, 0, 0, 0, 1, 0};
    struct table t = {NULL, 0, words, 9};
    query_is("no step on an empty document", t, NOTHING, 1, 0, 0, 1, NULL);
    query_is("an unknown step", t, BYTES("\4\5"), 1, 14, 1, 0, NULL);
    query_is("a step 00", t, BYTES("\0"), 1, 14, 0, 0, NULL);
    query_is("an index that is cut", t, BYTES("\3\2\0\0\0"), 1, 14, 1, 0, NULL);
    query_is("an index below 0", t, BYTES("\2\xFF\xFF\xFF\xFF"), 1, 14, 0, 0, NULL);
    query_is("the largest index", t, BYTES("\2\x7F\xFF\xFF\xFF"), 1, 0, 0, 0, NULL);
    query_is("a name without its length", t, BYTES("\1\0"), 1, 14, 0, 0, NULL);
    query_is("a name that is cut", t, BYTES("\4\1\0\2a"), 1, 14, 1, 0, NULL);
    query_is("a name in plain UTF-8", t, BYTES("\1\0\4\xF0\x9F\x98\x80"), 1, 14, 0, 0, NULL);
    query_is("the step, not the sequence (02, [3])", t, BYTES("\3\1\0\4ab\xE2\x82"), 1, 14, 1, 0, NULL);
    query_is("sixteen steps", t, BYTES("\4\4\4\4\4\4\4\4\4\4\4\4\4\4\4\4"), 1, 0, 0, 1, NULL);
    query_is("a seventeenth", t, BYTES("\4\4\4\4\4\4\4\4\4\4\4\4\4\4\4\4\4"), 1, 14, 16, 0, NULL);
    query_is("a seventeenth that is no step", t, BYTES("\4\4\4\4\4\4\4\4\4\4\4\4\4\4\4\4\5"), 1, 14, 16, 0, NULL);
    query_is("14 comes before 24", t, BYTES("\5"), 0, 14, 0, 0, NULL);
}

/* Sixteen names of 65,535 bytes, the longest query there is. */
static void longest(void)
{
    static const uint32_t words[] = {10, 0, 0, 0, 0, 0, 0, 1, 0};
    struct table t = {NULL, 0, words, 9};
    size_t each = 3 + 65535;
    uint8_t *q = lent(17 * each);
    memset(q, 'n', 17 * each);
    for (size_t i = 0; i < 17; i++)
        memcpy(q + i * each, "\1\xFF\xFF", 3);
    query_is("sixteen of the longest names", t, q, 16 * each, 1, 0, 0, 0, NULL);
    query_is("the last of them cut", t, q, 16 * each - 1, 1, 14, 15 * each, 0, NULL);
    query_is("a seventeenth of them", t, q, 17 * each, 1, 14, 16 * each, 0, NULL);
    free(q);
}

/* More words than a table has, and a document longer than one is: 9, before 10. */
static void limits(void)
{
    uint32_t *words = lent_records(1048577);
    struct table t = {lent(16777217), 4, words, 9437184};
    put(words, 0, 10, 0, 0, 0, 0, 0, 0, 1, 0);
    query_is("9,437,184 words are 10", t, BYTES("\4"), 4, 10, 0, 0, NULL);
    t.len = 9437185;
    query_is("9,437,185 words are 9 before 10", t, BYTES("\5"), 4, 9, 0, 0, NULL);
    t.len = 9437193;
    query_is("and so are 9,437,193", t, BYTES("\5"), 4, 9, 0, 0, NULL);
    t.len = 9;
    t.doc_len = 16777216;
    query_is("a document of 16,777,216 bytes", t, BYTES("\4"), 4, 0, 0, 1, NULL);
    t.doc_len = 16777217;
    query_is("a document of 16,777,217 bytes is 9", t, BYTES("\4"), 4, 9, 0, 0, NULL);
    free(words);
    free((void *)t.doc);
}

/* The root and lists within it: 513 containers are 7 at the record, before 14. */
static void depth(uint32_t deep, uint64_t number)
{
    uint32_t *words = chain(deep);
    struct table t = {NULL, 0, words, TIKFAZRUL_WORDS * (size_t)deep};
    query_is("04 on a chain of lists", t, BYTES("\4"), deep, number, number ? 512 : 0, number ? 0 : deep, NULL);
    query_is("05 on a chain of lists", t, BYTES("\5"), deep, number ? number : 14, number ? 512 : 0, 0, NULL);
    free(words);
}

/* What stands in 512 containers is asked too: a string in a compound in 510 lists in the root. */
static void deepest(void)
{
    static const uint32_t named[] = {1, 512}, string[] = {512};
    uint32_t words[TIKFAZRUL_WORDS * 513];
    struct table t = {NULL, 0, words, TIKFAZRUL_WORDS * 513};
    put(words, 0, 10, 0, 0, 0, 0, 1, 0, 513, 0);
    for (uint32_t i = 1; i < 511; i++)
        put(words, i, 9, 0, 0, 0, 0, 1, i < 510 ? 9 : 10, 513, i - 1);
    put(words, 511, 10, 0, 0, 0, 0, 1, 0, 513, 510);
    put(words, 512, 8, 0, 0, 0, 0, 0, 0, 513, 511);
    query_is("04: all 513", t, BYTES("\4"), 513, 0, 0, 513, NULL);
    query_is("04 01 \"\": the entries", t, BYTES("\4\1\0\0"), 2, 0, 0, 2, named);
    query_is("04 02 0: 510 elements", t, BYTES("\4\2\0\0\0\0"), 509, 24, 0, 510, NULL);
    query_is("04 02 0 01 \"\": the string", t, BYTES("\4\2\0\0\0\0\1\0\0"), 1, 0, 0, 1, string);
}

/* As many records as a table has, all of which match. */
static void most(void)
{
    uint32_t n = 1048576;
    uint32_t *words = lent_records(n);
    uint8_t q[] = {4, 2, 0, 0x0F, 0xFF, 0xFD};
    struct table t = {(const uint8_t *)"b", 1, words, TIKFAZRUL_WORDS * (size_t)n};
    put(words, 0, 10, 0, 0, 0, 0, 1, 0, n, 0);
    put(words, 1, 9, 0, 0, 0, 0, n - 2, 1, n, 0);
    for (uint32_t i = 2; i < n; i++)
        put(words, i, 1, 0, 0, 0, 1, 0, 0, i + 1, 1);
    query_is("1,048,576 matches", t, BYTES("\4"), n, 0, 0, n, NULL);
    query_is("room for one less is 24", t, BYTES("\4"), n - 1, 24, 0, n, NULL);
    query_is("the last element", t, q, sizeof q, 1, 0, 0, 1, (uint32_t[]){n - 1});
    words[TIKFAZRUL_WORDS * (size_t)n - 1] = 0;
    query_is("10 where the last names the root as its parent", t, q, sizeof q, 1, 10, 0, 0, NULL);
    free(words);
}

int main(void)
{
    marked();
    climbs();
    wrong_parent();
    malformed();
    longest();
    limits();
    depth(512, 0);
    depth(513, 7);
    depth(10000, 7);
    deepest();
    most();
    return report();
}
