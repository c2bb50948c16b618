/* Checks and writes tables from C: a marked document of 01, and the limits that are too large for the other programs. See tests/ffi/run. */
#include "characters.h"
#include "tree.h"

/* Writes, and checks the answer, that the table is as it was, and that no byte but the written ones changed; these are `bytes` where given.
 * `value` is the length, or in 4 the record (02, [3]). */
static void write_is(const char *what, const uint8_t *doc, size_t n, uint32_t *t, size_t words, size_t room, uint64_t number, uint64_t place,
                     uint64_t value, const uint8_t *bytes)
{
    uint8_t *out = lent(room);
    uint32_t *before = lent(4 * words);
    uint64_t a[8];
    size_t i, length = number ? 0 : value;
    memset(out, 0xAA, room);
    memcpy(before, t, 4 * words);
    memset(a, 0x55, sizeof a);
    tikfazrul_write(doc, n, t, words, out, room, a);
    expect(what, answers(a, number, place, value, 0));
    expect("a write leaves the table as it was", !memcmp(before, t, 4 * words));
    for (i = length; i < room && out[i] == 0xAA; i++)
        ;
    expect("a write changes no other byte", i >= room);
    if (bytes)
        expect("the written bytes", !memcmp(out, bytes, length));
    free(out);
    free(before);
}

/* Whether the check answers so. */
static int checks(size_t n, const uint32_t *t, size_t words, uint64_t number, uint64_t value)
{
    uint64_t a[8];
    memset(a, 0x55, sizeof a);
    tikfazrul_is_table(n, t, words, a);
    return answers(a, number, 0, value, 0);
}

static void check_is(const char *what, size_t n, const uint32_t *t, size_t words, uint64_t number, uint64_t value)
{
    expect(what, checks(n, t, words, number, value));
}

static void marked(void)
{
    const uint8_t *doc = (const uint8_t *)"\x0A\0\0\x09\0\1l\5\0\0\0\0\0";
    const uint8_t *back = (const uint8_t *)"\x0A\0\0\x09\0\1l\0\0\0\0\0\0";
    uint32_t t[18];
    uint64_t a[8];
    tikfazrul_read(doc, 13, t, 18, a);
    expect("0A00000900016C050000000000 is read", a[0] == 0 && a[2] == 13 && a[3] == 2);
    check_is("what is read is a table", 13, t, 18, 0, 1);
    check_is("its name lies in no shorter document than 7 bytes", 7, t, 18, 0, 1);
    check_is("and not in 6", 6, t, 18, 0, 0);
    check_is("17 words are no table", 13, t, 17, 0, 0);
    check_is("no words are no table", 13, NULL, 0, 0, 0);
    write_is("it is written with byte 7 as 00", doc, 13, t, 18, 20, 0, 0, 13, back);
    write_is("into exactly its room", doc, 13, t, 18, 13, 0, 0, 13, back);
    write_is("one byte short is 13", doc, 13, t, 18, 12, 13, 0, 0, NULL);
    write_is("no room is 13", doc, 13, t, 18, 0, 13, 0, 0, NULL);
    write_is("17 words are 10", doc, 13, t, 17, 20, 10, 0, 0, NULL);
    t[TIKFAZRUL_WORDS + TIKFAZRUL_END] = 3;
    check_is("a child past its container", 13, t, 18, 0, 0);
    write_is("is 10", doc, 13, t, 18, 20, 10, 0, 0, NULL);
}

/* A table of nine words a record, and words of eight as they were kept before (02, [7]). */
static void widths(void)
{
    uint32_t t[TREE_WORDS + TIKFAZRUL_WORDS] = {0}, old[9 * 8] = {10, 0, 0, 0, 0, 8, 0, 9};
    int right = 1;
    memcpy(t, tree, sizeof tree);
    for (size_t words = 0; words <= TREE_WORDS + TIKFAZRUL_WORDS; words++)
        right &= checks(TREE_BYTES, t, words, 0, words == TREE_WORDS);
    expect("the tree's words are a table, neither fewer nor more", right);
    write_is("88 words, eleven times eight, are 10", (const uint8_t *)TREE, TREE_BYTES, t, 88, 60, 10, 0, 0, NULL);
    for (uint32_t i = 1; i < 9; i++)
        memcpy(old + 8 * i, (uint32_t[]){8, 0, i, 0, 0, 0, 0, i + 1}, 8 * sizeof *old);
    check_is("nine records of eight words are no eight of nine", 16, old, 72, 0, 0);
    write_is("nor are they written", (const uint8_t *)"abcdefghijklmnop", 16, old, 72, 60, 10, 0, 0, NULL);
    old[5] = 0;
    old[7] = 1;
    check_is("a root of eight words is none", 16, old, 8, 0, 0);
    write_is("nor is it written", (const uint8_t *)"abcdefghijklmnop", 16, old, 8, 60, 10, 0, 0, NULL);
}

/* Every record has the right parent, or the words form no table (02, [7]). */
static void parents(void)
{
    const uint8_t *doc = (const uint8_t *)TREE;
    uint32_t t[TREE_WORDS];
    int right = 1;
    tree_with(t, 0, 0);
    check_is("the tree is a table", TREE_BYTES, t, TREE_WORDS, 0, 1);
    write_is("and is written as it was", doc, TREE_BYTES, t, TREE_WORDS, 60, 0, 0, TREE_BYTES, doc);
    for (size_t i = 0; i < WRONG_PARENTS; i++) {
        tree_with(t, wrong_parents[i].record, wrong_parents[i].parent);
        check_is(wrong_parents[i].what, TREE_BYTES, t, TREE_WORDS, 0, 0);
        write_is(wrong_parents[i].what, doc, TREE_BYTES, t, TREE_WORDS, 60, 10, 0, 0, NULL);
    }
    for (uint32_t i = 0; i < TREE_RECORDS * (TREE_RECORDS + 2); i++) {
        tree_with(t, i % TREE_RECORDS, i / TREE_RECORDS);
        right &= checks(TREE_BYTES, t, TREE_WORDS, 0, !memcmp(t, tree, sizeof tree));
    }
    expect("of all numbers one alone is a record's parent", right);
    tree_with(t, 8, 6);
    t[10 * TIKFAZRUL_WORDS + TIKFAZRUL_PARENT] = 9;
    check_is("two wrong parents", TREE_BYTES, t, TREE_WORDS, 0, 0);
    tree_with(t, 4, 6);
    t[7 * TIKFAZRUL_WORDS + TIKFAZRUL_PARENT] = 3;
    check_is("two parents that changed places", TREE_BYTES, t, TREE_WORDS, 0, 0);
}

/* 10 for a parent comes behind 9, and before all that is judged by record and before 13. */
static void order(void)
{
    const uint8_t *doc = (const uint8_t *)TREE;
    uint32_t t[TREE_WORDS], *deep = chain(513);
    tree_with(t, 10, 1);
    write_is("without room", doc, TREE_BYTES, t, TREE_WORDS, 0, 10, 0, 0, NULL);
    t[TIKFAZRUL_WORDS + TIKFAZRUL_NAME_LENGTH] = 4;
    write_is("a zero byte in a name before it", doc, TREE_BYTES, t, TREE_WORDS, 60, 10, 0, 0, NULL);
    t[10 * TIKFAZRUL_WORDS + TIKFAZRUL_PARENT] = 0;
    write_is("which is 4 where the parent is right", doc, TREE_BYTES, t, TREE_WORDS, 60, 4, 8, 1, NULL);
    tree_with(t, 10, 1);
    check_is("over too long a document 9 comes first", 16777217, t, TREE_WORDS, 9, 0);
    write_is("513 deep", NULL, 0, deep, 513 * TIKFAZRUL_WORDS, 5000, 7, 512, 0, NULL);
    deep[512 * TIKFAZRUL_WORDS + TIKFAZRUL_PARENT] = 510;
    write_is("513 deep, the grandparent in the last", NULL, 0, deep, 513 * TIKFAZRUL_WORDS, 5000, 10, 0, 0, NULL);
    free(deep);
}

/* More words than a table has, and a document longer than one is: 9, before 10. */
static void limits(void)
{
    uint32_t *t = lent_records(1048577);
    uint8_t *d = lent(16777217);
    put(t, 0, 10, 0, 0, 0, 0, 0, 0, 1, 0);
    check_is("9,437,184 words that form no table", 0, t, 9437184, 0, 0);
    check_is("9,437,185 words are 9", 0, t, 9437185, 9, 0);
    write_is("9,437,184 words are 10", d, 4, t, 9437184, 20, 10, 0, 0, NULL);
    write_is("9,437,185 words are 9 before 10", d, 4, t, 9437185, 20, 9, 0, 0, NULL);
    write_is("9,437,193 words are 9", d, 4, t, 9437193, 20, 9, 0, 0, NULL);
    check_is("a document of 16,777,216 bytes", 16777216, t, 9, 0, 1);
    check_is("and of one more", 16777217, t, 9, 9, 0);
    write_is("a document of 16,777,216 bytes is written from", d, 16777216, t, 9, 20, 0, 0, 4, (const uint8_t *)"\x0A\0\0\0");
    write_is("a document of 16,777,217 bytes is 9", d, 16777217, t, 9, 20, 9, 0, 0, NULL);
    free(t);
    free(d);
}

/* Names and strings of 65,535 bytes and of one more. */
static void long_strings(void)
{
    uint8_t *d = lent(65536);
    uint32_t t[18];
    memset(d, 'n', 65536);
    put(t, 0, 10, 0, 65535, 0, 0, 0, 0, 1, 0);
    write_is("a root's name of 65,535 bytes", d, 65536, t, 9, 70000, 0, 0, 65539, NULL);
    put(t, 0, 10, 0, 65536, 0, 0, 0, 0, 1, 0);
    check_is("a name of 65,536 bytes is in a table", 65536, t, 9, 0, 1);
    write_is("and 12 at record 0", d, 65536, t, 9, 70000, 12, 0, 0, NULL);
    put(t, 0, 10, 0, 0, 0, 0, 1, 0, 2, 0);
    put(t, 1, 8, 0, 65535, 1, 65535, 0, 0, 2, 0);
    write_is("an entry's name and string of 65,535 bytes", d, 65536, t, 18, 140000, 0, 0, 131079, NULL);
    put(t, 1, 8, 0, 65536, 0, 0, 0, 0, 2, 0);
    write_is("an entry's name of 65,536 bytes is 12 at record 1", d, 65536, t, 18, 140000, 12, 1, 0, NULL);
    put(t, 1, 8, 0, 1, 0, 65536, 0, 0, 2, 0);
    write_is("a string of 65,536 bytes is 12 at record 1", d, 65536, t, 18, 140000, 12, 1, 0, NULL);
    free(d);
}

/* The root and lists within it, so many containers deep. */
static void depth(uint32_t deep, uint64_t number, uint64_t place)
{
    size_t words = TIKFAZRUL_WORDS * (size_t)deep;
    uint32_t *t = chain(deep);
    check_is("a chain of lists is a table", 0, t, words, 0, 1);
    write_is("a chain of lists", NULL, 0, t, words, 8 * (size_t)deep, number, place, number ? 0 : 7 + 5 * ((uint64_t)deep - 1), NULL);
    free(t);
}

/* Every string that can't be read, in each place where a table has one: 4 at the span's start and the offset, with the record (02, [3]). The
 * document is "nop", the string and bytes that would go on with it; the table is the root, n, o and p, the last a list of two strings. */
static void characters(void)
{
    char what[256];
    for (size_t i = 0; i < 5 * STRINGS; i++) {
        static const struct {
            const char *what;
            uint32_t record, span;
        } in[] = {{"the root's name", 0, TIKFAZRUL_NAME}, {"a name", 1, TIKFAZRUL_NAME},      {"a string", 1, TIKFAZRUL_START},
                  {"a list's name", 3, TIKFAZRUL_NAME},   {"an element", 5, TIKFAZRUL_START}};
        const uint32_t record = in[i / STRINGS].record, span = in[i / STRINGS].span;
        struct broken b = broken_string(i % STRINGS);
        uint8_t doc[128];
        uint32_t t[6 * TIKFAZRUL_WORDS];
        nop(&b, doc, t);
        write_is("without such a string the table is written", doc, b.n + 5, t, 54, 99, 0, 0, 35, NULL);
        t[TIKFAZRUL_WORDS * record + span] = 3;
        t[TIKFAZRUL_WORDS * record + span + 1] = b.n;
        snprintf(what, sizeof what, "%s: %s", in[i / STRINGS].what, b.what);
        write_is(what, doc, b.n + 5, t, 54, 99, 4, 3 + b.offset, record, NULL);
        write_is(what, doc, b.n + 5, t, 54, 0, 4, 3 + b.offset, record, NULL);
    }
}

/* Two strings that can't be read, and what comes before and after 4, with 0 where 4 has the record. "na", "nb", "xy" and "z" are plain, E2 82 and
 * 80 are not. */
static void characters_in_order(void)
{
    const uint8_t *doc = (const uint8_t *)"nanbxyz\xE2\x82q\x80";
    uint32_t t[4 * TIKFAZRUL_WORDS];
    put(t, 0, 10, 0, 0, 0, 0, 2, 0, 4, 0);
    put(t, 1, 10, 0, 2, 0, 0, 1, 0, 3, 0);
    put(t, 2, 8, 6, 2, 9, 2, 0, 0, 3, 1);
    put(t, 3, 8, 2, 2, 4, 2, 0, 0, 4, 0);
    write_is("a name and its own string: the name", doc, 11, t, 36, 99, 4, 7, 2, NULL);
    put(t, 2, 8, 4, 2, 9, 2, 0, 0, 3, 1);
    write_is("the string alone", doc, 11, t, 36, 99, 4, 10, 2, NULL);
    put(t, 3, 8, 7, 3, 4, 2, 0, 0, 4, 0);
    write_is("a string and a later name: the earlier record", doc, 11, t, 36, 99, 4, 10, 2, NULL);
    put(t, 1, 10, 10, 1, 0, 0, 1, 0, 3, 0);
    write_is("a compound's name and a string in it: the compound", doc, 11, t, 36, 99, 4, 10, 1, NULL);
    put(t, 0, 10, 7, 1, 0, 0, 2, 0, 4, 0);
    write_is("the root's name before all", doc, 11, t, 36, 99, 4, 7, 0, NULL);
    put(t, 0, 10, 0, 0, 0, 0, 2, 0, 3, 0);
    put(t, 1, 8, 0, 2, 9, 2, 0, 0, 2, 0);
    put(t, 2, 8, 0, 2, 4, 2, 0, 0, 3, 0);
    write_is("a string, then a name twice", doc, 11, t, 27, 99, 4, 10, 1, NULL);
    put(t, 1, 8, 0, 2, 4, 2, 0, 0, 2, 0);
    put(t, 2, 8, 0, 2, 9, 2, 0, 0, 3, 0);
    write_is("a name twice, then its string: 6, and 0 beside it", doc, 11, t, 27, 99, 6, 2, 0, NULL);
    put(t, 2, 8, 2, 2, 6, 1, 0, 0, 3, 0);
    write_is("nothing wrong but the room: 13, and 0 beside it", doc, 11, t, 27, 20, 13, 0, 0, NULL);
    write_is("room for it", doc, 11, t, 27, 21, 0, 0, 21, NULL);
}

/* A list of a byte and of a string that can't be read: 11, and 0 beside it. */
static void mixed(void)
{
    uint32_t t[4 * TIKFAZRUL_WORDS];
    put(t, 0, 10, 0, 0, 0, 0, 1, 0, 4, 0);
    put(t, 1, 9, 0, 0, 0, 0, 2, 1, 4, 0);
    put(t, 2, 1, 0, 0, 0, 1, 0, 0, 3, 1);
    put(t, 3, 8, 0, 0, 0, 1, 0, 0, 4, 1);
    write_is("a mixed list is 11 at record 3", (const uint8_t *)"\xFF", 1, t, 36, 99, 11, 3, 0, NULL);
    put(t, 1, 9, 0, 0, 0, 0, 2, 8, 4, 0);
    put(t, 2, 8, 0, 0, 0, 0, 0, 0, 3, 1);
    write_is("with a string before it 4 at record 3", (const uint8_t *)"\xFF", 1, t, 36, 99, 4, 0, 3, NULL);
}

int main(void)
{
    marked();
    widths();
    parents();
    order();
    limits();
    long_strings();
    characters();
    characters_in_order();
    mixed();
    depth(512, 0, 0);
    depth(513, 7, 512);
    depth(10000, 7, 512);
    return report();
}
