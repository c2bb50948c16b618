/* Rescues documents that are cut, from C: each refusal and what it leaves, rooms one short, and the limits that are too large for the other
 * programs. See tests/ffi/run. */
#include "tree.h"

/* A list of three compounds, cut in the second: seven records are begun, six kept, three containers open. */
#define CUT "\x0A\0\1t\x09\0\1l\x0A\0\0\0\3\1\0\1b\7\0\1\0\1b\x08\x08\0\1s\0"
#define SAVED "\x0A\0\1t\x09\0\1l\x0A\0\0\0\2\1\0\1b\7\0\1\0\1b\x08\0\0"
static const uint32_t lines[] = {0, 0, 1, 1, 3, 2, 4, 0, 1};

/* The rooms: words of table, bytes of output, words of changes. */
struct rooms {
    size_t words, bytes, changes;
};

/* Rescues, and checks the answer and every word and byte that is lent: `bytes` and `changes` where given are what an accepted one writes,
 * `records` the table's words after 31, the root's end being their number. */
static void rescue_is(const char *what, uint32_t form, const void *doc, size_t n, struct rooms r, uint64_t number, uint64_t place, uint64_t first,
                      uint64_t second, const void *bytes, const uint32_t *changes, const uint32_t *records)
{
    uint32_t *t = filled(r.words), *c = filled(r.changes);
    uint8_t *out = lent(r.bytes), *before = lent(n);
    uint64_t a[8];
    size_t written = number ? 0 : first, listed = number ? 0 : 3 * second, held = records ? TIKFAZRUL_WORDS * records[TIKFAZRUL_END] : 0, i;
    memset(out, 0xAA, r.bytes);
    if (n)
        memcpy(before, doc, n);
    memset(a, 0x55, sizeof a);
    tikfazrul_rescue(form, doc, n, t, r.words, out, r.bytes, c, r.changes, a);
    expect(what, answers(a, number, place, first, second));
    expect("the document is as it was", !n || !memcmp(before, doc, n));
    for (i = written; i < r.bytes && out[i] == 0xAA; i++)
        ;
    expect("no other byte of the output changes", i >= r.bytes);
    expect("no other word of the changes changes", all(c, listed, r.changes, 0xABABABAB));
    if (number != 31)
        expect("the table is zero", all(t, 0, r.words, 0));
    else
        expect("the table holds the records", !memcmp(t, records, held * sizeof *t) && all(t, held, r.words, 0xABABABAB));
    if (bytes)
        expect("the bytes written", !memcmp(out, bytes, written));
    if (changes)
        expect("the lines", !memcmp(c, changes, 4 * listed));
    free(t);
    free(c);
    free(out);
    free(before);
}

static void saved(const char *what, const void *doc, size_t n, struct rooms r, uint64_t length, uint64_t count, const void *bytes,
                  const uint32_t *changes)
{
    rescue_is(what, 0, doc, n, r, 0, 0, length, count, bytes, changes, NULL);
}

static void refused(const char *what, const void *doc, size_t n, struct rooms r, uint64_t number, uint64_t place, uint64_t count)
{
    rescue_is(what, 0, doc, n, r, number, place, count, 0, NULL, NULL, NULL);
}

static void rooms(void)
{
    const size_t n = sizeof CUT - 1, m = sizeof SAVED - 1;
    const uint32_t forms[] = {0, 1, 3, 4, 7, 0x80000000, 0xFFFFFFFF};
    saved("a list of compounds", CUT, n, (struct rooms){63, m, 9}, m, 3, SAVED, lines);
    saved("with more room than is wanted", CUT, n, (struct rooms){71, m + 9, 11}, m, 3, SAVED, lines);
    for (size_t i = 0; i < sizeof forms / sizeof *forms; i++)
        rescue_is("any number but 2 is Java's form", forms[i], CUT, n, (struct rooms){63, m, 9}, 0, 0, m, 3, SAVED, lines, NULL);
    refused("a word of table short is 8", CUT, n, (struct rooms){62, m, 9}, 8, 28, 0);
    refused("no table is 8 at the root", CUT, n, (struct rooms){0, m, 9}, 8, 4, 0);
    refused("8 comes before 24 and 13", CUT, n, (struct rooms){62, 0, 0}, 8, 28, 0);
    refused("a word of changes short is 24", CUT, n, (struct rooms){63, m, 8}, 24, 0, 3);
    refused("a line short is 24", CUT, n, (struct rooms){63, m, 6}, 24, 0, 3);
    refused("no changes are 24", CUT, n, (struct rooms){63, m, 0}, 24, 0, 3);
    refused("24 comes before 13", CUT, n, (struct rooms){63, m - 1, 8}, 24, 0, 3);
    refused("a byte of output short is 13", CUT, n, (struct rooms){63, m - 1, 9}, 13, 0, 0);
    refused("no output is 13", CUT, n, (struct rooms){63, 0, 9}, 13, 0, 0);
}

/* Where the cut falls: in the root's id and name, behind them, in each field of an entry. */
static void places(void)
{
    static const uint32_t root[] = {0, 0, 0}, entry[] = {0, 0, 1}, none[] = {0, 0, 1, 1, 3, 0}, two[] = {0, 0, 1, 1, 3, 2};
    const struct rooms r = {90, 40, 12}, no = {0, 0, 0};
    refused("no bytes are 32 at 0", NULL, 0, r, 32, 0, 0);
    refused("no bytes and no room", NULL, 0, no, 32, 0, 0);
    refused("0A is 32 at 1", "\x0A", 1, r, 32, 1, 0);
    refused("0A00 is 32 at 1, before 24 and 13", "\x0A\0", 2, no, 32, 1, 0);
    refused("0A0001 is 32 at 3", "\x0A\0\1", 3, r, 32, 3, 0);
    refused("0A000261 is 32 at 3", "\x0A\0\2a", 4, r, 32, 3, 0);
    saved("0A0000 is the root alone", "\x0A\0\0", 3, (struct rooms){9, 4, 3}, 4, 1, "\x0A\0\0\0", root);
    saved("an id byte vanishes, whatever it is", "\x0A\0\0\xFF", 4, (struct rooms){9, 4, 3}, 4, 1, "\x0A\0\0\0", root);
    saved("and a cut name", "\x0A\0\0\1\0\2a", 7, (struct rooms){9, 4, 3}, 4, 1, "\x0A\0\0\0", root);
    saved("and a name without its value", "\x0A\0\0\1\0\1a", 7, (struct rooms){18, 4, 3}, 4, 1, "\x0A\0\0\0", root);
    saved("a whole entry is kept", "\x0A\0\0\1\0\1a\7", 8, (struct rooms){18, 9, 3}, 9, 1, "\x0A\0\0\1\0\1a\7\0", entry);
    saved("an empty list loses its id", "\x0A\0\0\x09\0\1l\5\0\0\0\0", 12, (struct rooms){18, 13, 3}, 13, 1,
          "\x0A\0\0\x09\0\1l\0\0\0\0\0\0", entry);
    saved("a list of which nothing came is empty, and open", "\x0A\0\0\x09\0\1l\5\0\0\0\3", 12, (struct rooms){27, 13, 6}, 13, 2,
          "\x0A\0\0\x09\0\1l\0\0\0\0\0\0", none);
    saved("a list keeps what came", "\x0A\0\0\x09\0\1l\1\0\0\0\3\7\7", 14, (struct rooms){45, 15, 6}, 15, 2,
          "\x0A\0\0\x09\0\1l\1\0\0\0\2\7\7\0", two);
    saved("a list whose elements all came is closed", "\x0A\0\0\x09\0\1l\1\0\0\0\2\7\7", 14, (struct rooms){36, 15, 3}, 15, 1,
          "\x0A\0\0\x09\0\1l\1\0\0\0\2\7\7\0", entry);
}

/* What the reader refuses otherwise comes as it is, whatever the rooms. */
static void handed_on(void)
{
    static const uint32_t one[] = {10, 3, 0, 0, 0, 0, 0, 1, 0};
    static const struct {
        const char *doc;
        size_t n;
        uint64_t number, place;
    } cases[] = {
        {"\x09\0\0", 3, 2, 0},
        {"\x0A\0\0\x0D\0\0", 6, 3, 3},
        {"\x0A\0\0\x09\0\1l\0\0\0\0\1", 12, 3, 7},
        {"\x0A\0\1\xFF", 4, 4, 3},
        {"\x0A\0\0\x08\0\0\0\1\x80", 9, 4, 8},
        {"\x0A\0\3ab\xFF", 6, 4, 5},
        {"\x0A\0\0\x08\0\0\0\4ab\xE2\x82", 12, 4, 10},
        {"\x0A\0\0\x08\0\0\0\7ab\xED\xA0\xBD\xED\xB8", 15, 4, 10},
        {"\x0A\0\0\x07\0\0\xFF\xFF\xFF\xFF", 10, 5, 6},
        {"\x0A\0\0\1\0\1b\1\1\0\1b", 12, 6, 8},
    };
    for (size_t i = 0; i < sizeof cases / sizeof *cases; i++) {
        refused("the reader's refusal", cases[i].doc, cases[i].n, (struct rooms){90, 80, 30}, cases[i].number, cases[i].place, 0);
        refused("and without room", cases[i].doc, cases[i].n, (struct rooms){18, 0, 0}, cases[i].number, cases[i].place, 0);
    }
    rescue_is("a whole document is 31", 0, "\x0A\0\0\0", 4, (struct rooms){9, 20, 9}, 31, 0, 0, 0, NULL, NULL, one);
    rescue_is("bytes behind the root too, and without room", 0, "\x0A\0\0\0\1\0", 6, (struct rooms){26, 0, 0}, 31, 0, 0, 0, NULL, NULL, one);
    rescue_is("the tree is whole, and its records have their parents", 0, TREE, TREE_BYTES, (struct rooms){TREE_WORDS + 8, 60, 15}, 31, 0, 0, 0, NULL,
              NULL, tree);
    refused("a whole document that the table has no room for is 8", "\x0A\0\0\0", 4, (struct rooms){8, 20, 9}, 8, 3, 0);
}

/* The tree cut anywhere. Its records keep their numbers in the new document, and so their parents (02, [11] and [7]); `whole` says how many bytes
 * must have come for each to be kept. The table on which the cut was read is zero, parents too. */
static void parents(void)
{
    static const size_t whole[TREE_RECORDS] = {3, 7, 16, 21, 22, 23, 28, 29, 33, 39, 48};
    uint32_t back[TREE_WORDS], changes[15];
    uint8_t out[TREE_BYTES + 5];
    uint64_t a[8], b[8];
    int zero = 1, read = 1, right = 1;
    for (size_t n = 3, kept = 0; n < TREE_BYTES; n++) {
        uint32_t *t = filled(TREE_WORDS);
        while (kept < TREE_RECORDS && whole[kept] <= n)
            kept++;
        tikfazrul_rescue(0, (const uint8_t *)TREE, n, t, TREE_WORDS, out, sizeof out, changes, 15, a);
        zero &= a[0] == 0 && all(t, 0, TREE_WORDS, 0);
        tikfazrul_read(out, a[2], back, TREE_WORDS, b);
        read &= answers(b, 0, 0, a[2], kept);
        for (size_t i = TIKFAZRUL_PARENT; i < TIKFAZRUL_WORDS * kept; i += TIKFAZRUL_WORDS)
            right &= back[i] == tree[i];
        free(t);
    }
    expect("the tree is rescued wherever it is cut, and the table is zero", zero);
    expect("what is rescued is read, with the records that were kept", read);
    expect("which have the parents they had", right);
}

/* Compounds in each other, so many deep, and nothing behind the innermost name. */
static void depth(size_t deep, uint64_t number)
{
    size_t n = 3 * deep;
    uint8_t *d = lent(n), *back = lent(4 * deep);
    uint32_t *c = lent(12 * deep);
    for (size_t i = 0; i < deep; i++) {
        d[3 * i] = back[3 * i] = 10;
        c[3 * i] = i;
        c[3 * i + 2] = i + 1 < deep;
    }
    if (number) {
        refused("too deep", d, n, (struct rooms){TIKFAZRUL_WORDS * deep, 4 * deep, 3 * deep}, number, n, 0);
    } else {
        saved("as deep as may be", d, n, (struct rooms){TIKFAZRUL_WORDS * deep, 4 * deep, 3 * deep}, 4 * deep, deep, back, c);
        saved("512 bytes and 1,536 words are always enough", d, n, (struct rooms){TIKFAZRUL_WORDS * deep, n + 512, 1536}, 4 * deep, deep, back, c);
        refused("one line short", d, n, (struct rooms){TIKFAZRUL_WORDS * deep, 4 * deep, 3 * deep - 1}, 24, 0, deep);
    }
    free(d);
    free(back);
    free(c);
}

/* A document as long as one may be, which the root's end makes a byte longer; one that is too long; and a table of every record there can be. */
static void limits(void)
{
    static const uint32_t entry[] = {0, 0, 1};
    const size_t most = 16777216, records = 1048576;
    uint8_t *d = lent(most + 1);
    uint32_t list[] = {0, 0, 1, 1, (uint32_t)records, (uint32_t)records - 2};
    memcpy(d, "\x0A\0\0\x07\0\0\0\xFF\xFF\xF6", 10);
    saved("16,777,216 bytes, and one more written", d, most, (struct rooms){18, most + 1, 3}, most + 1, 1, d, entry);
    refused("which wants its room", d, most, (struct rooms){18, most, 3}, 13, 0, 0);
    refused("16,777,217 bytes are 9", d, most + 1, (struct rooms){18, 40, 3}, 9, 0, 0);
    refused("before anything else", d, most + 1, (struct rooms){0, 0, 0}, 9, 0, 0);
    memset(d, 0, most);
    refused("a wrong root of 16,777,216 bytes is 2", d, most, (struct rooms){18, 40, 3}, 2, 0, 0);
    /* a list that promises more bytes than there are records for, cut where the table is full */
    memcpy(d, "\x0A\0\0\x09\0\0\1\0\x10\0\0", 11);
    refused("no more than 1,048,576 records", d, 11 + records - 2, (struct rooms){TIKFAZRUL_WORDS * (records + 1), most, 6}, 8, 11 + records - 2, 0);
    list[5]--;
    saved("one fewer", d, 11 + records - 3, (struct rooms){TIKFAZRUL_WORDS * records, most, 6}, 11 + records - 3 + 1, 2, NULL, list);
    free(d);
}

int main(void)
{
    rooms();
    places();
    handed_on();
    parents();
    depth(511, 0);
    depth(512, 0);
    depth(513, 7);
    limits();
    return report();
}
