/* Both forms from C (02, [2]): a document of every kind written by hand in each, read, written, asked and rescued; what is refused, and where;
 * numbers that name no form; empty arguments; the limits. See tests/ffi/run. */
#include "forms.h"
#include "kinds.h"

static void every_kind(void)
{
    expect("the two are as long", sizeof KINDS_JAVA == sizeof KINDS_POCKET && TIKFAZRUL_JAVA == 0 && TIKFAZRUL_POCKET == 2);
    for (size_t i = 0; i < 2; i++) {
        uint8_t back[KINDS_BYTES];
        uint32_t t[KINDS_WORDS];
        memcpy(back, both[i].doc, KINDS_BYTES);
        back[EMPTY_ID] = 0;
        memcpy(t, kinds, sizeof kinds);
        read_is("every kind", both[i].form, both[i].doc, KINDS_BYTES, KINDS_WORDS + 5, 0, 0, KINDS_BYTES, KINDS_RECORDS, kinds);
        read_is("a word short is 8", both[i].form, both[i].doc, KINDS_BYTES, KINDS_WORDS - 1, 8, 132, 0, 0, NULL);
        read_is("a byte short is 1", both[i].form, both[i].doc, KINDS_BYTES - 1, KINDS_WORDS, 1, 137, 0, 0, NULL);
        read_is("in the other form the root's name has 256 bytes", both[1 - i].form, both[i].doc, KINDS_BYTES, KINDS_WORDS, 1, 3, 0, 0, NULL);
        write_is("every kind written", both[i].form, both[i].doc, KINDS_BYTES, t, KINDS_WORDS, KINDS_BYTES + 3, 0, 0, KINDS_BYTES, back);
        write_is("into exactly its room", both[i].form, both[i].doc, KINDS_BYTES, t, KINDS_WORDS, KINDS_BYTES, 0, 0, KINDS_BYTES, back);
        write_is("a byte short is 13", both[i].form, both[i].doc, KINDS_BYTES, t, KINDS_WORDS, KINDS_BYTES - 1, 13, 0, 0, NULL);
        write_is("a word short is 10", both[i].form, both[i].doc, KINDS_BYTES, t, KINDS_WORDS - 1, KINDS_BYTES, 10, 0, 0, NULL);
    }
}

/* A query's own lengths and indices are big-endian for both documents. */
static void asked(void)
{
    for (size_t i = 0; i < 2; i++) {
        const struct asked a = {both[i].form, both[i].doc, KINDS_BYTES, kinds, KINDS_WORDS};
        query_is("S", a, BYTES("\1\0\1S"), 1, 0, 0, 1, (uint32_t[]){8});
        query_is("x at any level", a, BYTES("\4\1\0\1x"), 1, 0, 0, 1, (uint32_t[]){13});
        query_is("the second of L", a, BYTES("\1\0\1L\2\0\0\0\1"), 1, 0, 0, 1, (uint32_t[]){11});
        query_is("the element 16,777,216 of L", a, BYTES("\1\0\1L\2\1\0\0\0"), 1, 0, 0, 0, NULL);
        query_is("room for one of two", a, BYTES("\1\0\1L\3"), 1, 24, 0, 2, NULL);
        query_is("a name of 256 bytes that is cut", a, BYTES("\4\1\1\0S"), 1, 14, 1, 0, NULL);
        query_is("an index below 0", a, BYTES("\3\2\x80\0\0\0"), 1, 14, 1, 0, NULL);
        query_is("the index 128", a, BYTES("\3\2\0\0\0\x80"), 1, 0, 0, 0, NULL);
        query_is("no step: the root", a, NOTHING, 1, 0, 0, 1, (uint32_t[]){0});
    }
}

/* Names in the document's strings: U+0000 is C0 80 in one and 00 in the other, U+1F600 six bytes and four. */
static void names(void)
{
    static const uint32_t in_java[] = {10, 3, 0, 0, 0, 2, 0, 3, 0, 1, 6, 2, 8, 1, 0, 0, 2, 0, 1, 12, 6, 18, 1, 0, 0, 3, 0};
    static const uint32_t in_pocket[] = {10, 3, 0, 0, 0, 2, 0, 3, 0, 1, 6, 1, 7, 1, 0, 0, 2, 0, 1, 11, 4, 15, 1, 0, 0, 3, 0};
    const struct asked java = {TIKFAZRUL_JAVA, BYTES("\x0A\0\0\1\0\2\xC0\x80\7\1\0\6\xED\xA0\xBD\xED\xB8\x80\7\0"), in_java, 27};
    const struct asked pocket = {TIKFAZRUL_POCKET, BYTES("\x0A\0\0\1\1\0\0\7\1\4\0\xF0\x9F\x98\x80\7\0"), in_pocket, 27};
    const uint32_t one[] = {1}, two[] = {2};
    read_is("U+0000 and U+1F600 in modified UTF-8", 0, java.doc, java.doc_len, 27, 0, 0, 20, 3, java.words);
    read_is("and in UTF-8", 2, pocket.doc, pocket.doc_len, 27, 0, 0, 17, 3, pocket.words);
    query_is("C080 in Java's form", java, BYTES("\1\0\2\xC0\x80"), 1, 0, 0, 1, one);
    query_is("a zero byte in the pocket form", pocket, BYTES("\1\0\1\0"), 1, 0, 0, 1, one);
    query_is("C080 in the pocket form is 14", pocket, BYTES("\3\1\0\2\xC0\x80"), 1, 14, 1, 0, NULL);
    query_is("a zero byte in Java's form is 14", java, BYTES("\3\1\0\1\0"), 1, 14, 1, 0, NULL);
    query_is("a pair in Java's form", java, BYTES("\1\0\6\xED\xA0\xBD\xED\xB8\x80"), 1, 0, 0, 1, two);
    query_is("four bytes in the pocket form", pocket, BYTES("\1\0\4\xF0\x9F\x98\x80"), 1, 0, 0, 1, two);
    query_is("a pair in the pocket form is 14", pocket, BYTES("\1\0\6\xED\xA0\xBD\xED\xB8\x80"), 1, 14, 0, 0, NULL);
    query_is("four bytes in Java's form are 14", java, BYTES("\1\0\4\xF0\x9F\x98\x80"), 1, 14, 0, 0, NULL);
}

/* What the reader refuses of each document in its form: the same fault in both has the same number and place. */
static void refused(void)
{
    static const struct {
        const char *what, *java, *pocket;
        size_t n;
        uint64_t number, place;
    } cases[] = {
        {"a root's length that is cut", "\x0A\0", "\x0A\0", 2, 1, 1},
        {"a root's name that is cut", "\x0A\0\2a", "\x0A\2\0a", 4, 1, 3},
        {"a name of 258 bytes that is cut", "\x0A\1\2a", "\x0A\2\1a", 4, 1, 3},
        {"no compound", "\x09\0\0", "\x09\0\0", 3, 2, 0},
        {"no such id", "\x0A\0\0\x0D\0\1a\0", "\x0A\0\0\x0D\1\0a\0", 8, 3, 3},
        {"no such id in a list", "\x0A\0\0\x09\0\1l\x0D\0\0\0\1", "\x0A\0\0\x09\1\0l\x0D\1\0\0\0", 12, 3, 7},
        {"a bad name", "\x0A\0\0\1\0\2a\xFF\7\0", "\x0A\0\0\1\2\0a\xFF\7\0", 10, 4, 7},
        {"a bad string", "\x0A\0\0\x08\0\1s\0\2a\x80\0", "\x0A\0\0\x08\1\0s\2\0a\x80\0", 12, 4, 10},
        {"a count of -2,147,483,648", "\x0A\0\0\x09\0\1l\1\x80\0\0\0\0", "\x0A\0\0\x09\1\0l\1\0\0\0\x80\0", 13, 5, 8},
        {"an array of -2", "\x0A\0\0\x0B\0\1i\xFF\xFF\xFF\xFE\0", "\x0A\0\0\x0B\1\0i\xFE\xFF\xFF\xFF\0", 12, 5, 7},
        {"128 elements that did not come", "\x0A\0\0\7\0\1b\0\0\0\x80\0", "\x0A\0\0\7\1\0b\x80\0\0\0\0", 12, 1, 11},
        {"a name twice", "\x0A\0\0\1\0\1b\1\1\0\1b\2\0", "\x0A\0\0\1\1\0b\1\1\1\0b\2\0", 14, 6, 8},
    };
    for (size_t i = 0; i < sizeof cases / sizeof *cases; i++) {
        read_is(cases[i].what, 0, (const uint8_t *)cases[i].java, cases[i].n, 90, cases[i].number, cases[i].place, 0, 0, NULL);
        read_is(cases[i].what, 2, (const uint8_t *)cases[i].pocket, cases[i].n, 90, cases[i].number, cases[i].place, 0, 0, NULL);
    }
}

/* What the writer judges by record, in the pocket form: a name of two letters, a string with a zero byte, and one with C0 80. */
static void judged(void)
{
    const uint8_t *doc = (const uint8_t *)"nanb\0z\xC0\x80";
    uint32_t t[3 * TIKFAZRUL_WORDS];
    put(t, 0, 10, 0, 0, 0, 0, 2, 0, 3, 0);
    put(t, 1, 8, 0, 2, 4, 2, 0, 0, 2, 0);
    put(t, 2, 8, 2, 2, 6, 2, 0, 0, 3, 0);
    write_is("a zero byte is 4 at 4 in Java's form", 0, doc, 8, t, 27, 99, 4, 4, 1, NULL);
    write_is("C080 is 4 at 6 in the pocket form", 2, doc, 8, t, 27, 99, 4, 6, 2, NULL);
    put(t, 2, 8, 2, 2, 5, 1, 0, 0, 3, 0);
    write_is("z in its place", 2, doc, 8, t, 27, 99, 0, 0, 21, (const uint8_t *)"\x0A\0\0\x08\2\0na\2\0\0z\x08\2\0nb\1\0z\0");
    put(t, 2, 8, 6, 2, 5, 1, 0, 0, 3, 0);
    write_is("C080 in a name", 2, doc, 8, t, 27, 99, 4, 6, 2, NULL);
    put(t, 2, 8, 0, 2, 6, 2, 0, 0, 3, 0);
    write_is("a name twice comes before its string", 2, doc, 8, t, 27, 99, 6, 2, 0, NULL);
    put(t, 0, 10, 7, 1, 0, 0, 2, 0, 3, 0);
    write_is("the root's name before all", 2, doc, 8, t, 27, 0, 4, 7, 0, NULL);
    put(t, 0, 10, 0, 0, 0, 0, 1, 0, 3, 0);
    put(t, 1, 9, 0, 1, 0, 0, 1, 8, 3, 0);
    put(t, 2, 8, 0, 0, 4, 2, 0, 0, 3, 1);
    write_is("a list of one string", 2, doc, 8, t, 27, 99, 0, 0, 17, (const uint8_t *)"\x0A\0\0\x09\1\0n\x08\1\0\0\0\2\0\0z\0");
}

/* A list of three compounds, cut in the second, as in tests/ffi/rescue.c. */
#define CUT "\x0A\1\0t\x09\1\0l\x0A\3\0\0\0\1\1\0b\7\0\1\1\0b\x08\x08\1\0s\0"
#define SAVED "\x0A\1\0t\x09\1\0l\x0A\2\0\0\0\1\1\0b\7\0\1\1\0b\x08\0\0"

static void rescued(void)
{
    static const uint32_t lines[] = {0, 0, 1, 1, 3, 2, 4, 0, 1}, root[] = {0, 0, 0}, ints[] = {0, 0, 1, 1, 258, 1};
    const size_t n = sizeof CUT - 1, m = sizeof SAVED - 1;
    rescue_is("a list of compounds", 2, CUT, n, 63, m + 2, 11, 0, 0, m, 3, SAVED, lines);
    rescue_is("a byte short is 13", 2, CUT, n, 63, m - 1, 9, 13, 0, 0, 0, NULL, NULL);
    rescue_is("a word of changes short is 24", 2, CUT, n, 63, m, 8, 24, 0, 3, 0, NULL, NULL);
    rescue_is("a word of table short is 8", 2, CUT, n, 62, m, 9, 8, 28, 0, 0, NULL, NULL);
    rescue_is("in Java's form its root is cut", 0, CUT, n, 63, m, 9, 32, 3, 0, 0, NULL, NULL);
    rescue_is("258 ints, of which one came", 2, "\x0A\0\0\x09\1\0l\3\2\1\0\0\1\2\3\4\5", 17, 45, 17, 6, 0, 0, 17, 2,
              "\x0A\0\0\x09\1\0l\3\1\0\0\0\1\2\3\4\0", ints);
    rescue_is("a string's length that is cut", 2, "\x0A\0\0\x08\1\0s\1", 8, 18, 4, 3, 0, 0, 4, 1, "\x0A\0\0\0", root);
    rescue_is("a string that is cut", 2, "\x0A\0\0\x08\1\0s\2\0a", 10, 18, 4, 3, 0, 0, 4, 1, "\x0A\0\0\0", root);
    rescue_is("a bad string is 4", 2, "\x0A\0\0\x08\1\0s\2\0\xC0\x80", 11, 18, 4, 3, 4, 9, 0, 0, NULL, NULL);
    rescue_is("a whole one is 31", 2, "\x0A\1\0\0\0", 5, 9, 4, 3, 31, 0, 0, 0, NULL, NULL);
    rescue_is("C080 in the root's name", 2, "\x0A\2\0\xC0\x80", 5, 9, 4, 3, 4, 3, 0, 0, NULL, NULL);
}

/* Of all numbers 2 alone is the pocket form, whatever its bits. */
static void numbers(void)
{
    static const uint32_t javas[] = {0, 1, 3, 4, 5, 6, 7, 8, 10, 18, 34, 66, 130, 258, 0x10002, 0x02000000, 0x80000002, 0xFFFFFFFF};
    static const uint32_t root[] = {0, 0, 1};
    for (size_t i = 0; i < sizeof javas / sizeof *javas; i++) {
        struct asked a = {javas[i], (const uint8_t *)KINDS_JAVA, KINDS_BYTES, kinds, KINDS_WORDS};
        uint32_t t[KINDS_WORDS];
        uint8_t back[KINDS_BYTES];
        memcpy(t, kinds, sizeof kinds);
        memcpy(back, KINDS_JAVA, KINDS_BYTES);
        back[EMPTY_ID] = 0;
        read_is("any other number reads Java's form", javas[i], a.doc, KINDS_BYTES, KINDS_WORDS, 0, 0, KINDS_BYTES, KINDS_RECORDS, kinds);
        read_is("and not the pocket form", javas[i], (const uint8_t *)KINDS_POCKET, KINDS_BYTES, KINDS_WORDS, 1, 3, 0, 0, NULL);
        write_is("and writes it", javas[i], a.doc, KINDS_BYTES, t, KINDS_WORDS, KINDS_BYTES, 0, 0, KINDS_BYTES, back);
        query_is("and asks by C080", a, BYTES("\1\0\2\xC0\x80"), 1, 0, 0, 0, NULL);
        query_is("and not by a zero byte", a, BYTES("\1\0\1\0"), 1, 14, 0, 0, NULL);
        rescue_is("and rescues it", javas[i], "\x0A\0\0\1\0\1b\7", 8, 18, 9, 3, 0, 0, 9, 1, "\x0A\0\0\1\0\1b\7\0", root);
        string_is("and takes C080", javas[i], "\xC0\x80", 2, 0, 0);
        string_is("and no zero byte", javas[i], "\0", 1, 4, 0);
    }
}

/* Null pointers with the number 0, in each form. */
static void empty(void)
{
    static const uint32_t words[] = {10, 0, 0, 0, 0, 0, 0, 1, 0};
    for (uint32_t form = 0; form < 8; form++) {
        struct asked none = {form, NULL, 0, NULL, 0}, root = {form, NULL, 0, words, 9};
        uint32_t t[9];
        memcpy(t, words, sizeof words);
        read_is("no bytes, no table", form, NULL, 0, 0, 1, 0, 0, 0, NULL);
        read_is("no table is 8", form, (const uint8_t *)"\x0A\0\0\0", 4, 0, 8, 3, 0, 0, NULL);
        write_is("no words are 10", form, NULL, 0, NULL, 0, 0, 10, 0, 0, NULL);
        write_is("no output is 13", form, NULL, 0, t, 9, 0, 13, 0, 0, NULL);
        write_is("a root over no bytes", form, NULL, 0, t, 9, 4, 0, 0, 4, (const uint8_t *)"\x0A\0\0\0");
        query_is("no words are 10", none, NOTHING, 0, 10, 0, 0, NULL);
        query_is("no list is 24", root, NOTHING, 0, 24, 0, 1, NULL);
        query_is("a root over no bytes", root, NOTHING, 1, 0, 0, 1, (uint32_t[]){0});
        rescue_is("no bytes are 32", form, NULL, 0, 0, 0, 0, 32, 0, 0, 0, NULL, NULL);
        string_is("no bytes are a string", form, NULL, 0, 0, 0);
    }
}

/* Lists in each other and bytes in an array, as many as there may be in the pocket form, and one more. */
static void limits(void)
{
    const size_t most = 16777216;
    uint8_t *d = lent(most + 1);
    memcpy(d, "\x0A\0\0\7\0\0\xF5\xFF\xFF\0", 10);
    read_is("16,777,216 bytes", 2, d, most, 18, 0, 0, most, 2, NULL);
    read_is("16,777,217 bytes are 9", 2, d, most + 1, 18, 9, 0, 0, 0, NULL);
    memcpy(d, "\x0A\0\0\x09\0\0", 6);
    for (size_t i = 0; i < 512; i++)
        memcpy(d + 6 + 5 * i, "\x09\1\0\0\0", 5);
    read_is("513 deep is 7", 2, d, 6 + 5 * 512 + 6, 600 * TIKFAZRUL_WORDS, 7, 6 + 5 * 511, 0, 0, NULL);
    memset(d + 6 + 5 * 510, 0, 6);
    read_is("512 deep", 2, d, 6 + 5 * 511 + 1, 512 * TIKFAZRUL_WORDS, 0, 0, 6 + 5 * 511 + 1, 512, NULL);
    memcpy(d, "\x0A\0\0\x09\0\0\1\xFE\xFF\x0F\0", 11);
    memset(d + 11, 7, 1048574);
    d[11 + 1048574] = 0;
    read_is("1,048,576 records", 2, d, 12 + 1048574, 1048576 * TIKFAZRUL_WORDS, 0, 0, 12 + 1048574, 1048576, NULL);
    read_is("and room for one fewer", 2, d, 12 + 1048574, 1048576 * TIKFAZRUL_WORDS - 1, 8, 11 + 1048573, 0, 0, NULL);
    free(d);
}

int main(void)
{
    every_kind();
    asked();
    names();
    refused();
    judged();
    rescued();
    numbers();
    empty();
    limits();
    return report();
}
