/* What a conversion refuses, from C (02, [2]): strings up to the longest in either form, and one byte more; of several faults the first; depths; and
 * that nothing but the room limits what is written. See tests/ffi/run. */
#include "convert.h"

/* A root with the string l, or the list l of it, over a document; l is its last byte. A string of a span, a name of it, an element of it, and the
 * root's name: each is judged alike, at its record. */
static void in_each_place(const char *what, uint32_t from, uint32_t to, const uint8_t *doc, size_t n, uint32_t start, uint32_t length,
                          uint64_t number, uint64_t written)
{
    uint32_t t[3 * WORDS];
    struct source s = {from, to, doc, n, t, 2 * WORDS};
    put(t, 0, 10, 0, 0, 0, 0, 1, 0, 2, 0);
    put(t, 1, 8, n - 1, 1, start, length, 0, 0, 2, 0);
    convert_is(what, s, 70000, number, number ? 1 : 0, number ? 0 : 10 + written, NULL);
    put(t, 1, 8, start, length, n - 1, 1, 0, 0, 2, 0);
    convert_is(what, s, 70000, number, number ? 1 : 0, number ? 0 : 10 + written, NULL);
    put(t, 0, 10, start, length, 0, 0, 0, 0, 1, 0);
    s.len = WORDS;
    convert_is(what, s, 70000, number, 0, number ? 0 : 4 + written, NULL);
    put(t, 0, 10, 0, 0, 0, 0, 1, 0, 3, 0);
    put(t, 1, 9, n - 1, 1, 0, 0, 1, 8, 3, 0);
    put(t, 2, 8, 0, 0, start, length, 0, 0, 3, 1);
    s.len = 3 * WORDS;
    convert_is(what, s, 70000, number, number ? 2 : 0, number ? 0 : 15 + written, NULL);
}

/* Strings up to 65,535 bytes in the form that is written, and one byte more; and in the document, whatever is written. */
static void longest(void)
{
    uint8_t *zeros = lent(65540), *fours = lent(43700), *pairs = lent(65540);
    memcpy(zeros + 65536, "abl", 3);
    for (size_t i = 0; i < 10922; i++)
        memcpy(fours + 4 * i, "\xF0\x9F\x98\x80", 4);
    memcpy(fours + 43688, "abcdl", 5);
    for (size_t i = 0; i < 32768; i++)
        memcpy(pairs + 2 * i, "\xC0\x80", 2);
    memcpy(pairs + 65536, "al", 2);
    in_each_place("32,767 zero bytes are 65,534", POCKET, JAVA, zeros, 65539, 0, 32767, 0, 65534);
    in_each_place("and a letter 65,535", POCKET, JAVA, zeros, 65539, 32769, 32768, 0, 65535);
    in_each_place("and two letters 65,536", POCKET, JAVA, zeros, 65539, 32769, 32769, 12, 0);
    in_each_place("32,768 zero bytes are 65,536", POCKET, JAVA, zeros, 65539, 0, 32768, 12, 0);
    in_each_place("65,535 zero bytes are 131,070", POCKET, JAVA, zeros, 65539, 0, 65535, 12, 0);
    in_each_place("in their own form they are 65,535", POCKET, POCKET, zeros, 65539, 0, 65535, 0, 65535);
    in_each_place("65,536 are too many in the document", POCKET, POCKET, zeros, 65539, 0, 65536, 12, 0);
    in_each_place("10,922 of four bytes and three letters", POCKET, JAVA, fours, 43693, 0, 43691, 0, 65535);
    in_each_place("10,922 of four bytes and four letters", POCKET, JAVA, fours, 43693, 0, 43692, 12, 0);
    in_each_place("32,767 of C080 and a letter", JAVA, POCKET, pairs, 65538, 2, 65535, 0, 32768);
    in_each_place("32,768 of C080: too many in the document", JAVA, POCKET, pairs, 65538, 0, 65536, 12, 0);
    free(zeros);
    free(fours);
    free(pairs);
}

/* What a longest string is written as: 32,767 times C0 80 and a letter, of which the length is FF FF; and back. */
static void longest_bytes(void)
{
    uint8_t *pocket = lent(3 + 32768 + 1), *java = lent(3 + 65535 + 1);
    memcpy(pocket, "\x0A\0\x80", 3);
    memcpy(java, "\x0A\xFF\xFF", 3);
    for (size_t i = 0; i < 32767; i++)
        memcpy(java + 3 + 2 * i, "\xC0\x80", 2);
    pocket[3 + 32767] = java[3 + 65534] = 'a';
    uint32_t t[WORDS];
    struct source s = {POCKET, JAVA, pocket, 3 + 32768 + 1, t, WORDS}, back = {JAVA, POCKET, java, 3 + 65535 + 1, t, WORDS};
    put(t, 0, 10, 3, 32768, 0, 0, 0, 0, 1, 0);
    convert_is("a root's name of 65,535 bytes", s, 70000, 0, 0, 65539, java);
    convert_is("a byte short", s, 65538, 13, 0, 0, NULL);
    put(t, 0, 10, 3, 65535, 0, 0, 0, 0, 1, 0);
    convert_is("and back", back, 70000, 0, 0, 32772, pocket);
    convert_is("a byte short", back, 32771, 13, 0, 0, NULL);
    free(pocket);
    free(java);
}

/* Where a document has 40,000 zero bytes, then "nanbx", then a byte that is no UTF-8. */
enum { ZEROS = 40000, NA = ZEROS, NB = ZEROS + 2, X = ZEROS + 4, BAD = ZEROS + 5, END = ZEROS + 6 };

static uint8_t *zeros_and_more(void)
{
    uint8_t *doc = lent(70006);
    memcpy(doc + ZEROS, "nanbx\xFF", 6);
    return doc;
}

/* One entry: which of its name and its string is refused, and for what. A string that can't be read is 4 even where it would be too long in Java's
 * form, and one that is too long in the document 12 even where it can't be read. */
static void first_of_a_record(void)
{
    uint8_t *doc = zeros_and_more();
    uint32_t t[2 * WORDS];
    struct source s = {POCKET, JAVA, doc, 70006, t, 2 * WORDS};
    put(t, 0, 10, 0, 0, 0, 0, 1, 0, 2, 0);
    put(t, 1, 8, 0, ZEROS, BAD, 1, 0, 0, 2, 0);
    refused_is("a name too long, before its string", s, 12, 1, 0);
    put(t, 1, 8, BAD, 1, 0, ZEROS, 0, 0, 2, 0);
    refused_is("a name that can't be read, before its string", s, 4, BAD, 1);
    put(t, 1, 8, 0, END, NA, 1, 0, 0, 2, 0);
    refused_is("a name that can't be read, and would be too long", s, 4, BAD, 1);
    put(t, 1, 8, NA, 1, 0, END, 0, 0, 2, 0);
    refused_is("a string that can't be read, and would be too long", s, 4, BAD, 1);
    put(t, 1, 8, NA, 1, 0, 65536, 0, 0, 2, 0);
    refused_is("a string too long in the document, and not to be read", s, 12, 1, 0);
    put(t, 1, 8, 0, 65536, NA, 1, 0, 0, 2, 0);
    refused_is("a name too long in the document, and not to be read", s, 12, 1, 0);
    put(t, 0, 10, 0, ZEROS, 0, 0, 1, 0, 2, 0);
    refused_is("the root's name before all", s, 12, 0, 0);
    put(t, 0, 10, BAD, 1, 0, 0, 1, 0, 2, 0);
    refused_is("and where it can't be read", s, 4, BAD, 0);
    put(t, 0, 10, 0, 0, 0, 0, 1, 0, 2, 0);
    put(t, 1, 8, NA, 1, 0, 32767, 0, 0, 2, 0);
    convert_is("nothing wrong but the room", s, 10 + 65534 - 1, 13, 0, 0, NULL);
    convert_is("room for it", s, 10 + 65534, 0, 0, 10 + 65534, NULL);
    free(doc);
}

/* Several records: the first that is refused, and 6, 7 and 11 before its string. A late 12, or 4, comes before the 13 of an earlier one. */
static void first_of_the_records(void)
{
    uint8_t *doc = zeros_and_more();
    uint32_t t[4 * WORDS];
    struct source s = {POCKET, JAVA, doc, 70006, t, 3 * WORDS};
    put(t, 0, 10, 0, 0, 0, 0, 2, 0, 3, 0);
    put(t, 1, 8, NA, 2, 0, ZEROS, 0, 0, 2, 0);
    put(t, 2, 8, NB, 2, BAD, 1, 0, 0, 3, 0);
    refused_is("a string too long, then one that can't be read", s, 12, 1, 0);
    put(t, 1, 8, NA, 2, BAD, 1, 0, 0, 2, 0);
    put(t, 2, 8, NB, 2, 0, ZEROS, 0, 0, 3, 0);
    refused_is("a string that can't be read, then one too long", s, 4, BAD, 1);
    put(t, 1, 8, NA, 2, X, 1, 0, 0, 2, 0);
    refused_is("a late string too long", s, 12, 2, 0);
    put(t, 2, 8, NB, 2, BAD, 1, 0, 0, 3, 0);
    refused_is("a late string that can't be read", s, 4, BAD, 2);
    put(t, 2, 8, NA, 2, 0, ZEROS, 0, 0, 3, 0);
    refused_is("a name twice, before its string", s, 6, 2, 0);
    put(t, 2, 8, NB, 2, X, 1, 0, 0, 3, 0);
    convert_is("nothing wrong", s, 20, 0, 0, 20, "\x0A\0\0\x08\0\2na\0\1x\x08\0\2nb\0\1x\0");
    put(t, 0, 10, 0, 0, 0, 0, 1, 0, 4, 0);
    put(t, 1, 9, 0, 1, 0, 0, 2, 1, 4, 0);
    put(t, 2, 1, 0, 0, X, 1, 0, 0, 3, 1);
    put(t, 3, 8, 0, 0, 0, ZEROS, 0, 0, 4, 1);
    s.len = 4 * WORDS;
    refused_is("a mixed list, before the string", s, 11, 3, 0);
    free(doc);
}

/* The root and compounds in it, so many deep; the last is named by so many of the zero bytes. */
static void deep(uint32_t levels, uint32_t name, uint64_t number, uint64_t place)
{
    uint8_t *doc = zeros_and_more();
    uint32_t *t = lent_records(levels);
    struct source s = {POCKET, JAVA, doc, 70006, t, WORDS * (size_t)levels};
    for (uint32_t i = 0; i < levels; i++)
        put(t, i, 10, 0, i + 1 < levels ? 0 : name, 0, 0, i + 1 < levels, 0, levels, i ? i - 1 : 0);
    convert_is("compounds in each other", s, 70000, number, place, number ? 0 : 4 * (uint64_t)levels + 2 * name, NULL);
    s.to = POCKET;
    if (number != 12)
        convert_is("and in their own form", s, 70000, number, place, number ? 0 : 4 * (uint64_t)levels + name, NULL);
    free(t);
    free(doc);
}

static void depths(void)
{
    deep(512, 0, 0, 0);
    deep(512, 7, 0, 0);
    deep(513, 7, 7, 512);
    deep(10000, 0, 7, 512);
    deep(513, ZEROS, 12, 512);
    for (uint32_t levels = 512; levels < 514; levels++) {
        uint32_t *t = chain(levels);
        struct source s = {JAVA, POCKET, NULL, 0, t, WORDS * (size_t)levels};
        convert_is("lists in each other", s, 4000, levels > 512 ? 7 : 0, levels > 512 ? 512 : 0, levels > 512 ? 0 : 7 + 5 * 511, NULL);
        free(t);
    }
}

/* Nothing but the room limits what is written: 300 strings of the same 32,767 zero bytes are longer than a document may be. */
static void beyond(void)
{
    const uint32_t strings = 300, length = 11 + strings * 65536 + 1;
    uint32_t *t = lent_records(2 + strings);
    uint8_t *doc = lent(32767), *wanted = lent(length);
    struct source s = {POCKET, JAVA, doc, 32767, t, WORDS * (2 + (size_t)strings)};
    put(t, 0, 10, 0, 0, 0, 0, 1, 0, 2 + strings, 0);
    put(t, 1, 9, 0, 0, 0, 0, strings, 8, 2 + strings, 0);
    memcpy(wanted, "\x0A\0\0\x09\0\0\x08\0\0\1\x2C", 11);
    for (uint32_t i = 0; i < strings; i++) {
        put(t, 2 + i, 8, 0, 0, 0, 32767, 0, 0, 3 + i, 1);
        memcpy(wanted + 11 + 65536 * i, "\xFF\xFE", 2);
        for (uint32_t j = 0; j < 32767; j++)
            memcpy(wanted + 13 + 65536 * i + 2 * j, "\xC0\x80", 2);
    }
    convert_is("19,660,812 bytes", s, length, 0, 0, length, wanted);
    convert_is("a byte short", s, length - 1, 13, 0, 0, NULL);
    put(t, 1 + strings, 8, 0, 0, 1, 32766, 0, 0, 2 + strings, 1);
    convert_is("two bytes fewer", s, length - 2, 0, 0, length - 2, NULL);
    free(t);
    free(doc);
    free(wanted);
}

int main(void)
{
    longest();
    longest_bytes();
    first_of_a_record();
    first_of_the_records();
    depths();
    beyond();
    return report();
}
