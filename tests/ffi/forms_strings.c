/* Strings in both forms, from C (02, [2]): what each rule takes, and every string that it does not in each place where a document or a table has
 * one. See tests/ffi/run. */
#include "characters.h"
#include "forms.h"

/* Where a string is taken by a rule. */
#define TAKEN SIZE_MAX

/* Strings, with the offset of the first sequence that can't be read in each form. */
static const struct {
    const char *bytes;
    size_t n, java, pocket;
} strings[] = {
    {"", 0, TAKEN, TAKEN},
    {"OriginLon", 9, TAKEN, TAKEN},
    {"\x7F\xC2\x80\xDF\xBF\xE0\xA0\x80\xEF\xBF\xBF", 11, TAKEN, TAKEN},
    {"\xED\x9F\xBF\xEE\x80\x80", 6, TAKEN, TAKEN},
    {"\0", 1, 0, TAKEN},
    {"ab\0c", 4, 2, TAKEN},
    {"\xC0\x80", 2, TAKEN, 0},
    {"ab\xC0\x80" "c", 5, TAKEN, 2},
    {"\0\xC0\x80", 3, 0, 1},
    {"\xC0\x80\0", 3, 2, 0},
    {"a\xF0\x9F\x98\x80", 5, 1, TAKEN},
    {"a\xED\xA0\xBD\xED\xB8\x80", 7, TAKEN, 1},
    {"\xF0\x90\x80\x80\xF4\x8F\xBF\xBF", 8, 0, TAKEN},
    {"\xF4\x90\x80\x80", 4, 0, 0},
    {"\xED\xA0\xBD", 3, 0, 0},
    {"abcdefgh\0ijklmnop\xC0\x80qrstuvwxyz", 29, 8, 17},
    {"abcdefghijklmnopqrstuvwx\xC0\x80yz\0", 29, 28, 24},
};

static void rules(void)
{
    for (size_t i = 0; i < sizeof strings / sizeof *strings; i++)
        for (uint32_t form = 0; form < 8; form++) {
            size_t at = form == TIKFAZRUL_POCKET ? strings[i].pocket : strings[i].java;
            string_is("a string of a form", form, strings[i].bytes, strings[i].n, at == TAKEN ? 0 : 4, at == TAKEN ? 0 : at);
        }
    for (size_t i = 0; i < STRINGS; i++) {
        struct broken b = broken_string(i);
        string_is(b.what, TIKFAZRUL_JAVA, b.bytes, b.n, 4, b.offset);
    }
    for (size_t i = 0; i < UTF8_STRINGS; i++) {
        struct broken b = broken_utf8(i);
        string_is(b.what, TIKFAZRUL_POCKET, b.bytes, b.n, 4, b.offset);
    }
}

/* Every two bytes: the pocket form's check is that of UTF-8 but for the number, Java's that of modified UTF-8. */
static void two_bytes(void)
{
    int pocket = 1, java = 1;
    for (uint32_t i = 0; i < 0x10000; i++) {
        uint8_t bytes[] = {i >> 8, i & 255};
        uint64_t a[8], b[8];
        tikfazrul_check_string(TIKFAZRUL_POCKET, bytes, 2, a);
        tikfazrul_check_utf8(bytes, 2, b);
        pocket &= answers(a, b[0] ? 4 : 0, b[1], 0, 0) && (b[0] == 0 || b[0] == 15);
        tikfazrul_check_string(TIKFAZRUL_JAVA, bytes, 2, a);
        tikfazrul_check_mutf8(bytes, 2, b);
        java &= answers(a, b[0], b[1], 0, 0);
    }
    expect("two bytes in the pocket form", pocket);
    expect("two bytes in Java's form", java);
}

/* A document in the pocket form as far as a string's length, which is added to it with the string. Its content begins at `start`. */
static const struct {
    const char *what, *bytes;
    size_t n, start;
} befores[] = {
    {"the root's name", "\x0A", 1, 3},
    {"a name, of an id that there is not, too", "\x0A\0\0\xFF", 4, 6},
    {"a name in the root", "\x0A\1\0t\1\1\0b\7\x0A", 10, 12},
    {"a string in the root", "\x0A\0\0\x08\1\0s", 7, 9},
    {"the first element of a list", "\x0A\0\0\x09\1\0l\x08\2\0\0\0", 12, 14},
    {"the second element of a list", "\x0A\0\0\x09\1\0l\x08\2\0\0\0\1\0a", 15, 17},
    {"a name in a list's compound", "\x0A\0\0\x09\1\0l\x0A\1\0\0\0\x08", 13, 15},
    {"a string in a list's compound", "\x0A\0\0\x09\1\0l\x0A\1\0\0\0\x08\1\0s", 16, 18},
};
enum { BEFORES = sizeof befores / sizeof *befores };

static void in_documents(void)
{
    char what[256];
    for (size_t i = 0; i < BEFORES * UTF8_STRINGS; i++) {
        struct broken b = broken_utf8(i % UTF8_STRINGS);
        size_t n = befores[i / UTF8_STRINGS].n, start = befores[i / UTF8_STRINGS].start;
        uint8_t doc[128];
        memcpy(doc, befores[i / UTF8_STRINGS].bytes, n);
        memcpy(doc + n, (uint8_t[]){b.n & 255, b.n >> 8}, 2);
        memcpy(doc + start, b.bytes, b.n);
        /* bytes that would go on with the sequence, if they were the string's, are not looked at */
        memset(doc + start + b.n, 0x80, 2);
        snprintf(what, sizeof what, "%s: %s", befores[i / UTF8_STRINGS].what, b.what);
        read_is(what, TIKFAZRUL_POCKET, doc, start + b.n, 90, 4, start + b.offset, 0, 0, NULL);
        read_is(what, TIKFAZRUL_POCKET, doc, start + b.n + 2, 90, 4, start + b.offset, 0, 0, NULL);
        read_is(what, TIKFAZRUL_POCKET, doc, start + b.n - 1, 90, 1, start, 0, 0, NULL);
        rescue_is(what, TIKFAZRUL_POCKET, doc, start + b.n, 90, 99, 30, 4, start + b.offset, 0, 0, NULL, NULL);
    }
}

/* The document is "nop", the string and bytes that would go on with it; the table is the root, n, o and p, the last a list of two strings. */
static void in_tables(void)
{
    static const struct {
        uint32_t record, span;
    } in[] = {{0, TIKFAZRUL_NAME}, {1, TIKFAZRUL_NAME}, {1, TIKFAZRUL_START}, {3, TIKFAZRUL_NAME}, {5, TIKFAZRUL_START}};
    for (size_t i = 0; i < 5 * UTF8_STRINGS; i++) {
        const uint32_t record = in[i / UTF8_STRINGS].record, span = in[i / UTF8_STRINGS].span;
        struct broken b = broken_utf8(i % UTF8_STRINGS);
        uint8_t doc[128];
        uint32_t t[6 * TIKFAZRUL_WORDS];
        nop(&b, doc, t);
        write_is("without such a string the table is written", TIKFAZRUL_POCKET, doc, b.n + 5, t, 54, 99, 0, 0, 35,
                 (const uint8_t *)"\x0A\0\0\x08\1\0n\2\0op\1\1\0on\x09\1\0p\x08\2\0\0\0\2\0no\3\0nop\0");
        t[TIKFAZRUL_WORDS * record + span] = 3;
        t[TIKFAZRUL_WORDS * record + span + 1] = b.n;
        write_is(b.what, TIKFAZRUL_POCKET, doc, b.n + 5, t, 54, 99, 4, 3 + b.offset, record, NULL);
    }
}

/* Names and strings of 65,535 bytes and of one more, whose lengths have the low byte first. */
static void longest(void)
{
    uint8_t *d = lent(3 + 65535 + 1), *bytes = lent(65536);
    uint32_t t[9], root[] = {10, 3, 65535, 0, 0, 0, 0, 1, 0};
    memcpy(d, "\x0A\xFF\xFF", 3);
    read_is("a root's name of 65,535 zero bytes", TIKFAZRUL_POCKET, d, 3 + 65535 + 1, 9, 0, 0, 3 + 65535 + 1, 1, root);
    read_is("which Java's form refuses at the first", TIKFAZRUL_JAVA, d, 3 + 65535 + 1, 9, 4, 3, 0, 0, NULL);
    put(t, 0, 10, 0, 65535, 0, 0, 0, 0, 1, 0);
    write_is("it is written", TIKFAZRUL_POCKET, bytes, 65536, t, 9, 70000, 0, 0, 65539, d);
    put(t, 0, 10, 0, 65536, 0, 0, 0, 0, 1, 0);
    write_is("and one more is 12, before 4", TIKFAZRUL_POCKET, bytes, 65536, t, 9, 70000, 12, 0, 0, NULL);
    put(t, 0, 10, 0, 258, 0, 0, 0, 0, 1, 0);
    memcpy(d, "\x0A\2\1", 3);
    write_is("258 bytes", TIKFAZRUL_POCKET, bytes, 65536, t, 9, 70000, 0, 0, 262, d);
    free(d);
    free(bytes);
}

int main(void)
{
    rules();
    two_bytes();
    in_documents();
    in_tables();
    longest();
    return report();
}
