/* Keeps tables as lines and reads them back, from C: each refusal and what it leaves, rooms one short, and the limits that are too large for the
 * other programs. See tests/ffi/run. */
#include "lines.h"

/* Writes into so many bytes; refused with the number unless that is 0. What is wrong of it. */
static int writing(size_t doc_len, const uint32_t *t, size_t words, size_t room, uint64_t number)
{
    size_t records = number ? 0 : words / TIKFAZRUL_WORDS, made = LINE * records, i;
    uint8_t *out = lent(room), *wanted = lines_of(t, records, 9);
    uint32_t *before = lent(4 * words);
    uint64_t a[8];
    int wrong = 0;
    memset(out, 0xAA, room);
    if (words)
        memcpy(before, t, 4 * words);
    memset(a, 0x55, sizeof a);
    tikfazrul_write_lines(doc_len, t, words, room ? out : NULL, room, a);
    if (!answers(a, number, 0, made, 0))
        wrong |= ANSWER;
    if (words && memcmp(before, t, 4 * words))
        wrong |= SOURCE;
    if (memcmp(out, wanted, made))
        wrong |= MADE;
    for (i = made; i < room && out[i] == 0xAA; i++)
        ;
    if (i < room)
        wrong |= OTHER;
    free(out);
    free(wanted);
    free(before);
    return wrong;
}

/* Reads into so many words: so many records where `number` is 0, whose words are given; else refused with it, at the place. What is wrong of
 * it: a refusal leaves nothing but zero words. */
static int reading(const void *lines, size_t n, size_t room, uint64_t number, uint64_t place, size_t records, const uint32_t *words)
{
    size_t made = TIKFAZRUL_WORDS * records;
    uint32_t *t = filled(room);
    uint8_t *before = lent(n);
    uint64_t a[8];
    int wrong = 0;
    if (n)
        memcpy(before, lines, n);
    memset(a, 0x55, sizeof a);
    tikfazrul_read_lines(lines, n, room ? t : NULL, room, a);
    if (!answers(a, number, place, records, 0))
        wrong |= ANSWER;
    if (n && memcmp(before, lines, n))
        wrong |= SOURCE;
    if (number ? !all(t, 0, room, 0) : made && memcmp(t, words, 4 * made))
        wrong |= MADE;
    if (!number && !all(t, made, room, 0xABABABAB))
        wrong |= OTHER;
    free(t);
    free(before);
    return wrong;
}

static void write_is(const char *what, size_t doc_len, const uint32_t *t, size_t words, size_t room, uint64_t number)
{
    judge(what, writing(doc_len, t, words, room, number));
}

static void read_is(const char *what, const void *lines, size_t n, size_t room, size_t records, const uint32_t *words)
{
    judge(what, reading(lines, n, room, 0, 0, records, words));
}

static void refused(const char *what, const void *lines, size_t n, size_t room, uint64_t number, uint64_t place)
{
    judge(what, reading(lines, n, room, number, place, 0, NULL));
}

/* By the library alone: a document's table, its lines, their words, and the lines of these. */
static void there_and_back(void)
{
    uint32_t t[18], back[18];
    uint8_t lines[146], again[146];
    uint64_t a[8];
    tikfazrul_read((const uint8_t *)DOC, sizeof DOC - 1, t, 18, a);
    expect("0A00016101000162FF00 is read", answers(a, 0, 0, 10, 2) && !memcmp(t, two, sizeof t));
    tikfazrul_write_lines(10, t, 18, lines, sizeof lines, a);
    expect("and written as two lines", answers(a, 0, 0, 146, 0) && sizeof TWO == 147 && !memcmp(lines, TWO, 146));
    tikfazrul_read_lines(lines, sizeof lines, back, 18, a);
    expect("which give the same words", answers(a, 0, 0, 2, 0) && !memcmp(back, t, sizeof t));
    tikfazrul_write_lines(10, back, 18, again, sizeof again, a);
    expect("which give the same lines", answers(a, 0, 0, 146, 0) && !memcmp(again, lines, sizeof again));
    memset(lines, 0, sizeof lines);
    tikfazrul_write_lines(10, two, 18, lines, sizeof lines, a);
    expect("and so they are of a table in memory that can't be written to", answers(a, 0, 0, 146, 0) && !memcmp(lines, TWO, 146));
}

/* Parents that are not 0, in the last word of a line (02, [7]). */
static void parents(void)
{
    static const char wanted[] = TREE_LINES(KEPT);
    const size_t n = TREE_RECORDS * LINE;
    uint8_t *lines = lines_of(tree, TREE_RECORDS, 9);
    uint32_t t[TREE_WORDS];
    uint64_t a[8];
    expect("the tree's lines", sizeof wanted == n + 1 && !memcmp(lines, wanted, n));
    tikfazrul_read((const uint8_t *)TREE, TREE_BYTES, t, TREE_WORDS, a);
    expect("the tree is read", answers(a, 0, 0, TREE_BYTES, TREE_RECORDS) && !memcmp(t, tree, sizeof t));
    write_is("and written as lines", TREE_BYTES, t, TREE_WORDS, n, 0);
    read_is("which are read back", wanted, n, TREE_WORDS, TREE_RECORDS, tree);
    refused("with a word of room too few, 8 at the last", wanted, n, TREE_WORDS - 1, 8, TREE_RECORDS);
    free(lines);
}

/* A wrong parent is 10 for the writer of lines, before 13; the reader of lines asks for no table, and takes it. */
static void wrong_parent(void)
{
    const size_t n = TREE_RECORDS * LINE;
    uint32_t t[TREE_WORDS];
    for (size_t i = 0; i < WRONG_PARENTS; i++) {
        tree_with(t, wrong_parents[i].record, wrong_parents[i].parent);
        uint8_t *lines = lines_of(t, TREE_RECORDS, 9);
        write_is(wrong_parents[i].what, TREE_BYTES, t, TREE_WORDS, n, 10);
        read_is("taken from lines", lines, n, TREE_WORDS, TREE_RECORDS, t);
        free(lines);
    }
    write_is("before 13", TREE_BYTES, t, TREE_WORDS, n - 1, 10);
    write_is("behind 9", LONGEST + 1, t, TREE_WORDS, n, 9);
}

static void written(void)
{
    int wrong = 0;
    write_is("two records", 10, two, 18, 2 * LINE, 0);
    write_is("with more room than is wanted", 10, two, 18, 2 * LINE + 70, 0);
    write_is("a byte short is 13", 10, two, 18, 2 * LINE - 1, 13);
    write_is("a line short is 13", 10, two, 18, LINE, 13);
    write_is("no room is 13", 10, two, 18, 0, 13);
    for (size_t room = 0; room <= 3 * LINE; room++)
        wrong |= writing(10, two, 18, room, room < 2 * LINE ? 13 : 0);
    judge("every room", wrong);
    write_is("9 comes before 10 and 13", LONGEST + 1, two, 17, 0, 9);
    write_is("9 comes before 13", LONGEST + 1, two, 18, 0, 9);
    write_is("9 comes before 10", LONGEST + 1, two, 17, 2 * LINE, 9);
    write_is("10 comes before 13", 10, two, 17, 0, 10);
    write_is("no words are 10", 10, NULL, 0, 2 * LINE, 10);
    write_is("no words and no room are 10", 0, NULL, 0, 0, 10);
    write_is("and 9 where the document is too long", LONGEST + 1, NULL, 0, 0, 9);
}

/* Words that form no table, by tikfazrul_is_table, and some by name. */
static void no_table(void)
{
    static const uint32_t values[] = {0, 1, 2, 3, 4, 6, 7, 8, 9, 10, 11, 12, 13, 0x80000000, 0xFFFFFFFF};
    const size_t n = sizeof values / sizeof *values;
    uint32_t t[27] = {0};
    uint64_t a[8], tables = 0;
    int wrong = 0;
    write_is("a document in which every span lies", 9, two, 18, 2 * LINE, 0);
    write_is("and one in which the last does not: 10", 8, two, 18, 2 * LINE, 10);
    write_is("the root without its entry is 10", 10, two, 9, 2 * LINE, 10);
    write_is("an entry without its root is 10", 10, two + 9, 9, 2 * LINE, 10);
    for (size_t i = 0; i < 18 * n; i++) {
        memcpy(t, two, sizeof two);
        t[i / n] = values[i % n];
        tikfazrul_is_table(10, t, 18, a);
        tables += a[2];
        wrong |= writing(10, t, 18, 2 * LINE, a[2] ? 0 : 10) | writing(10, t, 18, 2 * LINE - 1, a[2] ? 13 : 10);
    }
    judge("any word for another", wrong);
    expect("of which some form a table and some none", 0 < tables && tables < 18 * n);
    memcpy(t, two, sizeof two);
    wrong = 0;
    for (size_t words = 0; words <= 27; words++)
        wrong |= writing(10, t, words, 4 * LINE, words == 18 ? 0 : 10);
    judge("another number of words, also one that is no multiple of 9, is 10", wrong);
}

static void longest(void)
{
    static const char wanted[] = LONGEST_LINES(KEPT);
    const uint32_t *t = longest_words;
    uint8_t *lines = lines_of(t, 3, 9);
    expect("the lines of three records", sizeof wanted == 3 * LINE + 1 && !memcmp(lines, wanted, 3 * LINE));
    write_is("a document of 16,777,216 bytes", LONGEST, t, 27, 3 * LINE, 0);
    write_is("in one of a byte less a span ends too late: 10", LONGEST - 1, t, 27, 3 * LINE, 10);
    write_is("a document of 16,777,217 bytes is 9", LONGEST + 1, t, 27, 3 * LINE, 9);
    write_is("and of as many as there are is 9", SIZE_MAX, t, 27, 3 * LINE, 9);
    read_is("read back", wanted, 3 * LINE, 27, 3, t);
    free(lines);
}

/* Lines that are good: any words, and any room. */
static void read_back(void)
{
    static const uint32_t any[] = {0x01234567, 0x89ABCDEF, 0xFEDCBA98, 0x76543210, 0xFFFFFFFF, 0, 0x80000000, 0x7FFFFFFF, 0xFDB97531};
    read_is("two lines", TWO, 2 * LINE, 18, 2, two);
    read_is("with room for another", TWO, 2 * LINE, 27, 2, two);
    read_is("with room for no whole one more", TWO, 2 * LINE, 26, 2, two);
    refused("a word of room short is 8 at the second", TWO, 2 * LINE, 17, 8, 2);
    refused("room for one is 8 at the second", TWO, 2 * LINE, 9, 8, 2);
    refused("room for no whole one is 8 at the first", TWO, 2 * LINE, 8, 8, 1);
    refused("no room is 8 at the first", TWO, 2 * LINE, 0, 8, 1);
    read_is("no line, and words that stay", NULL, 0, 18, 0, NULL);
    read_is("no line and no room", NULL, 0, 0, 0, NULL);
    read_is("no line by a pointer that is not null", "", 0, 13, 0, NULL);
    read_is("words that form no table", BYTES("0123456789abcdeffedcba9876543210ffffffff00000000800000007ffffffffdb97531\n"), 9, 1, any);
    read_is("an entry without its root", ENTRY "\n", LINE, 9, 1, two + 9);
    read_is("the root twice", ROOT "\n" ROOT "\n", 2 * LINE, 18, 2, (uint32_t[]){10, 3, 1, 0, 0, 1, 0, 2, 0, 10, 3, 1, 0, 0, 1, 0, 2, 0});
}

/* Three lines cut anywhere, with any room: a line that is cut is bad before it lacks room. */
static void cut_anywhere(void)
{
    uint32_t t[27] = {0};
    uint8_t *lines;
    int wrong = 0;
    memcpy(t, two, sizeof two);
    t[18] = 0xABCDEF01;
    lines = lines_of(t, 3, 9);
    for (size_t n = 0; n <= 3 * LINE; n++) {
        for (size_t room = 0; room < 4 * TIKFAZRUL_WORDS + 2; room++) {
            size_t whole = n / LINE, records = room / TIKFAZRUL_WORDS;
            if (whole > records)
                wrong |= reading(lines, n, room, 8, records + 1, 0, NULL);
            else if (n % LINE)
                wrong |= reading(lines, n, room, 29, whole + 1, 0, NULL);
            else
                wrong |= reading(lines, n, room, 0, 0, whole, t);
        }
    }
    judge("three lines, cut anywhere, any room", wrong);
    free(lines);
}

/* Any byte in the place of any other of two lines, with room for both and for one. */
static void any_byte(void)
{
    uint8_t lines[146];
    uint32_t t[18];
    int both = 0, one = 0;
    for (size_t i = 0; i < 256 * sizeof lines; i++) {
        size_t place = i / 256, line = place / LINE, digit = place % LINE;
        const char *value = i % 256 ? strchr(DIGITS, i % 256) : NULL;
        memcpy(lines, TWO, sizeof lines);
        memcpy(t, two, sizeof t);
        lines[place] = i % 256;
        if (digit < LINE - 1 && value) {
            uint32_t *word = t + TIKFAZRUL_WORDS * line + digit / 8, shift = 28 - digit % 8 * 4;
            *word = (*word & ~(15u << shift)) | (uint32_t)(value - DIGITS) << shift;
        }
        if (digit < LINE - 1 ? value != NULL : i % 256 == '\n') {
            both |= reading(lines, sizeof lines, 18, 0, 0, 2, t);
            one |= reading(lines, sizeof lines, 9, 8, 2, 0, NULL);
        } else {
            both |= reading(lines, sizeof lines, 18, 29, line + 1, 0, NULL);
            one |= reading(lines, sizeof lines, 9, 29, line + 1, 0, NULL);
        }
    }
    judge("any byte for another: a digit for a digit, else 29", both);
    judge("and with room for one: 29 before 8 in the second", one);
}

/* A bad line alone, and among good ones. */
static void bad(const char *what, const char *line, size_t n)
{
    uint8_t text[400];
    refused(what, line, n, 18, 29, 1);
    refused("and without room", line, n, 0, 29, 1);
    memcpy(text, line, n);
    memcpy(text + n, TWO, 2 * LINE);
    refused("before good ones", text, n + 2 * LINE, 36, 29, 1);
    memcpy(text, TWO, 2 * LINE);
    memcpy(text + 2 * LINE, line, n);
    refused("behind good ones", text, 2 * LINE + n, 35, 29, 3);
    refused("and with room for these alone, 29 before 8", text, 2 * LINE + n, 18, 29, 3);
    refused("and with room for one, 8 of the earlier line first", text, 2 * LINE + n, 17, 8, 2);
    memmove(text, text + LINE, LINE + n);
    refused("and with none", text, LINE + n, 0, 8, 1);
}

static void bad_lines(void)
{
#define REST "00000003000000010000000000000000000000010000000000000002000000"
    _Static_assert(sizeof("0000000a" REST "00") == sizeof ROOT, "one thing is wrong with each line, not two");
    bad("an empty line", BYTES("\n"));
    bad("a digit alone", BYTES("0\n"));
    bad("a digit short", BYTES("0000000a" REST "0\n"));
    bad("a digit long", BYTES("0000000a" REST "000\n"));
    bad("eight words, the kind left out", BYTES(REST "00\n"));
    bad("eight words, as lines had them before parents", BYTES(OLD_ROOT "\n"));
    bad("a blank for a parent", BYTES(OLD_ROOT "        \n"));
    bad("ten words", BYTES("000000000000000a" REST "00\n"));
    bad("two records in one line", BYTES(ROOT ENTRY "\n"));
    bad("a capital", BYTES("0000000A" REST "00\n"));
    bad("a capital in the parent", BYTES(OLD_ROOT "0000000A\n"));
    bad("a letter that is no digit", BYTES("0000000g" REST "00\n"));
    bad("a blank before", BYTES(" " ROOT "\n"));
    bad("a blank behind", BYTES(ROOT " \n"));
    bad("a blank between words", BYTES("0000000a " REST "00\n"));
    bad("a blank for a digit", BYTES("       a" REST "00\n"));
    bad("a tab behind", BYTES(ROOT "\t\n"));
    bad("a carriage return behind", BYTES(ROOT "\r\n"));
    bad("a carriage return for a digit", BYTES("0000000a" REST "0\r\n"));
    bad("a carriage return for the line feed", BYTES(ROOT "\r"));
    bad("a zero byte for the line feed", BYTES(ROOT "\0"));
    bad("a zero byte for a digit", BYTES("0000000\0" REST "00\n"));
    bad("a sign", BYTES("+000000a" REST "00\n"));
    bad("0x", BYTES("0x00000a" REST "00\n"));
    bad("a byte order mark before", BYTES("\xEF\xBB\xBF" ROOT "\n"));
    bad("an unended line", BYTES(ROOT));
    bad("an unended line that is short", BYTES("0"));
#undef REST
}

/* Lines of eight words, as tables were kept before records had a parent (02, [7]): none is taken, also where they have as many bytes as new ones. */
static void old_lines(void)
{
    const size_t old = OLD_LINE;
    uint8_t *lines = lent(LINE * old);
    for (size_t i = 0; i < LINE; i++)
        memcpy(lines + i * old, i ? OLD_ENTRY "\n" : OLD_ROOT "\n", old);
    refused("two of them", lines, 2 * old, 18, 29, 1);
    refused("with as many words as they have", lines, 2 * old, 16, 29, 1);
    refused("73 of them, with bytes for 65 others", lines, LINE * old, LINE * TIKFAZRUL_WORDS, 29, 1);
    free(lines);
}

/* Words up to the limit and beyond. */
static void most_written(uint32_t *t)
{
    const size_t words = 9437184;
    write_is("1,048,576 records", LONGEST, t, words, LINE * MOST, 0);
    write_is("a byte short is 13", LONGEST, t, words, LINE * MOST - 1, 13);
    write_is("9,437,183 words are 10", LONGEST, t, words - 1, LINE * MOST, 10);
    write_is("9,437,185 words are 9 before 10", LONGEST, t, words + 1, LINE * MOST, 9);
    write_is("and without room", LONGEST, t, words + 1, 0, 9);
    write_is("9,437,184 words that form no table are 10", LONGEST, t + 9, words, LINE * MOST, 10);
    put(t, 0, 10, 0, 0, 0, 0, MOST, 0, MOST + 1, 0);
    write_is("1,048,577 records, a table but for their number, are 9", LONGEST, t, words + 9, LINE * (MOST + 1), 9);
    put(t, 0, 10, 0, 0, 0, 0, MOST - 1, 0, MOST, 0);
}

static void far_parents(uint32_t *t)
{
    const size_t words = TIKFAZRUL_WORDS * MOST, n = LINE * MOST;
    uint8_t *lines;
    nest_last(t);
    write_is("the last three in each other", LONGEST, t, words, n, 0);
    lines = lines_of(t, MOST, 9);
    expect("whose parents have five digits", !memcmp(lines + n - LINE - 9, "000ffffd\n", 9) && !memcmp(lines + n - 9, "000ffffe\n", 9));
    read_is("read back", lines, n, words, MOST, t);
    free(lines);
    t[words - 1] = MOST - 3;
    write_is("the grandparent of the last is 10", LONGEST, t, words, n, 10);
    t[words - 1] = MOST - 1;
    write_is("the last itself is 10", LONGEST, t, words, n, 10);
}

/* Lines up to the limit and beyond. */
static void most_read(const uint32_t *t)
{
    const size_t words = TIKFAZRUL_WORDS * MOST, n = LINE * MOST;
    uint8_t *lines = lines_of(t, MOST + 1, 9);
    read_is("1,048,576 lines", lines, n, words, MOST, t);
    read_is("with room for more", lines, n, words + 11, MOST, t);
    refused("a word of room short is 8 at the last", lines, n, words - 1, 8, MOST);
    refused("the last unended is 29 at its number", lines, n - 1, words, 29, MOST);
    refused("and where one digit of it came", lines, n - LINE + 1, words, 29, MOST);
    refused("1,048,577 lines are 9", lines, n + LINE, words + 9, 9, 0);
    refused("9 comes before 8", lines, n + LINE, 0, 9, 0);
    refused("the last of 1,048,577 unended", lines, n + LINE - 1, words + 9, 9, 0);
    refused("one digit of it", lines, n + 1, words + 9, 9, 0);
    lines[n] = '\n';
    refused("one empty line more", lines, n + 1, words + 9, 9, 0);
    lines[n - 2] = 'A';
    refused("the last of 1,048,576 is bad", lines, n, words, 29, MOST);
    refused("and has no room: 29 before 8", lines, n, words - 9, 29, MOST);
    refused("the last but one has none: 8 first", lines, n, words - 10, 8, MOST - 1);
    lines[0] = 'A';
    refused("the first is bad", lines, n, words, 29, 1);
    refused("and one line too many: 9 before 29", lines, n + 1, words, 9, 0);
    free(lines);
}

/* Lines that are too short and too long, where only their number is bounded. */
static void no_lines(void)
{
    const size_t n = 100000000;
    uint8_t *bytes = lent(n);
    memset(bytes, '\n', MOST + 1);
    refused("1,048,576 empty lines are 29 at 1", bytes, MOST, 18, 29, 1);
    refused("1,048,577 are 9 before 29", bytes, MOST + 1, 18, 9, 0);
    bytes[MOST] = '0';
    refused("and so they are with the last unended", bytes, MOST + 1, 18, 9, 0);
    memset(bytes, '0', n);
    refused("a line of 100,000,000 digits that does not end", bytes, n, TIKFAZRUL_WORDS * MOST, 29, 1);
    bytes[n - 1] = '\n';
    refused("and one that ends", bytes, n, 18, 29, 1);
    bytes[n - 1] = '0';
    bytes[LINE - 1] = '\n';
    refused("behind a good one", bytes, n, 18, 29, 2);
    refused("for which there is no room", bytes, n, 8, 8, 1);
    memset(bytes + n - MOST, '\n', MOST - 1);
    refused("1,048,576 lines that end, and one that does not", bytes, n, 18, 9, 0);
    refused("the same without it", bytes, n - 1, 18, 29, 2);
    free(bytes);
}

int main(void)
{
    uint32_t *t = leaves();
    expect("the bytes of a line, by name", TIKFAZRUL_LINE == LINE);
    there_and_back();
    parents();
    wrong_parent();
    written();
    no_table();
    longest();
    read_back();
    cut_anywhere();
    any_byte();
    bad_lines();
    old_lines();
    most_written(t);
    most_read(t);
    far_parents(t);
    no_lines();
    free(t);
    return report();
}
