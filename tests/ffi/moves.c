/* Moves kept lines from eight words a record to nine and back (02, [8]), from C: each refusal and what it leaves, lines of both widths, bad lines,
 * rooms one short, and the limits that are too large for the other programs. See tests/ffi/run. */
#include "moves.h"

/* Lines that are counted out by hand, in memory that can't be written to. */
static void by_hand(void)
{
    static const char old_tree[] = TREE_LINES(DROPPED), new_tree[] = TREE_LINES(KEPT);
    static const char old_longest[] = LONGEST_LINES(DROPPED), new_longest[] = LONGEST_LINES(KEPT);
#define ALONE "0000000a00000003000000000000000000000000000000000000000000000001"
    _Static_assert(sizeof ALONE == 65 && sizeof OLD_TWO == 131 && sizeof TWO == 147, "whole lines");
    moved("the records of 0A000000, up", UP, 4, LINES(ALONE "\n"), LINES(ALONE "00000000\n"));
    moved("and down", DOWN, 4, LINES(ALONE "00000000\n"), LINES(ALONE "\n"));
    moved("the records of 0A00016101000162FF00, up", UP, 10, LINES(OLD_TWO), LINES(TWO));
    moved("and down", DOWN, 10, LINES(TWO), LINES(OLD_TWO));
    moved("the tree's, up", UP, TREE_BYTES, LINES(old_tree), LINES(new_tree));
    moved("and down", DOWN, TREE_BYTES, LINES(new_tree), LINES(old_tree));
    moved("every digit, over the longest document, up", UP, LONGEST, LINES(old_longest), LINES(new_longest));
    moved("and down", DOWN, LONGEST, LINES(new_longest), LINES(old_longest));
#undef ALONE
}

/* Any number of bytes to write to. */
static void rooms(void)
{
    EACH_WAY(way) {
        struct lines from = kept(tree, TREE_RECORDS, way->from), made = kept(tree, TREE_RECORDS, way->to);
        int wrong = 0;
        refused("a byte short is 13", way, TREE_BYTES, from, made.n - 1, 13, 0);
        refused("a line short is 13", way, TREE_BYTES, from, made.n - line_of(way->to), 13, 0);
        refused("no room is 13", way, TREE_BYTES, from, 0, 13, 0);
        judge_way(way, "a byte more stays", moving(way, TREE_BYTES, from, made.n + 1, 0, 0, made));
        for (size_t room = 0; room < made.n + 2 * LINE; room++)
            wrong |= room < made.n ? refusing(way, TREE_BYTES, from, room, 13, 0) : moving(way, TREE_BYTES, from, room, 0, 0, made);
        judge_way(way, "any room", wrong);
        drop(from);
        drop(made);
    }
}

/* 9, 29, 10, 13: every choice of what is wrong. */
static void order(void)
{
    static const uint64_t numbers[] = {9, 29, 10, 13};
    EACH_WAY(way) {
        const size_t made = TREE_RECORDS * line_of(way->to);
        for (unsigned faults = 1; faults < 16; faults++) {
            uint8_t *lines = lines_of(tree, TREE_RECORDS, way->from);
            size_t doc_len = faults & 1 ? LONGEST + 1 : TREE_BYTES, room = faults & 8 ? made - 1 : made;
            int first = 0;
            while (!(faults >> first & 1))
                first++;
            if (faults & 2)
                lines[10 * line_of(way->from)] = 'A';
            if (faults & 4)
                lines[7] = '9'; /* the root a list */
            struct lines from = {lines, TREE_RECORDS * line_of(way->from)};
            refused("the first of what is wrong", way, doc_len, from, room, numbers[first], first == 1 ? TREE_RECORDS : 0);
            free(lines);
        }
    }
}

/* A document of 16,777,216 bytes and more, and no document. */
static void lengths(void)
{
    EACH_WAY(way) {
        struct lines from = kept(longest_words, 3, way->from), made = kept(longest_words, 3, way->to);
        moved("16,777,216 bytes", way, LONGEST, from, made);
        refused("in one of a byte less a span ends too late: 10", way, LONGEST - 1, from, made.n, 10, 0);
        refused("no bytes at all: 10", way, 0, from, made.n, 10, 0);
        refused("16,777,217 bytes are 9", way, LONGEST + 1, from, made.n, 9, 0);
        refused("as many as there are: 9", way, SIZE_MAX, from, made.n, 9, 0);
        drop(from);
        drop(made);
    }
}

/* No line is no table. */
static void no_line(void)
{
    EACH_WAY(way) {
        refused("no line is 10", way, 10, none, 200, 10, 0);
        refused("by a pointer that is not null", way, 10, LINES(""), 200, 10, 0);
        refused("10 comes before 13", way, 10, none, 0, 10, 0);
        refused("over no bytes", way, 0, none, 200, 10, 0);
        refused("over 16,777,216", way, LONGEST, none, 200, 10, 0);
        refused("over one more it is 9", way, LONGEST + 1, none, 200, 9, 0);
        refused("a line feed alone is 29", way, 10, LINES("\n"), 200, 29, 1);
        refused("a zero byte alone is 29", way, 10, LINES("\0"), 200, 29, 1);
    }
}

/* Every choice of lines of the tree that have the other width: the first of them is refused, whatever the room. */
static void both_widths(void)
{
    EACH_WAY(way) {
        struct lines good = kept(tree, TREE_RECORDS, way->from), other = kept(tree, TREE_RECORDS, way->to);
        uint8_t *text = lent(TREE_RECORDS * LINE);
        const size_t from = line_of(way->from), to = line_of(way->to);
        int wrong[TREE_RECORDS + 1] = {0};
        for (unsigned mix = 1; mix < 1u << TREE_RECORDS; mix++) {
            size_t n = 0, first = 0;
            for (size_t i = 0; i < TREE_RECORDS; i++) {
                int swapped = mix >> i & 1;
                memcpy(text + n, swapped ? other.bytes + i * to : good.bytes + i * from, swapped ? to : from);
                n += swapped ? to : from;
                if (swapped && !first)
                    first = i + 1;
            }
            wrong[first] |= refusing(way, TREE_BYTES, (struct lines){text, n}, other.n, 29, first);
            wrong[first] |= refusing(way, TREE_BYTES, (struct lines){text, n}, 0, 29, first);
        }
        for (size_t first = 1; first <= TREE_RECORDS; first++)
            judge_way(way, "both widths in one file", wrong[first]);
        refused("all of the other width", way, TREE_BYTES, other, other.n, 29, 1);
        drop(good);
        drop(other);
        free(text);
    }
}

/* Lines wholly of the other width, which have as many bytes as lines of the right one: 73 times 65. */
static void other_width(void)
{
    EACH_WAY(way) {
        const size_t records = line_of(way->from);
        uint32_t *t = lent_records(records);
        put(t, 0, 10, 0, 0, 0, 0, records - 1, 0, records, 0);
        for (size_t i = 1; i < records; i++)
            put(t, i, 1, 0, 1, 2, 1, 0, 0, i + 1, 0);
        struct lines other = kept(t, records, way->to);
        expect("as many bytes as lines of the right width", other.n % line_of(way->from) == 0);
        refused("wholly of the other width", way, 3, other, 2 * other.n, 29, 1);
        drop(other);
        free(t);
    }
}

/* Bytes between two places of a line, which count from its first byte, or from behind its line feed if below 0, and what stands there instead; how
 * many lines later it is bad. */
static const struct edit {
    const char *what;
    int from, to;
    const char *bytes;
    size_t n, later;
} edits[] = {
    {"an empty line", 0, -2, BYTES(""), 0},
    {"an empty line behind", -1, -1, BYTES("\n"), 1},
    {"a digit alone", 1, -2, BYTES(""), 0},
    {"a digit short", 7, 8, BYTES(""), 0},
    {"a digit long", 0, 0, BYTES("0"), 0},
    {"a digit long at the end", -2, -2, BYTES("0"), 0},
    {"a word short", -10, -2, BYTES(""), 0},
    {"the kind left out", 0, 8, BYTES(""), 0},
    {"a word long", 0, 0, BYTES("00000000"), 0},
    {"two words long", -2, -2, BYTES("0000000000000000"), 0},
    {"a capital", 7, 8, BYTES("A"), 0},
    {"a capital at the end", -3, -2, BYTES("F"), 0},
    {"a letter that is no digit", 7, 8, BYTES("g"), 0},
    {"a blank before", 0, 0, BYTES(" "), 0},
    {"a blank behind", -2, -2, BYTES(" "), 0},
    {"a blank between words", 8, 8, BYTES(" "), 0},
    {"a blank for a digit", 0, 1, BYTES(" "), 0},
    {"blanks for the last word", -10, -2, BYTES("        "), 0},
    {"a tab behind", -2, -2, BYTES("\t"), 0},
    {"a carriage return behind", -2, -2, BYTES("\r"), 0},
    {"a carriage return for a digit", -3, -2, BYTES("\r"), 0},
    {"a carriage return for the line feed", -2, -1, BYTES("\r"), 0},
    {"a zero byte for the line feed", -2, -1, BYTES("\0"), 0},
    {"a zero byte for a digit", 0, 1, BYTES("\0"), 0},
    {"a line feed for a digit", 3, 4, BYTES("\n"), 0},
    {"a sign", 0, 1, BYTES("+"), 0},
    {"0x", 0, 2, BYTES("0x"), 0},
    {"a byte order mark before", 0, 0, BYTES("\xEF\xBB\xBF"), 0},
    {"no line feed", -2, -1, BYTES(""), 0},
    {"no line feed, and a digit short", -3, -1, BYTES(""), 0},
};

/* The tree's lines with line i edited. */
static struct lines edited(struct lines good, size_t line, size_t i, const struct edit *edit)
{
    uint8_t *text = lent(good.n + edit->n);
    size_t from = line * i + (edit->from < 0 ? line + 1 : 0) + edit->from, to = line * i + (edit->to < 0 ? line + 1 : 0) + edit->to;
    memcpy(text, good.bytes, from);
    memcpy(text + from, edit->bytes, edit->n);
    memcpy(text + from + edit->n, good.bytes + to, good.n - to);
    return (struct lines){text, good.n - (to - from) + edit->n};
}

/* Each of these in each line, with room and without. */
static void bad_lines(void)
{
    EACH_WAY(way) {
        struct lines good = kept(tree, TREE_RECORDS, way->from);
        for (size_t e = 0; e < sizeof edits / sizeof *edits; e++) {
            int wrong = 0;
            for (size_t i = 0; i < TREE_RECORDS; i++) {
                struct lines bad = edited(good, line_of(way->from), i, &edits[e]);
                wrong |= refusing(way, TREE_BYTES, bad, 2 * good.n, 29, i + 1 + edits[e].later);
                wrong |= refusing(way, TREE_BYTES, bad, 0, 29, i + 1 + edits[e].later);
                drop(bad);
            }
            judge_way(way, edits[e].what, wrong);
        }
        drop(good);
    }
}

/* The tree's lines cut anywhere: whole lines that are too few are 10, and the others 29. */
static void cut_anywhere(void)
{
    EACH_WAY(way) {
        struct lines good = kept(tree, TREE_RECORDS, way->from);
        const size_t line = line_of(way->from), room = TREE_RECORDS * line_of(way->to);
        int wrong = 0;
        for (size_t n = 0; n < good.n; n++) {
            struct lines cut = {good.bytes, n};
            uint64_t number = n % line ? 29 : 10, place = n % line ? n / line + 1 : 0;
            wrong |= refusing(way, TREE_BYTES, cut, room, number, place) | refusing(way, TREE_BYTES, cut, 0, number, place);
        }
        judge_way(way, "cut anywhere", wrong);
        drop(good);
    }
}

/* Any byte in the place of any other of two lines. */
static void any_byte(void)
{
    EACH_WAY(way) {
        const size_t line = line_of(way->from);
        int digits = 0, others = 0, table;
        for (size_t i = 0; i < 256 * 2 * line; i++) {
            size_t place = i / 256, record = place / line, digit = place % line;
            const char *value = i % 256 ? strchr(DIGITS, i % 256) : NULL;
            struct lines from = kept(two, 2, way->from);
            uint32_t t[18], *changed = t + TIKFAZRUL_WORDS * record + digit / 8, shift = 28 - digit % 8 * 4;
            ((uint8_t *)from.bytes)[place] = i % 256;
            memcpy(t, two, sizeof t);
            if (digit < line - 1 && value) {
                *changed = (*changed & ~(15u << shift)) | (uint32_t)(value - DIGITS) << shift;
                digits |= by_rule(way, 10, t, 2, &table);
            } else if (digit < line - 1 || i % 256 != '\n') {
                others |= refusing(way, 10, from, 2 * LINE, 29, record + 1);
            }
            drop(from);
        }
        judge_way(way, "any digit for another", digits);
        judge_way(way, "any other byte for another is 29", others);
    }
}

/* Lines up to the limit. */
static void most(const struct way *way, const uint32_t *t)
{
    struct lines from = kept(t, MOST, way->from), made = kept(t, MOST, way->to);
    uint8_t *bytes = (uint8_t *)from.bytes;
    const size_t line = line_of(way->from);
    moved("1,048,576 lines", way, LONGEST, from, made);
    refused("a byte short is 13", way, LONGEST, from, made.n - 1, 13, 0);
    refused("a byte less of document is 10", way, LONGEST - 1, from, made.n, 10, 0);
    refused("a byte too many of it is 9", way, LONGEST + 1, from, made.n, 9, 0);
    refused("a line fewer is 10", way, LONGEST, (struct lines){bytes, from.n - line}, made.n, 10, 0);
    refused("the last unended is 29 at its number", way, LONGEST, (struct lines){bytes, from.n - 1}, made.n, 29, MOST);
    refused("and where one digit of it came", way, LONGEST, (struct lines){bytes, from.n - line + 1}, made.n, 29, MOST);
    bytes[from.n - 2] = 'A';
    refused("the last is bad", way, LONGEST, from, made.n, 29, MOST);
    bytes[0] = 'A';
    refused("and the first", way, LONGEST, from, made.n, 29, 1);
    drop(from);
    drop(made);
}

/* Lines beyond the limit: a table but for their number, and bad ones. */
static void beyond(const struct way *way, const uint32_t *t)
{
    struct lines from = kept(t, MOST + 1, way->from);
    uint8_t *bytes = (uint8_t *)from.bytes;
    const size_t line = line_of(way->from), room = (MOST + 1) * line_of(way->to);
    refused("1,048,577 lines are 9", way, LONGEST, from, room, 9, 0);
    refused("9 comes before 13", way, LONGEST, from, 0, 9, 0);
    refused("the last of them unended", way, LONGEST, (struct lines){bytes, from.n - 1}, room, 9, 0);
    refused("one digit of it", way, LONGEST, (struct lines){bytes, from.n - line + 1}, room, 9, 0);
    refused("without it they are no table: 10", way, LONGEST, (struct lines){bytes, from.n - line}, room, 10, 0);
    bytes[from.n - line] = '\n';
    refused("one empty line more", way, LONGEST, (struct lines){bytes, from.n - line + 1}, room, 9, 0);
    bytes[0] = 'A';
    refused("9 comes before 29", way, LONGEST, from, room, 9, 0);
    drop(from);
}

/* Lines that are too short and too long, where only their number is bounded. */
static void shortest_and_longest(const struct way *way)
{
    const size_t n = 10000000;
    uint8_t *bytes = lent(n);
    memset(bytes, '\n', MOST + 1);
    refused("1,048,576 empty lines are 29 at 1", way, 10, (struct lines){bytes, MOST}, 200, 29, 1);
    refused("1,048,577 are 9", way, 10, (struct lines){bytes, MOST + 1}, 200, 9, 0);
    bytes[MOST] = '0';
    refused("and so they are with the last unended", way, 10, (struct lines){bytes, MOST + 1}, 200, 9, 0);
    memset(bytes, '0', n);
    refused("a line of 10,000,000 digits that does not end", way, 10, (struct lines){bytes, n}, 200, 29, 1);
    bytes[n - 1] = '\n';
    refused("and one that ends", way, 10, (struct lines){bytes, n}, 200, 29, 1);
    bytes[line_of(way->from) - 1] = '\n';
    refused("behind a good one", way, 10, (struct lines){bytes, n}, 200, 29, 2);
    free(bytes);
}

static void limits(void)
{
    uint32_t *t = leaves();
    EACH_WAY(way) {
        most(way, t);
        shortest_and_longest(way);
    }
    put(t, 0, 10, 0, 0, 0, 0, MOST, 0, MOST + 1, 0);
    EACH_WAY(way)
        beyond(way, t);
    nest_last(t);
    judge("1,048,576 lines whose last three stand in each other, both ways and back", both_ways(t, MOST, LONGEST));
    free(t);
}

int main(void)
{
    expect("the words and the bytes of an old line, by name", TIKFAZRUL_OLD_WORDS == 8 && TIKFAZRUL_OLD_LINE == OLD_LINE);
    by_hand();
    rooms();
    order();
    lengths();
    no_line();
    both_widths();
    other_width();
    bad_lines();
    cut_anywhere();
    any_byte();
    limits();
    return report();
}
