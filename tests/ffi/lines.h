/* What the programs on lines share: limits, some tables with their lines in either width, and what may be wrong with a call. See tests/ffi/run. */
#ifndef LINES_H
#define LINES_H

#include "tree.h"

/* The bytes of a line, and of one before records had a parent (02, [8]); the lines that there may be, and the bytes of a document. */
static const size_t LINE = 73, OLD_LINE = 65, MOST = 1048576, LONGEST = 16777216;

/* A literal without the zero byte behind it. */
#define BYTES(s) (s), sizeof(s) - 1

/* The records of a marked document of 01, and their lines. */
#define DOC "\x0A\0\1a\1\0\1b\xFF\0"
static const uint32_t two[] = {10, 3, 1, 0, 0, 1, 0, 2, 0, 1, 7, 1, 8, 1, 0, 0, 2, 0};
#define OLD_ROOT "0000000a00000003000000010000000000000000000000010000000000000002"
#define OLD_ENTRY "0000000100000007000000010000000800000001000000000000000000000002"
#define ROOT OLD_ROOT "00000000"
#define ENTRY OLD_ENTRY "00000000"
#define OLD_TWO OLD_ROOT "\n" OLD_ENTRY "\n"
#define TWO ROOT "\n" ENTRY "\n"

/* What becomes of the parents in the lines below. */
#define KEPT(parent) parent
#define DROPPED(parent)

/* The tree's lines. */
#define TREE_LINES(P) \
    "0000000a0000000300000000000000000000000000000002000000000000000b" P("00000000") "\n" \
    "0000000a0000000600000001000000000000000000000002000000000000000a" P("00000000") "\n" \
    "000000090000000a000000010000000000000000000000020000000900000009" P("00000001") "\n" \
    "0000000900000000000000000000000000000000000000020000000100000006" P("00000002") "\n" \
    "0000000100000000000000000000001500000001000000000000000000000005" P("00000003") "\n" \
    "0000000100000000000000000000001600000001000000000000000000000006" P("00000003") "\n" \
    "0000000900000000000000000000000000000000000000010000000a00000009" P("00000002") "\n" \
    "0000000a00000000000000000000000000000000000000010000000000000009" P("00000006") "\n" \
    "000000010000001f000000010000002000000001000000000000000000000009" P("00000007") "\n" \
    "000000010000002500000001000000260000000100000000000000000000000a" P("00000001") "\n" \
    "000000080000002b000000010000002e0000000200000000000000000000000b" P("00000000") "\n"

/* Every digit, and the longest document, whose end a name and a string have. */
static const uint32_t longest_words[] = {
    10, 0xABCDEF,  0x12345, 0,        0,         2,        0, 3, 0, /* 0 the root */
    7,  0xFEDCBA,  0x98,    0x876543, 0x78900F,  0x78900F, 0, 2, 0, /* 1   an array of bytes */
    8,  0x1000000, 0,       0,        0x1000000, 0,        0, 3, 0, /* 2   a string */
};
#define LONGEST_LINES(P) \
    "0000000a00abcdef000123450000000000000000000000020000000000000003" P("00000000") "\n" \
    "0000000700fedcba00000098008765430078900f0078900f0000000000000002" P("00000000") "\n" \
    "0000000801000000000000000000000001000000000000000000000000000003" P("00000000") "\n"

/* The root and leaves, as many records as a table may have, over the longest document, and one more leaf behind; no two are the same. */
static inline uint32_t *leaves(void)
{
    uint32_t *t = lent_records(MOST + 1);
    put(t, 0, 10, 0, 0, 0, 0, MOST - 1, 0, MOST, 0);
    for (uint32_t i = 1; i <= MOST; i++)
        put(t, i, 1, 16 * i, i % 16, LONGEST - i, 1, 0, 0, i + 1, 0);
    return t;
}

/* The same, but that the last three records stand in each other: their parents are as far behind as they may be. */
static inline void nest_last(uint32_t *leaves)
{
    put(leaves, 0, 10, 0, 0, 0, 0, MOST - 3, 0, MOST, 0);
    put(leaves, MOST - 3, 10, 0, 1, 0, 0, 1, 0, MOST, 0);
    put(leaves, MOST - 2, 9, 0, 2, 0, 0, 1, 1, MOST, MOST - 3);
    put(leaves, MOST - 1, 1, 0, 0, 3, 1, 0, 0, MOST, MOST - 2);
}

static const char DIGITS[] = "0123456789abcdef";

/* The lines of so many records, with the first eight words of each, or all nine. */
static inline uint8_t *lines_of(const uint32_t *words, size_t records, size_t width)
{
    size_t line = 8 * width + 1;
    uint8_t *lines = lent(line * records);
    for (size_t n = 0; n < records; n++) {
        for (size_t i = 0; i < line - 1; i++)
            lines[line * n + i] = DIGITS[words[TIKFAZRUL_WORDS * n + i / 8] >> (28 - i % 8 * 4) & 15];
        lines[line * n + line - 1] = '\n';
    }
    return lines;
}

/* What may be wrong with a call: its answer, what it reads from, what it makes, what else it is lent. */
enum { ANSWER = 1, SOURCE = 2, MADE = 4, OTHER = 8 };

/* Counts what holds of one call, or of many that are tried alike. */
static inline void judge(const char *what, int wrong)
{
    if (wrong)
        printf("in %s:\n", what);
    expect(what, !(wrong & ANSWER));
    expect("what is read from is as it was", !(wrong & SOURCE));
    expect("the lines or the words made, or zero words", !(wrong & MADE));
    expect("no other byte or word changes", !(wrong & OTHER));
}

#endif
