/* A document of lists and compounds in each other, with tags that stand behind them, its records counted out by hand, and wrong parents for
 * these (02, [7]). */
#ifndef TREE_H
#define TREE_H

#include "expect.h"

/* By offset: 0 the root, 3 c, 7 g, a list of two lists, 16 the first, of two bytes, 23 the second, of one compound, 28 its b, 34 z, which stands
 * in c again, 40 s, which stands in the root. */
#define TREE \
    "\x0A\0\0" "\x0A\0\1c" "\x09\0\1g\x09\0\0\0\2" "\1\0\0\0\2\7\x08" "\x0A\0\0\0\1" "\1\0\1b\5\0" "\1\0\1z\x09\0" "\x08\0\1s\0\2hi" "\0"
enum { TREE_BYTES = sizeof TREE - 1, TREE_RECORDS = 11, TREE_WORDS = TREE_RECORDS * TIKFAZRUL_WORDS };

static const uint32_t tree[TREE_WORDS] = {
    10, 3,  0, 0,  0, 2, 0,  11, 0, /*  0 the root */
    10, 6,  1, 0,  0, 2, 0,  10, 0, /*  1   c */
    9,  10, 1, 0,  0, 2, 9,  9,  1, /*  2     g */
    9,  0,  0, 0,  0, 2, 1,  6,  2, /*  3       a list */
    1,  0,  0, 21, 1, 0, 0,  5,  3, /*  4         7 */
    1,  0,  0, 22, 1, 0, 0,  6,  3, /*  5         8 */
    9,  0,  0, 0,  0, 1, 10, 9,  2, /*  6       a list */
    10, 0,  0, 0,  0, 1, 0,  9,  6, /*  7         a compound */
    1,  31, 1, 32, 1, 0, 0,  9,  7, /*  8           b */
    1,  37, 1, 38, 1, 0, 0,  10, 1, /*  9     z */
    8,  43, 1, 46, 2, 0, 0,  11, 0, /* 10   s */
};

static const struct {
    const char *what;
    uint32_t record, parent;
} wrong_parents[] = {
    {"the root's own is its child", 0, 1},
    {"the root's own is the last record", 0, 10},
    {"the root's own is behind the table", 0, 11},
    {"the root's own is 0xFFFFFFFF", 0, 0xFFFFFFFF},
    {"the record before, a sibling", 5, 4},
    {"the record before, in a sibling's list", 6, 5},
    {"the record before, deep below a sibling", 9, 8},
    {"the record before, of one in the root", 10, 9},
    {"the grandparent, a list", 7, 2},
    {"the grandparent, the root", 2, 0},
    {"the grandparent of a leaf", 8, 6},
    {"itself, a compound in the root", 1, 1},
    {"itself, a list", 3, 3},
    {"itself, a leaf", 8, 8},
    {"its child", 2, 3},
    {"its sibling, a container", 6, 3},
    {"a later sibling", 1, 10},
    {"the record behind the table", 10, 11},
    {"far behind the table", 4, 0x80000000},
    {"0xFFFFFFFF", 9, 0xFFFFFFFF},
};
enum { WRONG_PARENTS = sizeof wrong_parents / sizeof *wrong_parents };

/* The tree's words in `t`, with that parent in that record. */
static inline void tree_with(uint32_t *t, size_t record, uint32_t parent)
{
    memcpy(t, tree, sizeof tree);
    t[TIKFAZRUL_WORDS * record + TIKFAZRUL_PARENT] = parent;
}

#endif
