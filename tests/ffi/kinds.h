/* A document of every kind, written by hand in both forms, and its table (02, [2]). See tests/ffi/run. */
#ifndef KINDS_H
#define KINDS_H

#include "tikfazrul.h"

/* Every kind, and a list of none with an id, by offset: 0 the root t, 4 b, 9 s, 15 i, 23 l, 35 f, 43 d, 55 B, 65 S, 73 L of two shorts, 86 C with x
 * in it, 96 I, 112 J, 128 E. */
#define KINDS_JAVA \
    "\x0A\0\1t" "\1\0\1b\x85" "\2\0\1s\1\2" "\3\0\1i\1\2\3\4" "\4\0\1l\1\2\3\4\5\6\7\x88" "\5\0\1f\x3E\x20\0\1" "\6\0\1d\x3F\xF0\0\0\0\0\0\2" \
    "\7\0\1B\0\0\0\2\7\x88" "\x08\0\1S\0\2hi" "\x09\0\1L\2\0\0\0\2\1\2\xFF\4" "\x0A\0\1C\1\0\1x\x09\0" "\x0B\0\1I\0\0\0\2\1\2\3\4\5\6\7\x88" \
    "\x0C\0\1J\0\0\0\1\1\2\3\4\5\6\7\x88" "\x09\0\1E\5\0\0\0\0" "\0"
#define KINDS_POCKET \
    "\x0A\1\0t" "\1\1\0b\x85" "\2\1\0s\2\1" "\3\1\0i\4\3\2\1" "\4\1\0l\x88\7\6\5\4\3\2\1" "\5\1\0f\1\0\x20\x3E" "\6\1\0d\2\0\0\0\0\0\xF0\x3F" \
    "\7\1\0B\2\0\0\0\7\x88" "\x08\1\0S\2\0hi" "\x09\1\0L\2\2\0\0\0\2\1\4\xFF" "\x0A\1\0C\1\1\0x\x09\0" "\x0B\1\0I\2\0\0\0\4\3\2\1\x88\7\6\5" \
    "\x0C\1\0J\1\0\0\0\x88\7\6\5\4\3\2\1" "\x09\1\0E\5\0\0\0\0" "\0"
enum { KINDS_BYTES = sizeof KINDS_JAVA - 1, KINDS_RECORDS = 17, KINDS_WORDS = KINDS_RECORDS * TIKFAZRUL_WORDS, EMPTY_ID = 132 };

/* The words count bytes, and so are the same in each form. */
static const uint32_t kinds[KINDS_WORDS] = {
    10, 3,   1, 0,   0, 13, 0, 17, 0,  /*  0 the root */
    1,  7,   1, 8,   1, 0,  0, 2,  0,  /*  1   b */
    2,  12,  1, 13,  2, 0,  0, 3,  0,  /*  2   s */
    3,  18,  1, 19,  4, 0,  0, 4,  0,  /*  3   i */
    4,  26,  1, 27,  8, 0,  0, 5,  0,  /*  4   l */
    5,  38,  1, 39,  4, 0,  0, 6,  0,  /*  5   f */
    6,  46,  1, 47,  8, 0,  0, 7,  0,  /*  6   d */
    7,  58,  1, 63,  2, 2,  0, 8,  0,  /*  7   B */
    8,  68,  1, 71,  2, 0,  0, 9,  0,  /*  8   S */
    9,  76,  1, 0,   0, 2,  2, 12, 0,  /*  9   L */
    2,  0,   0, 82,  2, 0,  0, 11, 9,  /* 10     258 */
    2,  0,   0, 84,  2, 0,  0, 12, 9,  /* 11     -252 */
    10, 89,  1, 0,   0, 1,  0, 14, 0,  /* 12   C */
    1,  93,  1, 94,  1, 0,  0, 14, 12, /* 13     x */
    11, 99,  1, 104, 8, 2,  0, 15, 0,  /* 14   I */
    12, 115, 1, 120, 8, 1,  0, 16, 0,  /* 15   J */
    9,  131, 1, 0,   0, 0,  0, 17, 0,  /* 16   E */
};

static const struct {
    uint32_t form;
    const uint8_t *doc;
} both[] = {{TIKFAZRUL_JAVA, (const uint8_t *)KINDS_JAVA}, {TIKFAZRUL_POCKET, (const uint8_t *)KINDS_POCKET}};

#endif
