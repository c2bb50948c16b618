/* What the examples share: a file's document with its table, and bytes shown. */
#ifndef DOCUMENT_H
#define DOCUMENT_H

#include "tikfazrul.h"
#include <inttypes.h>
#include <stdio.h>
#include <stdlib.h>

enum { MOST_BYTES = 16777216, MOST_RECORDS = 1048576 };

enum { BYTE = 1, SHORT, INT, LONG, FLOAT, DOUBLE, BYTE_ARRAY, STRING, LIST, COMPOUND, INT_ARRAY, LONG_ARRAY };

struct document {
    uint32_t form;
    uint8_t *bytes;
    uint32_t *table;
    size_t length, consumed, records;
};

static inline const uint32_t *record_of(const struct document *d, size_t n)
{
    return d->table + TIKFAZRUL_WORDS * n;
}

/* The file's bytes and one more than a document has at the most, so that a longer one is refused for its length. */
static inline uint8_t *load(const char *name, size_t *length)
{
    FILE *file = fopen(name, "rb");
    uint8_t *bytes = file ? malloc(MOST_BYTES + 1) : NULL;
    *length = bytes ? fread(bytes, 1, MOST_BYTES + 1, file) : 0;
    if (bytes && ferror(file)) {
        free(bytes);
        bytes = NULL;
    }
    if (file)
        fclose(file);
    return bytes;
}

/* Reads a file's document, which is in that form: 0 if it is accepted, 1 if it is refused, 2 if there is none, both of which it says. To be closed
 * in each case. */
static inline int open_document(const char *name, uint32_t form, struct document *d)
{
    uint64_t answer[8] = {0};
    d->form = form;
    d->bytes = load(name, &d->length);
    /* a record takes a byte at the least */
    size_t room = d->length < MOST_RECORDS ? d->length + 1 : MOST_RECORDS;
    d->table = calloc(room * TIKFAZRUL_WORDS, sizeof *d->table);
    if (!d->bytes || !d->table) {
        fprintf(stderr, "%s: can't be read\n", name);
        return 2;
    }
    tikfazrul_read_in(form, d->bytes, d->length, d->table, room * TIKFAZRUL_WORDS, answer);
    d->consumed = answer[2];
    d->records = answer[3];
    if (answer[0] != 0)
        printf("%s refused %" PRIu64 " %" PRIu64 "\n", name, answer[0], answer[1]);
    return answer[0] != 0;
}

static inline void close_document(struct document *d)
{
    free(d->bytes);
    free(d->table);
}

/* Bytes that ASCII can show as they are, others as \xNN: names and strings may be modified UTF-8, which a terminal can't be asked to show. */
static inline void print_bytes(const uint8_t *bytes, size_t length)
{
    putchar('"');
    for (size_t i = 0; i < length; i++) {
        if (bytes[i] >= 0x20 && bytes[i] < 0x7F && bytes[i] != '"' && bytes[i] != '\\')
            putchar(bytes[i]);
        else
            printf("\\x%02X", bytes[i]);
    }
    putchar('"');
}

#endif
