/* tile [--pocket] FILE...: lists the records of documents, in Java's form or the pocket edition's (02, [2]): record, kind, name, value. From the
 * repository's folder:
 *
 *   cc -Wall -Wextra -Werror -Iinclude examples/tile.c target/native/libnbt.a -o tile && ./tile samples/reef.nbt
 *
 * rust/examples/tile.rs prints the same, character by character (tests/rust/run compares them). */
#include "document.h"
#include <math.h>
#include <string.h>

static const char *const kind_names[] = {"",       "Byte", "Short",    "Int",      "Long",      "Float", "Double", "ByteArray",
                                         "String", "List", "Compound", "IntArray", "LongArray"};

/* A number of `width` bytes in two's complement, of which the highest comes first or, in the pocket edition's form, last. */
static int64_t whole(uint32_t form, const uint8_t *bytes, size_t width)
{
    int last = form == TIKFAZRUL_POCKET;
    uint64_t n = bytes[last ? width - 1 : 0] & 0x80 ? UINT64_MAX : 0;
    for (size_t i = 0; i < width; i++)
        n = n << 8 | bytes[last ? width - 1 - i : i];
    int64_t value;
    memcpy(&value, &n, sizeof value);
    return value;
}

/* A float or a double, from its bits. */
static void print_float(uint32_t form, const uint8_t *bytes, size_t width)
{
    uint64_t bits = (uint64_t)whole(form, bytes, width);
    uint32_t low = (uint32_t)bits;
    double value;
    float single;
    memcpy(&value, &bits, sizeof value);
    memcpy(&single, &low, sizeof single);
    if (width == 4)
        value = single;
    if (isnan(value))
        printf("NaN");
    else
        printf("%.9f", value);
}

static void print_array(uint32_t form, const uint8_t *bytes, size_t count, size_t width)
{
    putchar('[');
    for (size_t i = 0; i < count; i++)
        printf("%s%" PRId64, i ? ", " : "", whole(form, bytes + i * width, width));
    putchar(']');
}

static void print_value(const struct document *d, const uint32_t *record)
{
    const uint8_t *payload = d->bytes + record[TIKFAZRUL_START];
    size_t length = record[TIKFAZRUL_LENGTH], count = record[TIKFAZRUL_COUNT];
    switch (record[TIKFAZRUL_KIND]) {
    case FLOAT:
    case DOUBLE:
        print_float(d->form, payload, length);
        break;
    case STRING:
        print_bytes(payload, length);
        break;
    case BYTE_ARRAY:
        print_array(d->form, payload, count, 1);
        break;
    case INT_ARRAY:
        print_array(d->form, payload, count, 4);
        break;
    case LONG_ARRAY:
        print_array(d->form, payload, count, 8);
        break;
    case LIST:
    case COMPOUND:
        printf("%zu", count);
        break;
    default:
        printf("%" PRId64, whole(d->form, payload, length));
    }
}

static void print_records(const struct document *d)
{
    for (size_t i = 0; i < d->records; i++) {
        const uint32_t *record = record_of(d, i);
        printf("%zu %s ", i, kind_names[record[TIKFAZRUL_KIND]]);
        /* only an element of a list has its name at 0: a name that is read stands behind an id and a length */
        if (record[TIKFAZRUL_NAME])
            print_bytes(d->bytes + record[TIKFAZRUL_NAME], record[TIKFAZRUL_NAME_LENGTH]);
        else
            putchar('-');
        putchar(' ');
        print_value(d, record);
        putchar('\n');
    }
}

/* 0 if the document is accepted, 1 if it is refused, 2 if there is none. */
static int list(const char *name, uint32_t form)
{
    struct document d;
    int status = open_document(name, form, &d);
    if (status == 0) {
        printf("%s ok %zu %zu\n", name, d.consumed, d.records);
        print_records(&d);
    }
    close_document(&d);
    return status;
}

int main(int count, char **names)
{
    int status = 0, pocket = count > 1 && !strcmp(names[1], "--pocket");
    for (int i = 1 + pocket; i < count; i++) {
        int result = list(names[i], pocket ? TIKFAZRUL_POCKET : TIKFAZRUL_JAVA);
        status = result > status ? result : status;
    }
    return status;
}
