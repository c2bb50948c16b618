/* Every character, and random documents, laid out in both forms by the rules (02, [2]): each is converted into the other, in its own room and in none
 * that is shorter; and where a string is too long in Java's form, 12 names the first such record. See tests/ffi/run. */
#include "built.h"

enum { MOST = 1 << 22, RECORDS = 4096, DOCUMENTS = 3000, NONE = -1 };

/* A document in each form. Strings have other lengths in each. */
struct twins {
    uint8_t *java, *pocket;
    size_t n, m;
    /* How many records there are as yet, and the first that has a string too long in Java's form, whose layout there is none of. */
    int records, too_long;
};

static void number(struct twins *t, uint64_t value, size_t bytes)
{
    for (size_t i = 0; i < bytes; i++) {
        t->pocket[t->m + i] = value >> 8 * i;
        t->java[t->n + bytes - 1 - i] = value >> 8 * i;
    }
    t->n += bytes;
    t->m += bytes;
}

/* A value of 16 bits or fewer, in one, two or three bytes. */
static size_t put_unit(uint8_t *out, uint32_t unit, int zero_in_two)
{
    if (unit < 0x80 && (unit || !zero_in_two)) {
        out[0] = unit;
        return 1;
    }
    if (unit < 0x800) {
        out[0] = 0xC0 | unit >> 6;
        out[1] = 0x80 | (unit & 0x3F);
        return 2;
    }
    out[0] = 0xE0 | unit >> 12;
    out[1] = 0x80 | (unit >> 6 & 0x3F);
    out[2] = 0x80 | (unit & 0x3F);
    return 3;
}

/* A character in UTF-8. */
static size_t put_utf8(uint8_t *out, uint32_t c)
{
    if (c < 0x10000)
        return put_unit(out, c, 0);
    out[0] = 0xF0 | c >> 18;
    out[1] = 0x80 | (c >> 12 & 0x3F);
    out[2] = 0x80 | (c >> 6 & 0x3F);
    out[3] = 0x80 | (c & 0x3F);
    return 4;
}

/* A character in modified UTF-8: U+0000 in two bytes, and above U+FFFF two halves. */
static size_t put_mutf8(uint8_t *out, uint32_t c)
{
    if (c < 0x10000)
        return put_unit(out, c, 1);
    put_unit(out, 0xD800 + ((c - 0x10000) >> 10), 1);
    put_unit(out + 3, 0xDC00 + (c - 0x10000) % 0x400, 1);
    return 6;
}

static int is_half(uint32_t c)
{
    return c >= 0xD800 && c < 0xE000;
}

/* U+0000 and characters above U+FFFF more often than others. */
static uint32_t any_character(void)
{
    static const uint32_t from[] = {0, 0, 0, 0x80, 0x800, 0x10000, 0x10000}, to[] = {1, 1, 0x80, 0x800, 0x10000, 0x20000, 0x110000};
    uint32_t i = below(7), c = from[i] + below(to[i] - from[i]);
    return is_half(c) ? 0xE000 : c;
}

/* A string of so many characters in both forms, each with its length before it. */
static void string(struct twins *t, const uint32_t *characters, size_t count)
{
    size_t java = t->n, pocket = t->m;
    number(t, 0, 2);
    for (size_t i = 0; i < count; i++) {
        t->n += put_mutf8(t->java + t->n, characters[i]);
        t->m += put_utf8(t->pocket + t->m, characters[i]);
    }
    size_t n = t->n - java - 2, m = t->m - pocket - 2;
    memcpy(t->java + java, (uint8_t[]){n >> 8, n & 255}, 2);
    memcpy(t->pocket + pocket, (uint8_t[]){m & 255, m >> 8}, 2);
    if (n > 65535 && t->too_long == NONE)
        t->too_long = t->records - 1;
}

/* A string of the last record, which begins with that letter; now and then one of up to 40,000 times U+0000. */
static void any_string(struct twins *t, uint32_t first, uint32_t most)
{
    static uint32_t characters[40001];
    size_t count = 1 + below(most);
    int zeros = !below(100) && t->n < MOST / 2;
    if (zeros)
        count = 1 + 25000 + below(15000);
    characters[0] = first;
    for (size_t i = 1; i < count; i++)
        characters[i] = zeros ? 0 : any_character();
    string(t, characters, count);
}

/* A payload (rule 4) in both forms, with at most four children in each of so many levels. */
static void payload(struct twins *t, uint32_t kind, uint32_t levels)
{
    uint32_t n = below(5), child = any_kind(levels);
    if (kind == 9) {
        number(t, n ? child : 0, 1);
        number(t, n, 4);
        for (uint32_t i = 0; i < n; i++) {
            t->records++;
            payload(t, child, levels ? levels - 1 : 0);
        }
    } else if (kind == 10) {
        for (uint32_t i = 0; i < n; i++, child = any_kind(levels)) {
            number(t, child, 1);
            t->records++;
            any_string(t, 'a' + i, 5);
            payload(t, child, levels ? levels - 1 : 0);
        }
        number(t, 0, 1);
    } else if (kind == 8) {
        any_string(t, any_character(), 9);
    } else {
        n = kind < 7 ? 1 : n;
        if (kind > 6)
            number(t, n, 4);
        for (uint32_t i = 0; i < n; i++)
            number(t, (uint64_t)below(UINT32_MAX) << 32 | below(UINT32_MAX), bytes_each(kind));
    }
}

static uint32_t *table, *before;
static uint8_t *out;

/* Reads a document and converts it into so much room: whether the answer is that one, the table is as it was, and no byte changed but those that
 * are written, which are `wanted`. */
static int converts(uint32_t from, const uint8_t *doc, size_t n, size_t room, uint64_t number, uint64_t place, uint64_t length, const void *wanted)
{
    uint64_t a[8];
    tikfazrul_read_in(from, doc, n, table, RECORDS * TIKFAZRUL_WORDS, a);
    size_t words = TIKFAZRUL_WORDS * a[3], written = number ? 0 : length;
    if (a[0] || a[2] != n)
        return 0;
    memcpy(before, table, 4 * words);
    memset(out, 0xAA, room + 3);
    tikfazrul_convert(from, from == TIKFAZRUL_JAVA ? TIKFAZRUL_POCKET : TIKFAZRUL_JAVA, doc, n, table, words, out, room, a);
    for (size_t i = written; i < room + 3; i++)
        if (out[i] != 0xAA)
            return 0;
    return answers(a, number, place, length, 0) && !memcmp(before, table, 4 * words) && !memcmp(out, wanted, written);
}

/* Whether each of two documents is written as the other, and a byte short is 13. */
static int are_twins(const struct twins *t)
{
    return converts(TIKFAZRUL_JAVA, t->java, t->n, t->m, 0, 0, t->m, t->pocket) &&
           converts(TIKFAZRUL_JAVA, t->java, t->n, t->m + 9, 0, 0, t->m, t->pocket) &&
           converts(TIKFAZRUL_JAVA, t->java, t->n, t->m - 1, 13, 0, 0, NULL) &&
           converts(TIKFAZRUL_POCKET, t->pocket, t->m, t->n, 0, 0, t->n, t->java) &&
           converts(TIKFAZRUL_POCKET, t->pocket, t->m, t->n + 9, 0, 0, t->n, t->java) &&
           converts(TIKFAZRUL_POCKET, t->pocket, t->m, t->n - 1, 13, 0, 0, NULL);
}

/* Whether a string is too long in Java's form, at that record and whatever the room. */
static int is_too_long(const struct twins *t)
{
    return converts(TIKFAZRUL_POCKET, t->pocket, t->m, MOST, 12, t->too_long, 0, NULL) &&
           converts(TIKFAZRUL_POCKET, t->pocket, t->m, 0, 12, t->too_long, 0, NULL);
}

static void begin(struct twins *t)
{
    t->n = t->m = 0;
    t->records = 1;
    t->too_long = NONE;
    number(t, 10, 1);
}

/* Every character there is, 4,096 at a time in the name of a root. */
static void every_character(struct twins *t)
{
    int right = 1;
    size_t all = 0;
    for (uint32_t first = 0; first < 0x110000; first += 4096) {
        uint32_t characters[4096];
        size_t count = 0;
        for (uint32_t c = first; c < first + 4096; c++)
            if (!is_half(c))
                characters[count++] = c;
        begin(t);
        string(t, characters, count);
        number(t, 0, 1);
        right &= are_twins(t);
        all += count;
    }
    expect("every character", right && all == 1112064);
}

static void any_documents(struct twins *t)
{
    int right = 1, refused = 1;
    size_t records = 0, too_long = 0, grown = 0;
    for (size_t i = 0; i < DOCUMENTS; i++) {
        begin(t);
        any_string(t, any_character(), 9);
        payload(t, 10, 4);
        records += t->records;
        if (t->too_long == NONE) {
            right &= are_twins(t);
            grown += t->n > t->m;
        } else {
            refused &= is_too_long(t);
            too_long++;
        }
    }
    expect("documents are converted into each other", right);
    expect("the first string that is too long is named", refused);
    expect("there are records, and strings that grow and are too long", records > 10 * DOCUMENTS && grown > DOCUMENTS / 2 && too_long > 50);
}

int main(void)
{
    struct twins t = {.java = lent(MOST), .pocket = lent(MOST)};
    table = lent_records(RECORDS);
    before = lent_records(RECORDS);
    out = lent(MOST + 16);
    every_character(&t);
    any_documents(&t);
    free(table);
    free(before);
    free(out);
    free(t.java);
    free(t.pocket);
    return report();
}
