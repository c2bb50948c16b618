/* Random documents in both forms side by side (02, [2]): the same values laid out twice, so that every call has the same answer, the same words and
 * the same values for both, whole and cut. Java's calls are those that take no form. See tests/ffi/run. */
#include "built.h"

enum { MOST = 1 << 20, RECORDS = 4096, DOCUMENTS = 2000, CUTS = 8 };

/* A document in each form. Names are letters, so that both have the same length. */
struct twins {
    uint8_t *java, *pocket;
    size_t n;
};

static void number(struct twins *t, uint64_t value, size_t bytes)
{
    for (size_t i = 0; i < bytes; i++) {
        t->pocket[t->n + i] = value >> 8 * i;
        t->java[t->n + bytes - 1 - i] = value >> 8 * i;
    }
    t->n += bytes;
}

/* A letter, and as many others as its length has left: now and then more than 255. */
static void letters(struct twins *t, uint8_t first, uint32_t length)
{
    number(t, length, 2);
    memset(t->java + t->n, 'x', length);
    if (length)
        t->java[t->n] = first;
    memcpy(t->pocket + t->n, t->java + t->n, length);
    t->n += length;
}

static uint32_t any_length(uint32_t most)
{
    return below(20) ? below(most) : 256 + below(300);
}

static uint64_t any_number(void)
{
    return (uint64_t)below(UINT32_MAX) << 32 | below(UINT32_MAX);
}

/* A payload (rule 4) in both forms, with at most four children in each of so many levels. */
static void payload(struct twins *t, uint32_t kind, uint32_t levels)
{
    uint32_t n = below(5), child = any_kind(levels);
    if (kind == 9) {
        number(t, n ? child : 0, 1);
        number(t, n, 4);
        for (uint32_t i = 0; i < n; i++)
            payload(t, child, levels ? levels - 1 : 0);
    } else if (kind == 10) {
        for (uint32_t i = 0; i < n; i++, child = any_kind(levels)) {
            number(t, child, 1);
            letters(t, 'a' + i, 1 + any_length(3));
            payload(t, child, levels ? levels - 1 : 0);
        }
        number(t, 0, 1);
    } else if (kind == 8) {
        letters(t, 's', any_length(4));
    } else if (kind < 7) {
        number(t, any_number(), bytes_each(kind));
    } else {
        n = any_length(4);
        number(t, n, 4);
        for (uint32_t i = 0; i < n; i++)
            number(t, any_number(), bytes_each(kind));
    }
}

/* Whether so many records have the same values in both documents: the bytes of each number in the other order, those of strings in the same. */
static int same_values(const uint32_t *words, size_t records, const uint8_t *java, const uint8_t *pocket)
{
    for (size_t n = 0; n < records; n++) {
        const uint32_t *r = words + TIKFAZRUL_WORDS * n;
        uint32_t width = r[TIKFAZRUL_KIND] == 8 || is_container(words, n) ? 1 : bytes_each(r[TIKFAZRUL_KIND]);
        if (memcmp(java + r[TIKFAZRUL_NAME], pocket + r[TIKFAZRUL_NAME], r[TIKFAZRUL_NAME_LENGTH]))
            return 0;
        for (uint32_t i = 0; i < r[TIKFAZRUL_LENGTH]; i++) {
            uint32_t start = r[TIKFAZRUL_START] + i / width * width;
            if (java[start + i % width] != pocket[start + width - 1 - i % width])
                return 0;
        }
    }
    return 1;
}

/* The two tables, the two outputs and the two lists of a comparison. */
static uint32_t *tables[2], lists[2][RECORDS];
static uint8_t *outs[2];

static int same_answers(const uint64_t a[8], const uint64_t b[8])
{
    return !memcmp(a, b, 8 * sizeof *a);
}

/* Reads both: the answer and all words are the same. */
static int read_alike(const uint8_t *java, const uint8_t *pocket, size_t n, uint64_t a[8])
{
    uint64_t b[8];
    memset(tables[0], 0xAB, 4 * RECORDS * TIKFAZRUL_WORDS);
    memset(tables[1], 0xAB, 4 * RECORDS * TIKFAZRUL_WORDS);
    tikfazrul_read(java, n, tables[0], RECORDS * TIKFAZRUL_WORDS, a);
    tikfazrul_read_in(TIKFAZRUL_POCKET, pocket, n, tables[1], RECORDS * TIKFAZRUL_WORDS, b);
    return same_answers(a, b) && !memcmp(tables[0], tables[1], 4 * RECORDS * TIKFAZRUL_WORDS);
}

/* Writes both, in so much room: whole documents come back, and else the answers are the same. */
static int written_alike(const struct twins *t, size_t words, size_t room)
{
    uint64_t a[8], b[8];
    tikfazrul_write(t->java, t->n, tables[0], words, outs[0], room, a);
    tikfazrul_write_in(TIKFAZRUL_POCKET, t->pocket, t->n, tables[1], words, outs[1], room, b);
    if (room < t->n)
        return same_answers(a, b) && a[0] == 13;
    return same_answers(a, b) && a[0] == 0 && a[2] == t->n && !memcmp(outs[0], t->java, t->n) && !memcmp(outs[1], t->pocket, t->n);
}

/* Asks both: the answers and the matches are the same. */
static int asked_alike(const struct twins *t, size_t words, const uint8_t *query, size_t n)
{
    uint64_t a[8], b[8];
    memset(lists, 0xAB, sizeof lists);
    tikfazrul_query(t->java, t->n, tables[0], words, query, n, lists[0], RECORDS, a);
    tikfazrul_query_in(TIKFAZRUL_POCKET, t->pocket, t->n, tables[1], words, query, n, lists[1], RECORDS, b);
    return same_answers(a, b) && a[0] == 0 && !memcmp(lists[0], lists[1], sizeof *lists);
}

/* Rescues both, cut at a byte: the answers and the lines are the same, and what is written are twins again. */
static int rescued_alike(const struct twins *t, size_t cut)
{
    uint64_t a[8], b[8];
    memset(lists, 0xAB, sizeof lists);
    tikfazrul_rescue(TIKFAZRUL_JAVA, t->java, cut, tables[0], RECORDS * TIKFAZRUL_WORDS, outs[0], MOST, lists[0], RECORDS, a);
    tikfazrul_rescue(TIKFAZRUL_POCKET, t->pocket, cut, tables[1], RECORDS * TIKFAZRUL_WORDS, outs[1], MOST, lists[1], RECORDS, b);
    if (!same_answers(a, b) || memcmp(lists[0], lists[1], sizeof *lists))
        return 0;
    if (a[0])
        return a[0] == 32;
    return read_alike(outs[0], outs[1], a[2], b) && b[0] == 0 && b[2] == a[2] && same_values(tables[0], b[3], outs[0], outs[1]);
}

/* What came out right: the reads, the writes, the queries, the rescues; and how many records there were. */
struct right {
    int read, written, asked, rescued;
    size_t records;
};

static void one(struct twins *t, struct right *right)
{
    uint64_t a[8];
    t->n = 0;
    number(t, 10, 1);
    letters(t, 'r', any_length(3));
    payload(t, 10, 4);
    right->read &= t->n < MOST - 512 && read_alike(t->java, t->pocket, t->n, a) && a[0] == 0 && a[2] == t->n;
    right->read &= same_values(tables[0], a[3], t->java, t->pocket);
    right->records += a[3];
    right->written &= written_alike(t, TIKFAZRUL_WORDS * a[3], t->n) && written_alike(t, TIKFAZRUL_WORDS * a[3], t->n - 1);
    const uint8_t queries[][10] = {{4}, {4, 1, 0, 1, 'a'}, {3, 3}, {4, 2, 0, 0, 0, 1}, {1, 0, 2, 'a', 'x', 4}};
    const size_t lengths[] = {1, 5, 2, 6, 6};
    for (size_t i = 0; i < 5; i++)
        right->asked &= asked_alike(t, TIKFAZRUL_WORDS * a[3], queries[i], lengths[i]);
    for (size_t i = 0; i < CUTS; i++) {
        size_t cut = below(t->n);
        right->read &= read_alike(t->java, t->pocket, cut, a) && a[0] == 1;
        right->rescued &= rescued_alike(t, cut);
    }
}

int main(void)
{
    struct twins t = {lent(MOST), lent(MOST), 0};
    struct right right = {1, 1, 1, 1, 0};
    for (size_t i = 0; i < 2; i++) {
        tables[i] = lent_records(RECORDS);
        outs[i] = lent(MOST);
    }
    for (size_t i = 0; i < DOCUMENTS; i++)
        one(&t, &right);
    expect("the twins are read alike", right.read);
    expect("and written", right.written);
    expect("and asked", right.asked);
    expect("and rescued, wherever they are cut", right.rescued);
    expect("and have records", right.records > 10 * DOCUMENTS);
    for (size_t i = 0; i < 2; i++) {
        free(tables[i]);
        free(outs[i]);
    }
    free(t.java);
    free(t.pocket);
    return report();
}
