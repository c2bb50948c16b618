/* Moves the lines of tables between both widths (02, [8]), from C: what is a table in either, spans and parents, and tables of any shape and depth
 * there and back. See tests/ffi/run. */
#define _POSIX_C_SOURCE 200809L /* threads, which C11 leaves to choice */
#include "moves.h"
#include <pthread.h>
#include <unistd.h>

/* Any word of the tree for another, judged by rule 7 alone. That the judge is right is what tikfazrul_is_table says of the words with parents. */
static void any_word(void)
{
    static const uint32_t values[] = {0,  1,  2,  3,  4,  5,  6,  7,  8,  9,          10,         11,         12,        13,
                                      20, 31, 45, 46, 47, 48, 49, 50, 51, 0x7FFFFFFF, 0x80000000, 0xFFFFFFD2, 0xFFFFFFFE, 0xFFFFFFFF};
    const size_t n = sizeof values / sizeof *values;
    EACH_WAY(way) {
        int wrong = 0, same = 1, table;
        size_t tables = 0, tried = TREE_RECORDS * way->from * n;
        for (size_t i = 0; i < tried; i++) {
            uint32_t t[TREE_WORDS];
            uint64_t a[8];
            memcpy(t, tree, sizeof t);
            t[TIKFAZRUL_WORDS * (i / n / way->from) + i / n % way->from] = values[i % n];
            wrong |= by_rule(way, TREE_BYTES, t, TREE_RECORDS, &table);
            tikfazrul_is_table(TREE_BYTES, t, TREE_WORDS, a);
            same &= answers(a, 0, 0, table, 0);
            tables += table;
        }
        judge_way(way, "any word for another", wrong);
        expect("of which some form a table and some none", 0 < tables && tables < tried);
        expect("as tikfazrul_is_table says too", same);
    }
}

/* A wrong parent on the way down: those that have a name, and any in any record, the root's own word too. */
static void wrong_parent(void)
{
    static const uint32_t far[] = {0x10, 0x100, 0x1000, 0x10000, 0x100000, 0x1000000, 0x10000000, 0x80000000, 0xFFFFFFFF};
    const size_t room = TREE_RECORDS * OLD_LINE, others = TREE_RECORDS + 1, n = others + sizeof far / sizeof *far;
    uint32_t t[TREE_WORDS];
    for (size_t i = 0; i < WRONG_PARENTS; i++) {
        tree_with(t, wrong_parents[i].record, wrong_parents[i].parent);
        struct lines from = kept(t, TREE_RECORDS, 9);
        refused(wrong_parents[i].what, DOWN, TREE_BYTES, from, room, 10, 0);
        drop(from);
    }
    for (size_t record = 0; record < TREE_RECORDS; record++) {
        int wrong = 0;
        for (size_t i = 0; i < n; i++) {
            uint32_t parent = i < others ? i : far[i - others];
            if (parent == word(tree, record, TIKFAZRUL_PARENT))
                continue;
            tree_with(t, record, parent);
            struct lines from = kept(t, TREE_RECORDS, 9);
            wrong |= refusing(DOWN, TREE_BYTES, from, room, 10, 0) | refusing(DOWN, TREE_BYTES, from, 0, 10, 0);
            wrong |= refusing(DOWN, LONGEST + 1, from, room, 9, 0);
            drop(from);
        }
        judge_way(DOWN, "any wrong parent, before 13 and behind 9", wrong);
    }
}

/* The root, named; a string; an array of longs; a list of one int, whose element has no name. */
static const uint32_t spanned[] = {
    10, 0, 3, 0, 0,  3, 0, 5, 0, /* 0 */
    8,  0, 5, 0, 7,  0, 0, 2, 0, /* 1 */
    12, 0, 2, 0, 16, 2, 0, 3, 0, /* 2 */
    9,  0, 4, 0, 0,  1, 3, 5, 0, /* 3 */
    3,  0, 0, 0, 4,  0, 0, 5, 3, /* 4 */
};
static const struct {
    const char *what;
    size_t record, start;
    int any_length;
} spans[] = {
    {"the root's name", 0, TIKFAZRUL_NAME, 1},
    {"a string's name", 1, TIKFAZRUL_NAME, 1},
    {"a string", 1, TIKFAZRUL_START, 1},
    {"an array's name", 2, TIKFAZRUL_NAME, 1},
    {"an array", 2, TIKFAZRUL_START, 0},
    {"a list's name", 3, TIKFAZRUL_NAME, 1},
    {"a number that is an element", 4, TIKFAZRUL_START, 0},
};

/* A span of that length from there on, and whether it lies in a document of 100 bytes. */
static int spanning(const struct way *way, size_t i, uint32_t start, uint32_t length, int lies)
{
    uint32_t t[sizeof spanned / 4], *from = t + TIKFAZRUL_WORDS * spans[i].record + spans[i].start;
    int table, wrong;
    memcpy(t, spanned, sizeof t);
    from[0] = start;
    from[1] = length;
    wrong = by_rule(way, 100, t, 5, &table);
    return table == lies ? wrong : ANSWER;
}

/* Each span just in the document and just beyond its end, empty ones too, and beyond 2^32, where nothing begins again. */
static void each_span(void)
{
    EACH_WAY(way) {
        for (size_t i = 0; i < sizeof spans / sizeof *spans; i++) {
            uint32_t length = word(spanned, spans[i].record, spans[i].start + 1);
            int wrong = spanning(way, i, 100 - length, length, 1) | spanning(way, i, 101 - length, length, 0);
            wrong |= spanning(way, i, 0u - length, length, 0) | spanning(way, i, 1u - length, length, 0);
            if (spans[i].any_length) {
                wrong |= spanning(way, i, 100, 0, 1) | spanning(way, i, 101, 0, 0) | spanning(way, i, 0, 100, 1) | spanning(way, i, 0, 101, 0);
                wrong |= spanning(way, i, 0xFFFFFFFF, 0, 0) | spanning(way, i, 0x80000000, 0x80000000, 0) | spanning(way, i, 50, 0xFFFFFFFF, 0);
            }
            judge_way(way, spans[i].what, wrong);
        }
        struct lines from = kept(spanned, 5, way->from), made = kept(spanned, 5, way->to);
        moved("a document in which the longest span just lies", way, 16, from, made);
        refused("and one of a byte less: 10", way, 15, from, made.n, 10, 0);
        drop(from);
        drop(made);
    }
}

/* The one entry of a root, and whether rule 7 takes it over a document of 100 bytes. */
static const struct {
    const char *what;
    uint32_t words[TIKFAZRUL_WORDS];
    int taken;
} entries[] = {
    {"an empty list", {9, 4, 1, 0, 0, 0, 0, 2, 0}, 1},
    {"an empty list that has a kind", {9, 4, 1, 0, 0, 0, 1, 2, 0}, 0},
    {"a list that counts an element more", {9, 4, 1, 0, 0, 1, 0, 2, 0}, 0},
    {"a list that has a payload", {9, 4, 1, 0, 1, 0, 0, 2, 0}, 0},
    {"a list of no place", {9, 4, 1, 0, 0, 0, 0, 1, 0}, 0},
    {"an empty compound", {10, 4, 1, 0, 0, 0, 0, 2, 0}, 1},
    {"an empty compound that has a kind", {10, 4, 1, 0, 0, 0, 1, 2, 0}, 0},
    {"a compound that counts an entry more", {10, 4, 1, 0, 0, 1, 0, 2, 0}, 0},
    {"a compound that has a start", {10, 4, 1, 5, 0, 0, 0, 2, 0}, 0},
    {"a compound that ends behind the table", {10, 4, 1, 0, 0, 0, 0, 3, 0}, 0},
    {"an array of 25 ints", {11, 4, 1, 0, 100, 25, 0, 2, 0}, 1},
    {"an array of 2^30 ints and no byte", {11, 4, 1, 0, 0, 0x40000000, 0, 2, 0}, 0},
    {"an array of 12 longs", {12, 4, 1, 4, 96, 12, 0, 2, 0}, 1},
    {"an array of 2^29 longs and no byte", {12, 4, 1, 0, 0, 0x20000000, 0, 2, 0}, 0},
    {"an array of 100 bytes", {7, 4, 1, 0, 100, 100, 0, 2, 0}, 1},
    {"a string that has a count", {8, 4, 1, 0, 1, 1, 0, 2, 0}, 0},
    {"a double of 4 bytes", {6, 4, 1, 0, 4, 0, 0, 2, 0}, 0},
    {"a leaf that ends where it begins", {1, 4, 1, 0, 1, 0, 0, 1, 0}, 0},
    {"kind 0", {0, 4, 1, 0, 0, 0, 0, 2, 0}, 0},
    {"kind 13", {13, 4, 1, 0, 0, 0, 0, 2, 0}, 0},
};

static void each_entry(void)
{
    EACH_WAY(way) {
        for (size_t i = 0; i < sizeof entries / sizeof *entries; i++) {
            uint32_t t[18] = {10, 1, 0, 0, 0, 1, 0, 2, 0};
            int table, wrong;
            memcpy(t + TIKFAZRUL_WORDS, entries[i].words, sizeof entries[i].words);
            wrong = by_rule(way, 100, t, 2, &table);
            judge_way(way, entries[i].what, table == entries[i].taken ? wrong : ANSWER);
        }
    }
}

/* A few records, and whether rule 7 takes them: the root is a compound that ends at their number, and children tile each container. */
static const struct {
    const char *what;
    size_t records;
    uint32_t words[4 * TIKFAZRUL_WORDS];
    int taken;
} shapes[] = {
    {"a compound", 1, {10, 3, 1, 0, 0, 0, 0, 1, 0}, 1},
    {"a list", 1, {9, 3, 1, 0, 0, 0, 0, 1, 0}, 0},
    {"a byte", 1, {1, 3, 1, 0, 1, 0, 0, 1, 0}, 0},
    {"a list of a compound", 2, {9, 3, 1, 0, 0, 1, 10, 2, 0, 10, 0, 0, 0, 0, 0, 0, 2, 0}, 0},
    {"a compound of a compound", 2, {10, 3, 1, 0, 0, 1, 0, 2, 0, 10, 0, 0, 0, 0, 0, 0, 2, 0}, 1},
    {"a compound that ends behind the records", 1, {10, 3, 1, 0, 0, 0, 0, 2, 0}, 0},
    {"a compound that ends where it begins", 1, {10, 3, 1, 0, 0, 0, 0, 0, 0}, 0},
    {"two compounds, one behind the other", 2, {10, 3, 1, 0, 0, 0, 0, 1, 0, 10, 3, 1, 0, 0, 0, 0, 2, 0}, 0},
    {"a byte behind a compound", 2, {10, 3, 1, 0, 0, 0, 0, 1, 0, 1, 7, 1, 8, 1, 0, 0, 2, 0}, 0},
    {"a byte that holds another", 3, {10, 3, 1, 0, 0, 1, 0, 3, 0, 1, 7, 1, 8, 1, 0, 0, 3, 0, 1, 7, 1, 8, 1, 0, 0, 3, 1}, 0},
    {"two bytes", 3, {10, 3, 1, 0, 0, 2, 0, 3, 0, 1, 7, 1, 8, 1, 0, 0, 2, 0, 1, 7, 1, 8, 1, 0, 0, 3, 0}, 1},
    {"an entry that reaches beyond its compound", 4,
     {10, 3, 1, 0, 0, 2, 0, 4, 0, 10, 7, 1, 0, 0, 1, 0, 3, 0, 10, 8, 1, 0, 0, 1, 0, 4, 1, 1, 9, 1, 9, 1, 0, 0, 4, 2}, 0},
    {"and one that does not", 4,
     {10, 3, 1, 0, 0, 1, 0, 4, 0, 10, 7, 1, 0, 0, 1, 0, 4, 0, 10, 8, 1, 0, 0, 1, 0, 4, 1, 1, 9, 1, 9, 1, 0, 0, 4, 2}, 1},
};

static void each_shape(void)
{
    EACH_WAY(way) {
        for (size_t i = 0; i < sizeof shapes / sizeof *shapes; i++) {
            uint32_t t[4 * TIKFAZRUL_WORDS];
            int table, wrong;
            memcpy(t, shapes[i].words, sizeof t);
            wrong = by_rule(way, 100, t, shapes[i].records, &table);
            judge_way(way, shapes[i].what, table == shapes[i].taken ? wrong : ANSWER);
        }
    }
}

/* Tables of any shape: wide ones, deep ones, and others. */
static void any_shape(void)
{
    static const uint32_t downs[] = {0, 10, 30, 50, 70, 90, 100};
    for (size_t i = 0; i < sizeof downs / sizeof *downs; i++) {
        int wrong = 0, fair = 1, parents = 1;
        for (uint32_t times = 0; times < 60; times++) {
            uint32_t records = times < 10 ? 1 + times : 1 + below(300), doc_len = 48 + below(100000);
            uint32_t *t = any_table(records, doc_len, downs[i]);
            fair &= forms_table(t, records, 9, doc_len);
            for (uint32_t n = 0; n < records; n++)
                parents &= word(t, n, TIKFAZRUL_PARENT) == parent_of(t, n);
            wrong |= both_ways(t, records, doc_len);
            free(t);
        }
        judge("tables of any shape, both ways and back", wrong);
        expect("which are tables by rule 7", fair);
        expect("with parents that reach beyond", parents);
    }
}

/* New lines without the last word of each; to be freed. */
static struct lines narrowed(struct lines now)
{
    uint8_t *old = lent(now.n);
    for (size_t i = 0; i < now.n / LINE; i++) {
        memcpy(old + OLD_LINE * i, now.bytes + LINE * i, OLD_LINE - 1);
        old[OLD_LINE * i + OLD_LINE - 1] = '\n';
    }
    return (struct lines){old, now.n / LINE * OLD_LINE};
}

/* What a document's table is written as is what its old lines are moved to. */
static int document_moves(struct document d, uint32_t *t, size_t words)
{
    uint64_t a[8], b[8];
    tikfazrul_read(d.bytes, d.n, t, words, a);
    const size_t records = a[3], n = LINE * records;
    uint8_t *written = lent(n);
    tikfazrul_write_lines(d.n, t, TIKFAZRUL_WORDS * records, written, n, b);
    int wrong = answers(a, 0, 0, d.n, records) && answers(b, 0, 0, n, 0) ? 0 : SOURCE;
    struct lines now = {written, n}, old = narrowed(now);
    wrong |= moving_all(UP, d.n, old, now) | moving_all(DOWN, d.n, now, old);
    drop(now);
    drop(old);
    return wrong;
}

static void documents(void)
{
    const size_t words = TIKFAZRUL_WORDS * 100000;
    struct document d = {lent(10000000), 0}, marked = {(uint8_t *)DOC, sizeof DOC - 1}, tree_of = {(uint8_t *)TREE, TREE_BYTES};
    uint32_t *t = lent(4 * words);
    int wrong = 0;
    judge("0A00016101000162FF00 read, written as lines and moved", document_moves(marked, t, words));
    judge("the tree", document_moves(tree_of, t, words));
    for (uint32_t i = 0; i < 200; i++) {
        d.n = 0;
        add(&d, 0x0A0000, 3);
        add_payload(&d, 10, 1 + i % 7);
        wrong |= document_moves(d, t, words);
    }
    judge("any documents", wrong);
    free(d.bytes);
    free(t);
}

/* Containers within each other, so many, with a leaf before and behind each. */
static uint32_t *comb(uint32_t deep)
{
    const uint32_t records = 3 * deep;
    uint32_t *level = lent(4 * records), *t;
    for (uint32_t i = 0; i < deep; i++) {
        level[2 * i] = i;
        level[2 * i + 1] = i + 1;
        level[records - 1 - i] = i + 1;
    }
    t = shaped(level, records);
    dress(t, records, 1000);
    free(level);
    return t;
}

/* Rule 7 has no limit of depth, and no memory is lent that could hold the way down: nothing may be kept for each level. */
static void *deep_tables(void *unused)
{
    const uint32_t deep = 100000;
    uint32_t *path = chain(deep), *leaved = comb(deep);
    judge("100,000 containers within each other, both ways and back", both_ways(path, deep, 0));
    judge("with leaves before and behind", both_ways(leaved, 3 * deep, 1000));
    path[TIKFAZRUL_WORDS * (deep - 1) + TIKFAZRUL_PARENT]--;
    leaved[TIKFAZRUL_WORDS * (3 * deep - 1) + TIKFAZRUL_PARENT]++;
    struct lines far = kept(path, deep, 9), behind = kept(leaved, 3 * deep, 9);
    refused("the innermost one's grandparent is 10", DOWN, 0, far, far.n, 10, 0);
    refused("the last leaf's neighbour is 10", DOWN, 1000, behind, behind.n, 10, 0);
    drop(far);
    drop(behind);
    free(path);
    free(leaved);
    return unused;
}

/* A stack of 64 KiB, or the least that a thread can have: less than a byte a level, or little more. */
static void on_small_stack(void *(*test)(void *))
{
    const long least = sysconf(_SC_THREAD_STACK_MIN);
    pthread_attr_t attributes;
    pthread_t thread;
    int before = passed;
    if (pthread_attr_init(&attributes) || pthread_attr_setstacksize(&attributes, least > 65536 ? least : 65536))
        exit(2);
    if (pthread_create(&thread, &attributes, test, NULL) || pthread_join(thread, NULL))
        exit(2);
    pthread_attr_destroy(&attributes);
    expect("the tests on a small stack were run", passed > before);
}

int main(void)
{
    any_word();
    wrong_parent();
    each_span();
    each_entry();
    each_shape();
    any_shape();
    documents();
    on_small_stack(deep_tables);
    return report();
}
