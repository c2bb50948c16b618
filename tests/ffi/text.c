/* Parses texts from C: the marked record of 01, the limits that are too large for the other programs, and what is left of the output. See
 * tests/ffi/run. */
#include "expect.h"

/* A text made piece by piece. */
struct text {
    uint8_t *bytes;
    size_t len;
};

static void add(struct text *t, const char *piece, size_t times)
{
    size_t n = strlen(piece);
    t->bytes = realloc(t->bytes, t->len + n * times + 1);
    if (!t->bytes)
        exit(2);
    for (size_t i = 0; i < times; i++) {
        memcpy(t->bytes + t->len, piece, n);
        t->len += n;
    }
}

/* A run of one piece between two others. */
static struct text around(const char *before, const char *piece, size_t times, const char *behind)
{
    struct text t = {NULL, 0};
    add(&t, before, 1);
    add(&t, piece, times);
    add(&t, behind, 1);
    return t;
}

/* Whether n bytes are all b. */
static int are(const uint8_t *p, size_t n, uint8_t b)
{
    for (size_t i = 0; i < n; i++)
        if (p[i] != b)
            return 0;
    return 1;
}

/* Parses with so much room: accepted with this length, and the rest of the output untouched; or refused, and all of it zero. */
static void parsed(const char *what, struct text t, size_t room, uint64_t number, uint64_t place, uint64_t consumed, uint64_t length)
{
    uint8_t *out = lent(room);
    uint64_t a[8];
    memset(out, 0xAA, room);
    memset(a, 0xAB, sizeof a);
    tikfazrul_parse(t.bytes, t.len, out, room, a);
    int left = number ? are(out, room, 0) : are(out + length, room - length, 0xAA);
    expect(what, answers(a, number, place, consumed, length) && left);
    free(out);
}

/* Accepted where there is just room, and 13 at a place where there is one byte less. */
static void exact(const char *what, struct text t, uint64_t length, uint64_t place)
{
    parsed(what, t, length, 0, 0, t.len, length);
    parsed(what, t, length - 1, 13, place, 0, 0);
    free(t.bytes);
}

static struct text of(const char *s)
{
    return around(s, "", 0, "");
}

static void marked(void)
{
    static const uint8_t wanted[] = {0x0A, 0, 0, 9, 0, 1, 'a', 1, 0, 0, 0, 2, 1, 2, 0};
    uint8_t out[16];
    uint64_t a[8];
    memset(out, 0xAA, sizeof out);
    tikfazrul_parse((const uint8_t *)"{a:[1b,2b]}", 11, out, sizeof out, a);
    expect("marked", answers(a, 0, 0, 11, 15) && !memcmp(out, wanted, 15) && out[15] == 0xAA);
    tikfazrul_parse(NULL, 0, NULL, 0, a);
    expect("no text", answers(a, 20, 0, 0, 0));
}

/* The room for each kind of token: the place is where its bytes are counted. */
static void rooms(void)
{
    exact("the root", of("{}"), 4, 1);
    exact("a byte", of("{a:1b }"), 9, 6);
    exact("a string", of("{a:bc}"), 12, 5);
    exact("a list", of("{a:[]}"), 13, 5);
    exact("an array", of("{a:[L;1l]}"), 20, 9);
    exact("a compound", of("{a:{}}"), 9, 5);
    parsed("a byte's own", of("{a:1b }"), 7, 13, 3, 0, 0);
    parsed("a string's own", of("{a:bc}"), 10, 13, 3, 0, 0);
    parsed("a list's head", of("{a:[]}"), 11, 13, 3, 0, 0);
    parsed("an array's element", of("{a:[L;1l]}"), 18, 13, 6, 0, 0);
    parsed("an array's head", of("{a:[L;1l]}"), 10, 13, 3, 0, 0);
    parsed("a compound's name", of("{a:{}}"), 6, 13, 3, 0, 0);
    parsed("an end byte", of("{a:{}}"), 7, 13, 4, 0, 0);
    parsed("the root's own", of("{}"), 2, 13, 0, 0, 0);
}

static void limits(void)
{
    struct text t = around("{a:", "[", 511, "");
    add(&t, "]", 511);
    add(&t, "}", 1);
    parsed("512 deep", t, 5000, 0, 0, t.len, 3 + 4 + 511 * 5 + 1);
    t = around("{a:", "[", 512, "");
    add(&t, "]", 512);
    add(&t, "}", 1);
    parsed("513 deep", t, 5000, 7, 3 + 511, 0, 0);
    exact("65,535 bytes", around("{a:'", "x", 65535, "'}"), 3 + 4 + 2 + 65535 + 1, 65540);
    parsed("65,536 bytes", around("{a:'", "x", 65536, "'}"), 70000, 12, 3, 0, 0);
    parsed("65,536 by a NUL", around("{a:'", "x", 65534, "\\u0000'}"), 70000, 12, 3, 0, 0);
    parsed("a key of 65,535", around("{", "x", 65535, ":1b}"), 70000, 0, 0, 65540, 3 + 3 + 65535 + 1 + 1);
    parsed("a key of 65,536", around("{", "x", 65536, ":1b}"), 70000, 12, 1, 0, 0);
    t = around("{}", " ", 1048574, "");
    parsed("the longest text", t, 100, 0, 0, 2, 4);
    add(&t, " ", 1);
    parsed("one byte more", t, 100, 9, 0, 0, 0);
    parsed("not UTF-8", of("{a:\xFF}"), 100, 15, 0, 0, 0);
}

/* A compound of as many keys as 1 MiB holds, in falling order, so that each goes before those that are there; then one of them again. */
static void keys(void)
{
    struct text t = of("{");
    char piece[16];
    for (unsigned i = 99999; i > 0; i--) {
        snprintf(piece, sizeof piece, "k%05u:1b,", i);
        add(&t, piece, 1);
    }
    struct text whole = {memcpy(lent(t.len + 8), t.bytes, t.len), t.len};
    add(&whole, "x:1b}", 1);
    parsed("99,999 keys", whole, 1 << 21, 0, 0, whole.len, 3 + 99999 * 10 + 5 + 1);
    add(&t, "k00001:1b}", 1);
    parsed("one twice", t, 1 << 21, 6, t.len - 10, 0, 0);
}

int main(void)
{
    marked();
    rooms();
    limits();
    keys();
    return report();
}
