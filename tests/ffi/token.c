/* Reads tokens and contents from C: the marked records of 01, every refusal of rules 10 to 13, and the limit of a text. See tests/ffi/run. */
#include "expect.h"

struct wanted {
    uint64_t kind, index, width, next, first, second;
};

/* Lexes, and checks every word of the answer. */
static void token_is(const char *text, size_t start, uint32_t stops, struct wanted w)
{
    uint64_t a[8], b[8] = {0, 0, w.kind, w.index, w.width, w.next, w.first, w.second};
    memset(a, 0xAB, sizeof a);
    tikfazrul_token((const uint8_t *)text, strlen(text), start, stops, a);
    expect(text, !memcmp(a, b, sizeof a));
}

static void refused(const char *text, size_t start, uint32_t stops, uint64_t number, uint64_t place)
{
    uint64_t a[8];
    memset(a, 0xAB, sizeof a);
    tikfazrul_token((const uint8_t *)text, strlen(text), start, stops, a);
    expect(text, answers(a, number, place, 0, 0));
}

/* A content, and every byte of an output with so much room. */
static void content_is(const char *text, size_t start, size_t end, uint8_t quoted, size_t room, const char *bytes, uint64_t number, uint64_t place)
{
    size_t n = number ? 0 : strlen(bytes);
    uint8_t *out = lent(room + 1);
    uint64_t a[8];
    memset(out, 0xAA, room);
    memset(a, 0xAB, sizeof a);
    tikfazrul_content((const uint8_t *)text, strlen(text), start, end, quoted, out, room, a);
    int kept = 1;
    for (size_t i = n; i < room; i++)
        kept = kept && out[i] == 0xAA;
    expect(text, answers(a, number, place, n, 0) && kept && !memcmp(out, bytes ? bytes : "", n));
    free(out);
}

static void tokens(void)
{
    token_is("a\\,b", 0, TIKFAZRUL_STOPS_LATER, (struct wanted){TIKFAZRUL_TOKEN_STRING, 0, 1, 2, 0, 1});
    token_is("\"\\u0041\"", 0, TIKFAZRUL_STOPS_DEFAULT, (struct wanted){TIKFAZRUL_TOKEN_QUOTED, 0, 8, 8, 1, 7});
    token_is("+5", 0, TIKFAZRUL_STOPS_DEFAULT, (struct wanted){TIKFAZRUL_TOKEN_STRING, 0, 2, 2, 0, 2});
    token_is("1.f", 0, TIKFAZRUL_STOPS_DEFAULT, (struct wanted){TIKFAZRUL_TOKEN_FLOAT, 0, 3, 3, 0x3FF0000000000000, 0});
    token_is("0.1", 0, TIKFAZRUL_STOPS_DEFAULT, (struct wanted){TIKFAZRUL_TOKEN_DOUBLE, 0, 3, 3, 0x3FB999999999999A, 0});
    token_is("-0d", 0, TIKFAZRUL_STOPS_DEFAULT, (struct wanted){TIKFAZRUL_TOKEN_DOUBLE, 0, 3, 3, 0, 0});
    token_is("-1b", 0, TIKFAZRUL_STOPS_DEFAULT, (struct wanted){TIKFAZRUL_TOKEN_BYTE, 0, 3, 3, UINT64_MAX, 0});
    token_is(" {a:b}", 2, TIKFAZRUL_STOPS_KEY, (struct wanted){TIKFAZRUL_TOKEN_STRING, 2, 1, 3, 2, 3});
    token_is("a:b}", 0, TIKFAZRUL_STOPS_VALUE, (struct wanted){TIKFAZRUL_TOKEN_STRING, 0, 3, 3, 0, 3});
    token_is("B;1b", 0, TIKFAZRUL_STOPS_FIRST, (struct wanted){TIKFAZRUL_TOKEN_STRING, 0, 1, 1, 0, 1});
    token_is("a{b", 0, 99, (struct wanted){TIKFAZRUL_TOKEN_STRING, 0, 1, 1, 0, 1});
    token_is("a  ", 1, TIKFAZRUL_STOPS_DEFAULT, (struct wanted){TIKFAZRUL_TOKEN_END, 0, 0, 3, 0, 0});
    for (uint64_t i = 0; i < 7; i++) {
        char sign[2] = {"{}[],:;"[i], 0};
        token_is(sign, 0, TIKFAZRUL_STOPS_DEFAULT, (struct wanted){i + 1, 0, 1, 1, 0, 0});
    }
    refused("\xC3", 0, 0, 15, 0);
    refused("a", 2, 0, 15, 0);
    refused("\xC3\xA9", 1, 0, 15, 0);
    refused(" 'a", 0, 0, 16, 1);
    refused("'a\\x'", 0, 0, 17, 2);
    refused("1e5", 0, 0, 18, 0);
    refused("-", 0, 0, 18, 0);
    refused("1.", 0, 0, 18, 0);
    refused("'\\u00g0'", 0, 0, 19, 5);
    refused("'\\u00", 0, 0, 20, 5);
    refused(" 9007199254740993.0", 0, 0, 23, 1);
}

static void contents(void)
{
    content_is("'\\u0041'", 1, 7, 1, 1, "A", 0, 0);
    content_is("'\\u0041'", 1, 7, 0, 9, "\\u0041", 0, 0);
    content_is("'\\u0000'", 1, 7, 1, 3, "\xC0\x80", 0, 0);
    content_is("\xF0\x9F\x98\x80", 0, 4, 0, 6, "\xED\xA0\xBD\xED\xB8\x80", 0, 0);
    content_is("\xF0\x9F\x98\x80", 0, 4, 0, 5, NULL, 13, 0);
    content_is("\xF0\x9F\x98\x80", 0, 3, 0, 9, NULL, 15, 0);
    content_is("abc", 2, 1, 0, 9, NULL, 15, 0);
    content_is("abc", 0, 4, 0, 9, NULL, 15, 0);
    content_is("a\\", 0, 2, 1, 9, NULL, 17, 1);
    content_is("\\u12", 0, 4, 1, 9, NULL, 20, 4);
    content_is("\\u12x4", 0, 6, 1, 9, NULL, 19, 4);
    content_is("\\ud800", 0, 6, 1, 9, NULL, 17, 0);
}

/* A text of 1,048,576 bytes is one token; one byte more is over the limit. */
static void limits(void)
{
    size_t n = 1048576;
    uint8_t *text = lent(n + 1), *out = lent(n);
    uint64_t a[8];
    memset(text, 'x', n + 1);
    tikfazrul_token(text, n, 0, TIKFAZRUL_STOPS_DEFAULT, a);
    expect("the longest text", a[0] == 0 && a[2] == TIKFAZRUL_TOKEN_STRING && a[4] == n && a[5] == n && a[6] == 0 && a[7] == n);
    tikfazrul_content(text, n, 0, n, 1, out, n, a);
    expect("its content", answers(a, 0, 0, n, 0) && !memcmp(text, out, n));
    tikfazrul_token(text, n + 1, 0, TIKFAZRUL_STOPS_DEFAULT, a);
    expect("a text too long", answers(a, 9, 0, 0, 0));
    tikfazrul_content(text, n + 1, 0, 1, 0, out, n, a);
    expect("its content", answers(a, 9, 0, 0, 0));
    tikfazrul_token(NULL, 0, 0, TIKFAZRUL_STOPS_DEFAULT, a);
    expect("no text", a[0] == 0 && a[2] == TIKFAZRUL_TOKEN_END && a[5] == 0);
    free(text);
    free(out);
}

int main(void)
{
    tokens();
    contents();
    limits();
    return report();
}
