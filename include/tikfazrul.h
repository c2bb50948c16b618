/* Tikfazrul: NBT read, written and asked by a proved library. Link libnbt.a (`rt lib` in crates/nbt, or tools/native-staticlib nbt for the processor at hand).
 *
 * Every function takes its slices as a pointer and a number of elements, and fills `answer`, eight words that the caller lends:
 *
 *   [0]  0 where the input is accepted, else the number of the refusal
 *   [1]  the place of the refusal
 *
 * and further words as each function says, of the refusals only in 4 and 24. Words that a function does not name are 0. A null pointer with
 * the number 0 is an empty slice. No function allocates, keeps a pointer or touches memory other than what it is lent, and each answers for
 * every input. Slices that a function is lent to write to must not overlap the others. The stack that a function takes grows with the depth:
 * up to 0.16 MB in reading, writing and asking 512 levels, 0.17 MB in rescuing, and 2.2 MB in parsing, which says more below.
 *
 * The refusals that the functions below give; what is said of a function is said of the one with _in behind its name too:
 *
 *    1  the data ends           the first byte of the field that is not whole
 *    2  the root is no compound 0
 *    3  no such tag id          the id byte
 *    4  a broken string         it is not modified UTF-8 or, in the pocket form, not UTF-8 (02, [2]): where the first sequence that can't be read
 *                               begins (02, [3]), in tikfazrul_write and tikfazrul_convert too, which have the record in [2]: a stray byte or a
 *                               bad lead itself; the lead of one that is cut, overlong or wrongly continued; in modified UTF-8 a zero byte, a
 *                               high half that no low half follows, or a low half that follows none; in UTF-8 any half, and C0 80, which is
 *                               overlong there
 *    5  a count below 0         its first byte
 *    6  a name twice            the id byte of the later entry (tikfazrul_write: the later record; tikfazrul_parse: the later key)
 *    7  over 512 deep           the first payload byte (tikfazrul_write, tikfazrul_query: the record; tikfazrul_parse: the opening brace)
 *    8  the table is full       the first payload byte (tikfazrul_read_lines: the line's number)
 *    9  over a limit            0: a document over 16,777,216 bytes, a table to check, to write, to store or to ask over 9,437,184 words, more
 *                               than 1,048,576 lines, or a text over 1,048,576 bytes
 *   10  no table                0: the words form no table, for which one wrong parent is enough (tikfazrul_write, tikfazrul_convert,
 *                               tikfazrul_write_lines, tikfazrul_lines_up, tikfazrul_lines_down, tikfazrul_query)
 *   11  a mixed list            the record of another kind than its list's first (tikfazrul_parse: the element's token)
 *   12  over 65,535 bytes       the record whose name or string it is, in the document or as tikfazrul_convert would write it
 *                               (tikfazrul_parse: the token)
 *   13  the output is full      0 (tikfazrul_parse: the token whose bytes do not fit)
 *   14  a malformed query       the first byte of the step, as an offset in the query
 *   15  not UTF-8               tikfazrul_check_utf8: the first sequence that can't be read; elsewhere 0, also for a start off a character
 *                               or past the text
 *   16  a quote left open       the token
 *   17  no such escape          its backslash; surrogates are none
 *   18  no number               the token
 *   19  unexpected              the token; in an escape the character that is no hexadecimal digit
 *   20  the text ends           the text's length
 *   21  a trailing comma        the comma
 *   22  an unmatched brace      the opening brace
 *   23  a decimal beyond reach  the token: more digits or a larger power of ten than one rounding can do
 *   24  a list too short        0, with the true number of matches in [2] (tikfazrul_rescue: of lines of changes)
 *   29  a bad line              the line's number, from 1
 *   31  the document is whole   0: there is nothing to rescue
 *   32  the root is cut         the first byte of the field not whole: the root's id, or its name's length or content
 */
#ifndef TIKFAZRUL_H
#define TIKFAZRUL_H

#include <stddef.h>
#include <stdint.h>

#ifdef __cplusplus
extern "C" {
#endif

/* The words of a record in a table, from word TIKFAZRUL_WORDS * n on for record n. Records stand in file order, the root first, and count from
 * 0. Spans count bytes of the document, without length prefixes. A record's parent (02, [7]) is the list or the compound in which it stands, which
 * comes before it, so that a climb ends at the root, whatever record it starts from:
 *
 *   while (n != 0)
 *       n = table[TIKFAZRUL_WORDS * n + TIKFAZRUL_PARENT];
 *
 * That holds of every table. Words from elsewhere, as of lines that were kept, are asked by tikfazrul_is_table first whether they are one. */
enum {
    TIKFAZRUL_KIND = 0,        /* the tag's id, 1 to 12 */
    TIKFAZRUL_NAME = 1,        /* where the name's content begins; 0 for a list's element */
    TIKFAZRUL_NAME_LENGTH = 2, /* in bytes */
    TIKFAZRUL_START = 3,       /* where the payload's content begins; 0 for a list or a compound */
    TIKFAZRUL_LENGTH = 4,      /* in bytes; 0 for a list or a compound */
    TIKFAZRUL_COUNT = 5,       /* children, or elements of an array; else 0 */
    TIKFAZRUL_LIST_KIND = 6,   /* a list's first child's kind; else 0 */
    TIKFAZRUL_END = 7,         /* the number of the first record outside the subtree */
    TIKFAZRUL_PARENT = 8,      /* the parent's number, so 0 for the root's children; 0 in the root, which has none */
    TIKFAZRUL_WORDS = 9
};

/* The form that a document is in (02, [2]): the same tags, laid out alike but for the bytes of numbers and of strings. Any other number means
 * TIKFAZRUL_JAVA, which is also the form of every function that takes none. A table does not know its form, since its words count bytes: whoever
 * writes or asks it states the form that it was read in. */
enum {
    TIKFAZRUL_JAVA = 0,  /* numbers, counts and lengths big-endian; strings in modified UTF-8 */
    TIKFAZRUL_POCKET = 2 /* numbers, counts and lengths little-endian; strings in UTF-8, a zero byte being U+0000 */
};

/* The bytes of a record's line, its line feed among them. */
enum { TIKFAZRUL_LINE = 73 };

/* The words of a record before it had a parent, which are the first eight of today's, and the bytes of its line (02, [8]). */
enum { TIKFAZRUL_OLD_WORDS = 8, TIKFAZRUL_OLD_LINE = 65 };

/* Reads a document into a table of records. Accepted: [2] is the number of bytes consumed, [3] the number of records, and the records' words
 * stand from table[0] on; no other word changes. Refused (1 to 9): every word of the table is 0. The table has room for table_len / 9
 * records, 1,048,576 at the most. */
void tikfazrul_read(const uint8_t *doc, size_t doc_len, uint32_t *table, size_t table_len, uint64_t answer[8]);

/* Reads a document in a form (02, [2]); all else is as in tikfazrul_read, which is this in TIKFAZRUL_JAVA. The words of a record have the same
 * meaning in each form: the payload's span holds the bytes as they stand in the document, so in TIKFAZRUL_POCKET the lowest of a number first. The
 * eight bytes that level files of the pocket edition have before the document are no part of it, and are for the caller to leave out. */
void tikfazrul_read_in(uint32_t form, const uint8_t *doc, size_t doc_len, uint32_t *table, size_t table_len, uint64_t answer[8]);

/* Whether words form a table over a document of doc_len bytes: what tikfazrul_read fills in always does, and words from elsewhere may. [2] is
 * 1 if they do, with the right parent in every record, else 0. Refused: 9. The document itself is not asked for: strings are not looked into. */
void tikfazrul_is_table(size_t doc_len, const uint32_t *table, size_t table_len, uint64_t answer[8]);

/* Writes the document that a table stands for, whose names and payloads lie in `doc`. Accepted: [2] is the number of bytes written, from
 * out[0] on; no other byte changes. Refused (9, 10; then by record 12, 4, 6, 7, 11; 13 last): the output is as it was. In 4 the place is the
 * offset in `doc` at which the sequence begins, and [2] the record whose name, or else string, it stands in, 0 being the root (02, [3]); in
 * every other refusal [2] is 0. The table's words are used while the call lasts; on return each is as it was. An empty list is written as
 * five zero bytes. */
void tikfazrul_write(const uint8_t *doc, size_t doc_len, uint32_t *table, size_t table_len, uint8_t *out, size_t out_len, uint64_t answer[8]);

/* Writes the document that a table stands for in the form that `doc` is in (02, [2]); all else is as in tikfazrul_write, which is this in
 * TIKFAZRUL_JAVA. Names and payloads are judged by that form and copied as they stand; counts and lengths are put in it. */
void tikfazrul_write_in(uint32_t form, const uint8_t *doc, size_t doc_len, uint32_t *table, size_t table_len, uint8_t *out, size_t out_len,
                        uint64_t answer[8]);

/* Writes the document that a table stands for in another form, with all values kept (02, [2]): `from` is the form that `doc` is in, `to` the
 * form that is written; where they are one form, this is tikfazrul_write_in. A string keeps its characters, which may take more bytes or fewer:
 * U+0000 is C0 80 in Java's form and 00 in the pocket edition's, a character above U+FFFF six bytes and four. Integers are the same integers,
 * floats the same bits; an empty list is written as five zero bytes. Accepted: [2] is the number of bytes written, from out[0] on; no other byte
 * changes. Refused (9, 10; then by record 12, 4, 12 of what is written, 6, 7, 11, and 12, 4, 12 of a string; 13 last): the output is as it was.
 * 12's place is the record; 4's is the offset in `doc`, with the record in [2]. The table comes back as in tikfazrul_write. */
void tikfazrul_convert(uint32_t from, uint32_t to, const uint8_t *doc, size_t doc_len, uint32_t *table, size_t table_len, uint8_t *out,
                       size_t out_len, uint64_t answer[8]);

/* Writes a whole document of one that tikfazrul_read_in refuses with 1, cut in transfer: with every tag that was completely read before the
 * cut, in file order and with the value it had. `form` is the one that `doc` is in, and that is written (02, [2]). Containers open at the cut are
 * closed, lists keep the elements they got, and the entry that is cut vanishes with its name; an empty list is five zero bytes. Accepted: [2] is
 * the number of bytes written, from out[0] on, and [3] the number of containers that were open: for each, outermost first, three words from
 * changes[0] on say its record in the new document, the count promised (0 for a compound) and the count kept. No other byte or word of these two
 * changes; doc_len + 512 bytes and 1,536 words are always enough. Refused (what tikfazrul_read_in refuses with 2 to 9, as it does; 31; 32; 24,
 * where [2] is the number of lines; 13): both are as they were. The table is for the read, with room as there, and ends as the read leaves it: the
 * records after 31, else every word 0. */
void tikfazrul_rescue(uint32_t form, const uint8_t *doc, size_t doc_len, uint32_t *table, size_t table_len, uint8_t *out, size_t out_len,
                      uint32_t *changes, size_t changes_len, uint64_t answer[8]);

/* Writes a table as lines, to be kept and read back: for each record its nine words, each as eight digits 0 to 9 and a to f with the highest
 * first, and a line feed; TIKFAZRUL_LINE bytes a record. The document is given by its length alone. Accepted: [2] is the number of bytes written, from
 * out[0] on; no other byte changes. Refused (9, 10, 13): the output is as it was. */
void tikfazrul_write_lines(size_t doc_len, const uint32_t *table, size_t table_len, uint8_t *out, size_t out_len, uint64_t answer[8]);

/* Reads such lines back into a table. Accepted: [2] is the number of records, whose words stand from table[0] on; no other word changes. Zero
 * bytes are accepted, as 0 records. Refused: every word of the table is 0. 9 comes first, above 1,048,576 lines, an unended one counted; then by
 * line, whose number from 1 is the place, 29 where it is anything but 72 such digits and a line feed, and 8 where there is no room: the table has
 * it for table_len / 9 records. Whether the words form a table is not asked: tikfazrul_is_table does, and so does each function that takes one. */
void tikfazrul_read_lines(const uint8_t *lines, size_t lines_len, uint32_t *table, size_t table_len, uint64_t answer[8]);

/* Moves the lines of a table that was kept before records had a parent to lines as tikfazrul_write_lines writes them (02, [8]): from eight words a
 * record, TIKFAZRUL_OLD_LINE bytes, to nine, TIKFAZRUL_LINE bytes, with the parents worked out. doc_len is the length of the document that the table
 * is of, by which its spans are judged. Accepted: [2] is the number of bytes written, from out[0] on; no other byte changes. Refused: the output
 * is as it was. 9 comes first, where the document is too long or there are more than 1,048,576 lines, an unended one counted; then 29 at the
 * first line that is anything but 64 digits, 0 to 9 and a to f, and a line feed, so also at the first that has nine words already; then 10 where
 * the words form no table, as those of no line at all do not; and 13 last. `lines` and `out` must not overlap. The time is linear in the lines,
 * and the stack the same for a table of any depth. */
void tikfazrul_lines_up(size_t doc_len, const uint8_t *lines, size_t lines_len, uint8_t *out, size_t out_len, uint64_t answer[8]);

/* Moves lines the other way, for those who have stayed with eight words: the parents are judged and then dropped. All else is as in
 * tikfazrul_lines_up, but that a line is 29 where it is anything but 72 such digits and a line feed, and that a wrong parent is 10 too, and so is
 * a ninth word of the root other than 0. What the one gives the other takes, and gives the first lines back. */
void tikfazrul_lines_down(size_t doc_len, const uint8_t *lines, size_t lines_len, uint8_t *out, size_t out_len, uint64_t answer[8]);

/* Asks which tags of a table match a query, whose names lie in `doc`. The query is steps, sixteen at the most, one after the other, and says
 * how to come from the root to a tag:
 *
 *   01, a length of two bytes, a name   the entry of a compound so named (big-endian, modified UTF-8, as in a document)
 *   02, an index of four bytes          that element of a list, from 0 (big-endian, not below 0)
 *   03                                  any one child
 *   04                                  zero or more levels, whatever they are
 *
 * No step is the root alone. Accepted: [2] is the number of tags that match, and their record numbers stand from list[0] on, in file order
 * and none twice; no other word changes. Refused (in this order: 9, 10, 7, 14, 24): the list is as it was; in 24 [2] is the number of
 * matches, so that a call with no room asks how much is needed. */
void tikfazrul_query(const uint8_t *doc, size_t doc_len, const uint32_t *table, size_t table_len, const uint8_t *query, size_t query_len,
                     uint32_t *list, size_t list_len, uint64_t answer[8]);

/* Asks the table of a document in a form (02, [2]); all else is as in tikfazrul_query, which is this in TIKFAZRUL_JAVA. A name in the query is in
 * the document's strings, so in TIKFAZRUL_POCKET in UTF-8, and is compared byte by byte; the length before it, and an index, are big-endian in
 * each form. */
void tikfazrul_query_in(uint32_t form, const uint8_t *doc, size_t doc_len, const uint32_t *table, size_t table_len, const uint8_t *query,
                        size_t query_len, uint32_t *list, size_t list_len, uint64_t answer[8]);

/* The sets of characters that stop an unquoted token of a text. Any other number is the default. */
enum {
    TIKFAZRUL_STOPS_DEFAULT = 0, /* {}[],; */
    TIKFAZRUL_STOPS_KEY = 1,     /* : */
    TIKFAZRUL_STOPS_VALUE = 2,   /* ,} */
    TIKFAZRUL_STOPS_FIRST = 3,   /* ,]; a list's first element */
    TIKFAZRUL_STOPS_LATER = 4    /* ,] later elements */
};

/* What a token is. */
enum {
    TIKFAZRUL_TOKEN_END = 0,
    TIKFAZRUL_TOKEN_OPEN_CURLY = 1,
    TIKFAZRUL_TOKEN_CLOSED_CURLY = 2,
    TIKFAZRUL_TOKEN_OPEN_SQUARE = 3,
    TIKFAZRUL_TOKEN_CLOSED_SQUARE = 4,
    TIKFAZRUL_TOKEN_COMMA = 5,
    TIKFAZRUL_TOKEN_COLON = 6,
    TIKFAZRUL_TOKEN_SEMICOLON = 7,
    TIKFAZRUL_TOKEN_STRING = 8, /* unquoted */
    TIKFAZRUL_TOKEN_QUOTED = 9,
    TIKFAZRUL_TOKEN_BYTE = 10,
    TIKFAZRUL_TOKEN_SHORT = 11,
    TIKFAZRUL_TOKEN_INT = 12,
    TIKFAZRUL_TOKEN_LONG = 13,
    TIKFAZRUL_TOKEN_FLOAT = 14,
    TIKFAZRUL_TOKEN_DOUBLE = 15
};

/* The next token of a text (SNBT, UTF-8) from the byte `start` on. Accepted: [2] is what it is, [3] its index in bytes, [4] its width in
 * characters, [5] the next place; [6] the 64 bits of a whole number (two's complement) or of the double that a float or a double token
 * carries, or where a string's content begins, and [7] where that ends (of a quoted string between the quotes, with its escapes). Where only
 * blanks are left, [2] is 0 and [5] the text's length. Refused: 9, 15, then 16, 17, 18, 19, 20, 23. */
void tikfazrul_token(const uint8_t *text, size_t text_len, size_t start, uint32_t stops, uint64_t answer[8]);

/* The content of a string token from `start` up to `end`, in modified UTF-8; its escapes are resolved where `quoted` is not 0. Accepted: [2]
 * is the number of bytes, from out[0] on; no other byte changes. Refused (9; 15, also for a start or an end off a character, past the text
 * or in the wrong order; 17, 19, 20; 13): the output is as it was. A content has at most twice as many bytes as it takes in the text. */
void tikfazrul_content(const uint8_t *text, size_t text_len, size_t start, size_t end, uint8_t quoted, uint8_t *out, size_t out_len,
                       uint64_t answer[8]);

/* The document that a text (SNBT, UTF-8) means, with an empty root name. Accepted: [2] is the number of bytes of the text consumed, through the
 * root's `}`, [3] the document's length, from out[0] on; no other byte changes. What stands behind the root is asked for 9 and 15 only.
 * Refused (9, 15, then at the first token that breaks a rule): every byte of the output is 0. It takes stack by the text's
 * length: 6 kB for 512 bytes of text, 18 kB for 4,096, 0.12 MB for 32,768, 0.42 MB for 262,144, else 1.5 MB; and 1.2 kB more for each
 * level, which is 0.6 MB where a text is 512 deep. */
void tikfazrul_parse(const uint8_t *text, size_t text_len, uint8_t *out, size_t out_len, uint64_t answer[8]);

/* Whether bytes are modified UTF-8 (java.io.DataInput) of Unicode scalar values. Refused: 4, at the offset where the first sequence that
 * can't be read begins. */
void tikfazrul_check_mutf8(const uint8_t *bytes, size_t len, uint64_t answer[8]);

/* Whether bytes are a string of a form (02, [2]): in TIKFAZRUL_JAVA as tikfazrul_check_mutf8 has it; in TIKFAZRUL_POCKET UTF-8. Refused: 4, at the
 * offset where the first sequence that can't be read begins. */
void tikfazrul_check_string(uint32_t form, const uint8_t *bytes, size_t len, uint64_t answer[8]);

/* Whether bytes are UTF-8, as a text is. Refused: 15, at the offset where the first sequence that can't be read begins. */
void tikfazrul_check_utf8(const uint8_t *bytes, size_t len, uint64_t answer[8]);

#ifdef __cplusplus
}
#endif

#endif
