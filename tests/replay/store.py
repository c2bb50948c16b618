#!/usr/bin/env python3
"""Writes the cases of crates/replay_store: stdin has lines to be read back, or a table to be written as lines, stdout what the program must
print.

    tests/replay/store.py crates/replay_store

The answers are worked out by a second reading of 02 [6] with the nine words of [7], below: the bytes are parted at their line feeds and each
line is held to a pattern. Whether words form a table is told by the second check of tables.py, which is written from documents 01 and 02 [7]
alone. What is too large for a line of input is left to tests/ffi/store.c: refusal 9 of more than 1,048,576 lines, and of more records' words
than that.
"""
import random
import re
import struct
import sys

from listing import WIDTH, Refused
from tables import (END, LETTERS, NAME, PARENT, START, TREES, WORDS, chain, flat, is_table, made_up, nudged, planted, some_records,
                    tables_read, with_parent, wrong_columns, wrong_parents)

RECORDS, BYTES = 1048576, 16777216  # what 01 allows
UNTOUCHED = 0xAAAAAAAA
DIGITS = b"0123456789abcdef"
WIDE = 8 * WORDS  # a line's digits
LINE = WIDE + 1  # and its bytes
ROOM, TABLE = 9216, 1152  # what crates/replay_store has room for, in bytes and in words


# ---- the second reading

def parted(text):
    """The lines that bytes are, each with whether a line feed ends it."""
    *ended, rest = text.split(b"\n")
    return [(line, True) for line in ended] + ([(rest, False)] if rest else [])


def read_back(text, words):
    """The words that lines hold, with so many words of table lent."""
    lines = parted(text)
    if len(lines) > RECORDS:
        raise Refused(9, 0)
    table = []
    for number, (line, ended) in enumerate(lines, 1):
        if not ended or not re.fullmatch(b"([0-9a-f]{8}){9}", line):
            raise Refused(29, number)
        if number > words // 9:
            raise Refused(8, number)
        table += struct.unpack(">9I", bytes.fromhex(line.decode()))
    return table


def line_of(record):
    return b"".join(b"%08x" % w for w in record) + b"\n"


def lines_of(words):
    return b"".join(line_of(words[i:i + 9]) for i in range(0, len(words), 9))


def written(size, words, room):
    """The lines of a table over a document of so many bytes."""
    if len(words) > 9 * RECORDS or size > BYTES:
        raise Refused(9, 0)
    if not is_table(size, words):
        raise Refused(10, 0)
    out = lines_of(words)
    if len(out) > room:
        raise Refused(13, 0)
    return out


# ---- cases

class Cases:
    def __init__(self):
        self.lines, self.answers, self.seen, self.put_already = [], [], {}, set()

    def add(self, line, answer, key):
        assert len(line) <= 65536
        if line not in self.put_already:
            self.put_already.add(line)
            self.lines.append(line)
            self.answers.append(answer)
            self.seen[key] = self.seen.get(key, 0) + 1

    def read(self, text, words, expected=None):
        """A reading of these lines into so many words; what it must answer, where that is worked out by hand."""
        assert len(text) <= ROOM and words <= TABLE
        try:
            got = read_back(text, words)
            assert UNTOUCHED not in got and lines_of(got) == text
            said, key, table = f"done {len(got) // 9}", "read", got + [UNTOUCHED] * (words - len(got))
        except Refused as e:
            said, key, table = "refused %d %d" % e.args, "read %d" % e.args[0], [0] * words
        assert expected in (None, said), (text, words, said)
        shown = "".join(" -" if w == UNTOUCHED else f" {w}" for w in table) if any(table) else " zero"
        self.add(f"r {text.hex()} {words}", f"{said}:{shown}", key)

    def write(self, size, words, room, expected=None):
        """A writing of these words over a document of so many bytes; what it must answer, where that is worked out by hand."""
        assert len(words) <= TABLE and room <= ROOM
        try:
            out = written(size, words, room)
            assert read_back(out, len(words)) == words
            said, key = f"done {len(out)}", "written"
        except Refused as e:
            out, said, key = b"", "refused %d %d" % e.args, "write %d" % e.args[0]
        assert expected in (None, said), (size, words, room, said)
        after = out + b"\xAA" * (room - len(out))
        self.add(f"w {size:08x} " + "".join(f"{w:08x}" for w in words) + f" {room}", f"{said}: {after.hex().upper()}", key)


def record(r):
    """Nine words: small ones as a table has them, and any others."""
    return [r.choice([0, 1, r.randrange(16), r.randrange(1 << 24), r.randrange(1 << 32), 0xFFFFFFFF]) for _ in range(WORDS)]


def some_lines(r, n):
    return [line_of(record(r)) for _ in range(n)]


def replaced(text, at, byte):
    return text[:at] + bytes([byte]) + text[at + 1:]


def worked(cases):
    """What the papers say, worked out by hand."""
    one, two = [10, 3, 0, 0, 0, 0, 0, 1, 0], [10, 3, 1, 0, 0, 1, 0, 2, 0, 1, 7, 1, 8, 1, 0, 0, 2, 0]
    root = b"0000000a 00000003 00000000 00000000 00000000 00000000 00000000 00000001 00000000\n".replace(b" ", b"")
    text = b"0000000a 00000003 00000001 00000000 00000000 00000001 00000000 00000002 00000000\n".replace(b" ", b"")
    text += b"00000001 00000007 00000001 00000008 00000001 00000000 00000000 00000002 00000000\n".replace(b" ", b"")
    assert lines_of(one) == root and lines_of(two) == text
    cases.write(4, one, 73, "done 73")
    cases.write(3, one, 73, "done 73")
    cases.write(2, one, 73, "refused 10 0")
    cases.write(10, two, 146, "done 146")
    cases.write(10, two, 145, "refused 13 0")
    cases.write(10, two, 0, "refused 13 0")
    cases.write(10, two, 216, "done 146")
    cases.write(9, two, 146, "done 146")
    cases.write(8, two, 146, "refused 10 0")
    cases.read(root, 9, "done 1")
    cases.read(text, 18, "done 2")
    cases.read(text, 27, "done 2")
    cases.read(text, 17, "refused 8 2")
    cases.read(text, 9, "refused 8 2")
    cases.read(text, 8, "refused 8 1")
    cases.read(text, 0, "refused 8 1")
    cases.read(text[:-1], 18, "refused 29 2")
    cases.read(text[:-1], 9, "refused 29 2")
    cases.read(text[:-1], 0, "refused 8 1")
    cases.read(root + text[:-1], 9, "refused 8 2")
    cases.read(b"f" * 72 + b"\n", 9, "done 1")
    cases.read(b"F" * 72 + b"\n", 9, "refused 29 1")
    cases.read(b"\n", 9, "refused 29 1")
    for words in (0, 1, 8, 9, 10, 45):
        cases.read(b"", words, "done 0")


def of_digits(r, cases):
    """Every digit at every place of a word, in the words of both halves of a line."""
    for turn in range(16):
        cases.read((5 * (DIGITS[turn:] + DIGITS[:turn]))[:WIDE] + b"\n", 9, "done 1")
    for digit in b"0123456789bcdef":
        cases.read(bytes([digit]) * WIDE + b"\n", 9, "done 1")
    for at in range(WIDE):  # a digit alone among zeros
        cases.read(replaced(b"0" * WIDE + b"\n", at, r.choice(b"89abcdef")), 10, "done 1")
    for words in ([0] * 9, [0xFFFFFFFF] * 9, [0, 0xFFFFFFFF] * 4 + [0], [1 << n for n in range(0, 32, 4)] + [7], [0x7FFFFFFF, 0x80000000] * 4 + [1]):
        cases.read(line_of(words), 9, "done 1")
        cases.read(line_of(words) * 3, 29, "done 3")


def of_bytes(r, cases):
    """Bytes beside the digits' ranges at every place of a line, the line feed's too, and every byte at some places."""
    beside = b"\x2F\x3A\x40\x47\x60\x67\x00\xFF"
    for at in range(LINE):
        for byte in beside if at % 32 in (0, 7, 8, 31) else r.sample(beside, 3):
            cases.read(replaced(some_lines(r, 1)[0], at, byte), r.choice([8, 9, 18]), "refused 29 1")
    for byte in range(256):
        cases.read(replaced(some_lines(r, 1)[0], r.randrange(WIDE), byte), 9)
        if byte % 5 == 0:
            cases.read(replaced(some_lines(r, 1)[0], WIDE, byte), 9)
    for byte in b"\x2F\x3A\x40\x41\x46\x47\x60\x67\x00\xFF \t\r\n":  # in a later line
        for at in (0, 7, 8, 31, 32, 56, 63, 64, WIDE - 1, WIDE):
            lines = some_lines(r, 2)
            cases.read(lines[0] + replaced(lines[1], at, byte), 18, "refused 29 2" if byte != 10 or at < WIDE else None)


def of_widths(r, cases):
    """Lines that are too short or too long, and what else is no line, first, in the middle, last and alone."""
    line, other = some_lines(r, 2)
    digits = line[:-1]
    for bad in [
        b"\n", b"\n\n", b"0\n", digits[1:] + b"\n", digits[:-1] + b"\n", b"0" + line, digits + b"0\n",  # empty, a digit short or long
        digits[:-8] + b"\n", digits[8:] + b"\n", digits + b"00000000\n", b"00000000" + line,  # eight words, ten words
        digits + other, digits + b"0" + other, digits * 3 + b"\n", digits * 20 + b"\n",  # a line feed left out, or a digit in its place
        digits[:32] + b"\n" + digits[32:] + b"\n", digits[:32] + b"\n" + digits[32:-1] + b"\n",  # one put in, or in a digit's place
        b"\n" + digits + b"\n", digits[:-1] + b"\n\n", digits + b"\n\n", b"\n" * LINE,
        b" " + line, b" " + line[1:], digits + b" \n", digits[:-1] + b" \n", b"\t" + line, digits + b"\t\n",  # blanks before and behind
        b" ".join(digits[i:i + 8] for i in range(0, WIDE, 8)) + b"\n", digits[:8] + b" " + digits[9:] + b"\n",  # and between
        digits[:8] + b" " + digits[8:] + b"\n",
        digits + b"\r\n", digits[:-1] + b"\r\n", digits + b"\n\r", digits + b"\r", b"\r\n", b"\r",  # carriage returns
        b"0x" + digits[2:] + b"\n", b"+" + digits[1:] + b"\n", b"-" + digits[1:] + b"\n", digits[:31] + b"_" + digits[32:] + b"\n",
        b"\xEF\xBB\xBF" + line, digits + b"\x0B\n", digits + b"\x0C\n", digits + b"\0\n", digits + b"\xC2\x85", digits + b"\xE2\x80\xA8",
        bytes([0xEF, 0xBC, 0x90]) + digits[3:] + b"\n", "٠".encode() + digits[2:] + b"\n",  # digits of other scripts
        bytes(WIDE) + b"\n", bytes(LINE), b"\xFF" * WIDE + b"\n",
        b"\n" + digits, digits + b"0", digits, digits[:-1], digits[:1], b"g", b" ", b"\t",  # unended ones
    ]:
        for text in (bad, bad + line, line + bad + other):
            cases.read(text, 9 * len(parted(text)))
        cases.read(line + bad, 9)


def of_capitals(r, cases):
    """One capital among the digits, all of them, and a line in both cases."""
    for at in range(WIDE):
        line = replaced(some_lines(r, 1)[0], at, r.choice(b"abcdef"))
        cases.read(line, 9, "done 1")
        cases.read(replaced(line, at, line[at] - 32), 9, "refused 29 1")
    for _ in range(12):
        text = b"".join(some_lines(r, r.randrange(1, 4)))
        cases.read(text.upper(), 27)
        cases.read(text, 27)


def of_cuts(r, cases):
    """Lines cut at every byte of the last one, with room for all, and for none of that."""
    for whole in (0, 2):
        text = b"".join(some_lines(r, whole + 1))
        for left in range(LINE * whole + 1, LINE * whole + LINE):
            cases.read(text[:left], 9 * whole + 9, f"refused 29 {whole + 1}")
            if r.randrange(4) == 0:
                cases.read(text[:left], 9 * whole, f"refused 29 {whole + 1}")
                cases.read(text[:left - 1] + b"x", 9 * whole + 9, f"refused 29 {whole + 1}")
                cases.read(text[:left] + b"\n", 9 * whole + 9, "refused 29 %d" % (whole + 1) if left % LINE != WIDE else None)


def of_rooms(r, cases):
    """Every room around every number of lines, with no bad line or one: the earlier of 29 and 8, and 29 where they meet."""
    for n in range(1, 5):
        for bad in range(n + 1):
            for words in sorted({0, 1, 8, 8 * n, 9 * n - 9, 9 * n - 1, 9 * n, 9 * n + 1, 9 * n + 8, 9 * n + 9, *range(9, 9 * n, 9)}):
                lines, full = some_lines(r, n), words // 9 + 1  # the first line that has no room
                if bad:
                    line = lines[bad - 1]
                    lines[bad - 1] = r.choice([replaced(line, r.randrange(LINE), r.choice(b" G:/`g")), b"\n", line[1:], b"0" + line])
                expected = f"refused 29 {bad}" if 0 < bad <= full else f"refused 8 {full}" if full <= n else f"done {n}"
                cases.read(b"".join(lines), words, expected)
    for n in (1, 3):  # the last one unended
        for words in range(0, 9 * n + 10, 4):
            text = b"".join(some_lines(r, n))[:-1]
            cases.read(text, words, f"refused 29 {n}" if words // 9 >= n - 1 else f"refused 8 {words // 9 + 1}")
    many = some_lines(r, 40)
    cases.read(b"".join(many), TABLE, "done 40")
    cases.read(b"".join(many), 9 * 40 - 1, "refused 8 40")
    cases.read(b"".join(many), 8 * 40, "refused 8 36")
    cases.read(b"".join(many)[:-1], 9 * 40, "refused 29 40")
    cases.read(b"".join(many[:30]) + b"\n" + many[30], 9 * 40, "refused 29 31")
    cases.read(b"\n" * 1000, 90, "refused 29 1")


def of_old_lines(r, cases):
    """Lines of eight words, as they were before [7], are 29 at the first of them: alone, first, in the middle, last, and all."""
    def old(line):
        return line[:-9] + b"\n"

    for n in range(1, 6):
        for place in range(1, n + 1):
            lines = some_lines(r, n)
            lines[place - 1] = old(lines[place - 1])
            cases.read(b"".join(lines), 9 * n, f"refused 29 {place}")
            cases.read(b"".join(lines), 9 * place - 9, f"refused 29 {place}")
            if place > 1:
                cases.read(b"".join(lines), 9 * place - 10, f"refused 8 {place - 1}")
        cases.read(b"".join(map(old, some_lines(r, n))), 8 * n, "refused 29 1")
    for rows in [*map(planted, TREES), *(chain(n, 9) for n in (1, 2, 8, 9, 18))]:
        cases.read(b"".join(line_of(row[:PARENT]) for row in rows), 9 * len(rows), "refused 29 1")
        cases.read(b"".join(line_of(row) for row in rows), 9 * len(rows), f"done {len(rows)}")
        cases.read(b"".join(line_of(row) for row in rows), 8 * len(rows), f"refused 8 {8 * len(rows) // 9 + 1}")


def mutated(r, text):
    """One or two changes to lines."""
    for _ in range(r.choice([1, 1, 1, 2])):
        at = r.randrange(len(text) + 1)
        feed = text.find(b"\n", r.randrange(len(text) or 1))
        letters = [i for i, b in enumerate(text) if b in b"abcdef"]
        way = r.randrange(10)
        if way == 0:  # another byte, or another digit
            text = replaced(text, at, r.choice([r.randrange(256), r.choice(DIGITS)])) if at < len(text) else text
        elif way == 1:
            text = text[:at] + bytes([r.choice(DIGITS + b"\n \r")]) + text[at:]
        elif way == 2:
            text = text[:at] + text[at + 1:]
        elif way == 3:
            text = text[:at]
        elif way == 4 and letters:
            at = r.choice(letters)
            text = replaced(text, at, text[at] - 32)
        elif way == 5 and feed >= 0:
            text = text[:feed] + r.choice([b"", b"\r\n", b"\n\n", b" \n", b"0", b"\r", b"\0"]) + text[feed + 1:]
        elif way == 6 and 0 < at < len(text):  # two neighbours changed over
            text = text[:at - 1] + text[at:at + 1] + text[at - 1:at] + text[at + 1:]
        elif way == 7:  # a piece twice, or left out
            text = text[:at] + text[at + r.choice([-LINE, -WIDE, -8, 8, WIDE, LINE]):] if at > LINE else text[LINE:]
        elif way == 8:
            text += r.choice([b"\n", b" ", b"0", b"\0", *some_lines(r, 1)])
        elif way == 9:
            text = r.choice([b"\n", b" ", b"0", b"#\n", *some_lines(r, 1)]) + text
    return text


def mutations(r, cases):
    for _ in range(500):
        n = r.choice([1, 1, 1, 2, 2, 4])
        cases.read(mutated(r, b"".join(some_lines(r, n))), 9 * n + r.choice([-9, -1, 0, 0, 0, 3, 9, 18]))


def around(cases, size, words):
    """A writing with just enough room, one byte less and more; then the lines read back."""
    need = LINE * (len(words) // 9)
    good = is_table(size, words)
    cases.write(size, words, need, f"done {need}" if good else "refused 10 0")
    cases.write(size, words, need - 1, "refused 13 0" if good else "refused 10 0")
    cases.write(size, words, need + 7, f"done {need}" if good else "refused 10 0")
    if good and UNTOUCHED not in words:
        cases.read(lines_of(words), len(words), f"done {len(words) // 9}")
        cases.read(lines_of(words), len(words) + 5, f"done {len(words) // 9}")


def of_documents(r, cases):
    """Tables as they are read, each with rooms around what it needs, a document that is too short, and words that are no table."""
    for doc, rows in tables_read(r, 30, 8):
        words = flat(rows)
        around(cases, len(doc), words)
        need = LINE * len(rows)
        least = next(size for size in range(len(doc) + 1) if is_table(size, words))
        cases.write(least, words, need, f"done {need}")
        if least:
            cases.write(least - 1, words, need, "refused 10 0")
            cases.write(0, words, 0, "refused 10 0")
        cases.write(len(doc), words, r.choice([0, LINE - 1, need - LINE, need // 2]), "refused 13 0")
        cases.write(len(doc), words[:-r.randrange(1, 9)], need, "refused 10 0")
        cases.write(len(doc), words + words[:r.randrange(1, 10)], need + LINE, "refused 10 0")
        for _ in range(4):
            changed = nudged(r, rows)
            cases.write(len(doc), changed, r.choice([0, need - 1, need, need + 1]))


def of_made_up(r, cases):
    """Tables that no reader made: strings are not asked, nor names that stand twice, nor lists of one kind."""
    for _ in range(40):
        doc = bytes(r.randrange(256) for _ in range(r.choice([8, 20, 60])))
        rows = made_up(r, doc, r.randrange(2) == 0)
        if len(rows) <= 6:
            around(cases, len(doc), flat(rows))
            cases.write(len(doc), nudged(r, rows), LINE * len(rows))


def each_word(cases):
    """One word of a small table changed by one, up and down, or to others."""
    rows = [[10, 0, 1, 0, 0, 3, 0, 5, 0], [9, 1, 1, 0, 0, 1, 3, 3, 0], [3, 0, 0, 4, 4, 0, 0, 3, 1], [8, 2, 1, 3, 2, 0, 0, 4, 0],
            [11, 3, 1, 0, 8, 2, 0, 5, 0]]
    around(cases, 9, flat(rows))
    for at in range(45):
        for make in (lambda w: w + 1, lambda w: w - 1, lambda w: 0, lambda w: 0xFFFFFFFF):
            words = flat(rows)
            words[at] = make(words[at]) % 2**32
            cases.write(9, words, 365 if is_table(9, words) else 3)
    for kind in range(14):  # a leaf or an empty container of each kind in the root, as it must be and not
        width = WIDTH.get(kind, 0)
        for count, length in ((0, 0), (0, width), (1, width), (2, 2 * width), (1, width + 1)):
            cases.write(20, [10, 0, 0, 0, 0, 1, 0, 2, 0, kind, 1, 1, 0, length, count, 0, 2, 0], 146)


def of_limits(cases):
    """9 before 10 before 13; the largest document, and spans at its end."""
    root = [10, 3, 0, 0, 0, 0, 0, 1, 0]
    at_end = [10, BYTES - 1, 1, 0, 0, 0, 0, 1, 0]
    for size, words, room, expected in [
        (BYTES, root, 73, "done 73"), (BYTES, root, 72, "refused 13 0"), (BYTES - 1, root, 73, "done 73"),
        (BYTES + 1, root, 73, "refused 9 0"), (BYTES + 1, root, 72, "refused 9 0"), (BYTES + 1, root, 0, "refused 9 0"),
        (BYTES + 1, [], 73, "refused 9 0"), (BYTES + 1, root[:8], 73, "refused 9 0"), (BYTES + 1, [0] * 9, 0, "refused 9 0"),
        (BYTES + 2, root, 73, "refused 9 0"), (2**31, root, 73, "refused 9 0"), (2**32 - 1, root, 73, "refused 9 0"),
        (BYTES, at_end, 73, "done 73"), (BYTES, at_end, 0, "refused 13 0"),
        (BYTES - 1, at_end, 73, "refused 10 0"), (BYTES - 1, at_end, 0, "refused 10 0"),
        (BYTES, [10, BYTES, 0, 0, 0, 0, 0, 1, 0], 78, "done 73"), (BYTES, [10, BYTES, 1, 0, 0, 0, 0, 1, 0], 78, "refused 10 0"),
        (BYTES, [10, 2**32 - 1, 2, 0, 0, 0, 0, 1, 0], 73, "refused 10 0"), (BYTES, [10, 2, 2**32 - 1, 0, 0, 0, 0, 1, 0], 73, "refused 10 0"),
        (BYTES, [10, 0, BYTES, 0, 0, 0, 0, 1, 0], 73, "done 73"), (0, [10, 0, 1, 0, 0, 0, 0, 1, 0], 73, "refused 10 0"),
        (0, [10, 0, 0, 0, 0, 0, 0, 1, 0], 73, "done 73"), (0, [10, 0, 0, 0, 0, 0, 0, 1, 0], 72, "refused 13 0"),
        (0, [], 0, "refused 10 0"), (0, [], 73, "refused 10 0"), (0, [0] * 9, 73, "refused 10 0"), (0, [0xFFFFFFFF] * 9, 73, "refused 10 0"),
        (4, root * 2, 146, "refused 10 0"), (4, root * 2, 0, "refused 10 0"), (4, [9] + root[1:], 73, "refused 10 0"),
    ]:
        cases.write(size, words, room, expected)
    for n in (*range(1, 9), *range(10, 18)):  # no multiple of nine words
        cases.write(4, (root * 2)[:n], 146, "refused 10 0")
        cases.write(4, (root * 2)[:n], 0, "refused 10 0")
    deep = 30  # one in the other
    rows = chain(deep, 10)
    around(cases, 0, flat(rows))
    rows[-1][END] += 1
    cases.write(0, flat(rows), LINE * deep, "refused 10 0")
    wide = [[10, 0, 0, 0, 0, 29, 0, 30, 0]] + [[1, i, 2, i, 1, 0, 0, i + 1, 0] for i in range(1, 30)]
    around(cases, 31, flat(wide))
    wide[29][NAME:START] = [31, 1]
    cases.write(31, flat(wide), LINE * 30, "refused 10 0")


def of_parents(cases):
    """A wrong parent (02, [7]) is 10, before 13 and after 9; lines that hold it are read back as any others are."""
    for rows in map(planted, TREES):
        n = len(rows)
        around(cases, len(LETTERS), flat(rows))
        bad = [with_parent(rows, i, wrong) for i in some_records(rows) for wrong in wrong_parents(rows, i)]
        bad += [flat(row[:PARENT] + [p] for row, p in zip(rows, column)) for column in wrong_columns(rows)]
        for number, words in enumerate(bad):
            cases.write(len(LETTERS), words, LINE * n if number % 5 == 0 else 3, "refused 10 0")
            if number % 5 == 0:
                cases.read(lines_of(words), 9 * n, f"done {n}")
        cases.write(len(LETTERS), bad[0], 0, "refused 10 0")
        cases.write(BYTES + 1, bad[0], LINE * n, "refused 9 0")


def of_lengths(cases):
    """Words of eight to a record, as there were before [7], and ten; of nine records these are a multiple of 9. Then multiples of 8."""
    for rows in [*map(planted, TREES), *(chain(n, kind) for n in (1, 2, 8, 9, 10, 18) for kind in (9, 10))]:
        for words in (flat(row[:PARENT] for row in rows), flat(row + [0] for row in rows)):
            cases.write(len(LETTERS), words, LINE * len(rows), "refused 10 0")
    words = flat(planted(TREES[1]))
    for n in range(8, len(words), 8):
        cases.write(len(LETTERS), words[:n], LINE * 8, "refused 10 0")


def main(folder):
    r = random.Random(20261116)
    cases = Cases()
    worked(cases)
    of_digits(r, cases)
    of_bytes(r, cases)
    of_widths(r, cases)
    of_capitals(r, cases)
    of_cuts(r, cases)
    of_rooms(r, cases)
    of_old_lines(r, cases)
    mutations(r, cases)
    of_documents(r, cases)
    of_made_up(r, cases)
    each_word(cases)
    of_limits(cases)
    of_parents(cases)
    of_lengths(cases)
    for key, least in {"read": 300, "read 8": 50, "read 29": 1000, "written": 150, "write 9": 8, "write 10": 200, "write 13": 80}.items():
        assert cases.seen.get(key, 0) >= least, (key, cases.seen)
    open(folder + "/stdin", "w", newline="").write("\n".join(cases.lines) + "\n")
    open(folder + "/stdout", "w", newline="").write("\n".join(cases.answers) + "\n")
    print(len(cases.lines), "cases:", ", ".join(f"{k} {v}" for k, v in sorted(cases.seen.items())))


if __name__ == "__main__":
    main(sys.argv[1])
