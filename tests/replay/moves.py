#!/usr/bin/env python3
"""Writes the cases of crates/replay_moves: stdin has stored lines to be moved up or down between editions, stdout what the program must
print.

    tests/replay/moves.py crates/replay_moves

The answers are worked out by a second reading of 02 [8], below. It judges rule 7 by the counts: records are taken in file order, and each
container stays open until it has as many children as it counts; an end word is only held to where its record was closed. tables.py goes by
the end words instead, and each judgement here is held to that one. Each accepted move is moved back as a case of its own. What is too large
for a line of input is left to the C and Rust tests: refusal 9 of more than 1,048,576 lines, and trees deeper than the one of 600 here.
"""
import itertools
import random
import re
import sys

import store
from listing import WIDTH, Refused
from store import BYTES, RECORDS, line_of, mutated, parted
from tables import (COUNT, END, KIND, LENGTH, LIST_KIND, NAME, PARENT, START, TREES, THEIR_PARENTS, agrees, flat, is_table,
                    made_up, nudged, parents, planted, rows_of, tables_read, wrong_columns, wrong_parents)

UP, DOWN = "u", "d"
WAYS = (UP, DOWN)
WORDS = {UP: 8, DOWN: 9}  # of a line that is read
BACK = {UP: DOWN, DOWN: UP}
ROOM = 65536  # what crates/replay_moves has room for, in bytes
HUGE = 0xFFFFFFFF


# ---- the second reading

def taken(size, text, words):
    """The records that lines of so many words hold."""
    lines = parted(text)
    if size > BYTES or len(lines) > RECORDS:
        raise Refused(9, 0)
    for number, (line, ended) in enumerate(lines, 1):
        if not ended or not re.fullmatch(b"[0-9a-f]{%d}" % (8 * words), line):
            raise Refused(29, number)
    return [[int(line[8 * k:8 * k + 8], 16) for k in range(words)] for line, _ in lines]


def itself(size, row, element):
    """Whether a record agrees with rules 4 and 6 as far as it can be told from its own words and whether it is a list's element."""
    kind, name, name_length, start, length, count, list_kind, _ = row
    if name + name_length > size or element and (name or name_length):
        return False
    if kind in (9, 10):
        return start == length == 0 and (list_kind == 0 or kind == 9 and count > 0)
    if kind == 8:
        fits = count == 0
    elif kind in (7, 11, 12):
        fits = length == count * WIDTH[kind]
    else:
        fits = length == WIDTH.get(kind, -1) and count == 0
    return fits and start + length <= size and list_kind == 0


def grown(size, rows):
    """The parent of each record of eight words, and 0 in the root; None where the words form no table."""
    out, opened = [], []  # opened: the containers that are not whole yet, each with the number of children to come
    for i, row in enumerate(rows):
        if (i > 0) != bool(opened):  # something behind the root
            return None
        parent = opened[-1][0] if opened else 0
        in_list = i > 0 and rows[parent][KIND] == 9
        if not itself(size, row, in_list) or in_list and i == parent + 1 and rows[parent][LIST_KIND] != row[KIND]:
            return None
        out.append(parent)
        if opened:
            opened[-1][1] -= 1
        opened.append([i, row[COUNT] if row[KIND] in (9, 10) else 0])
        while opened and opened[-1][1] == 0:
            if rows[opened.pop()[0]][END] != i + 1:
                return None
    return out if rows and rows[0][KIND] == 10 and not opened else None


def compared(size, rows, right):
    """Holds a judgement to that of tables.py."""
    wide = [row[:PARENT] + [0] for row in rows]
    fair = rows and wide[0][KIND] == 10 and wide[0][END] == len(rows) and agrees(size, wide, 0, len(rows), False)
    assert (right is not None) == bool(fair), rows
    if fair:
        assert right == parents(wide) and is_table(size, flat(row[:PARENT] + [p] for row, p in zip(rows, right)))
    if rows and len(rows[0]) > PARENT:
        assert is_table(size, flat(rows)) == (right == [row[PARENT] for row in rows])


def moved(way, size, text, room):
    """The lines that lines become, over a document of so many bytes."""
    rows = taken(size, text, WORDS[way])
    right = grown(size, [row[:PARENT] for row in rows])
    compared(size, rows, right)
    if right is None or way == DOWN and right != [row[PARENT] for row in rows]:
        raise Refused(10, 0)
    out = b"".join(line_of(row + [p] if way == UP else row[:PARENT]) for row, p in zip(rows, right))
    if len(out) > room:
        raise Refused(13, 0)
    return out


# ---- cases

def line_size(way):
    """The bytes of a line that is read."""
    return 8 * WORDS[way] + 1


def lines(way, rows):
    """Records as lines that this way reads."""
    return b"".join(line_of(row[:WORDS[way]]) for row in rows)


def spelt(text):
    return text.replace(b"\n", b"/").decode()


def shortened(text):
    """Lines spelt out with a letter for eight zeros, and one for seven."""
    return spelt(text).replace("0" * 8, "z").replace("0" * 7, "s")


class Cases(store.Cases):
    def move(self, way, size, text, expected=None, room=None, more=0, plain=True):
        """A move of these lines, with just enough room where none is given, or so much more; what it must answer, where that is worked out
        by hand. Lines are spelt out where they can be and `plain` doesn't forbid it."""
        if room is None:
            room = max(0, line_size(BACK[way]) * len(parted(text)) + more)
        try:
            out = moved(way, size, text, room)
            assert moved(BACK[way], size, out, len(text)) == text
            said, key = f"done {len(out)}", f"{way} done"
        except Refused as e:
            out, said, key = b"", "refused %d %d" % e.args, f"{way} {e.args[0]}"
        assert expected in (None, said), (way, size, text[:999], room, said)
        plain = plain and bool(re.fullmatch(rb"[!-.0-r{-~\n]*", text))  # no blank, slash or small letter behind r
        letter, body = (way.upper(), shortened(text)) if plain else (way, text.hex())
        left = room - len(out)
        shown = spelt(out) + "-" * left if plain else (out + b"\xAA" * left).hex().upper()
        line = f"{letter} {size:08x} {body} {room}"
        assert len(text) <= ROOM and room <= ROOM
        if line not in self.put_already:
            self.add(line, f"{said}: {shown if out else 'kept'}", key)
            if out:
                self.move(BACK[way], size, out, f"done {len(text)}")

    def both(self, size, rows, good, more=0):
        """A move each way of records with their parents, of which it is known beforehand whether they form a table, or None."""
        for way in WAYS:
            done = f"done {line_size(BACK[way]) * len(rows)}"
            self.move(way, size, lines(way, rows), done if good else "refused 10 0" if good is False else None, more=more)


def furnished(tree):
    """The table of a tree of any kinds, as `planted` has one of bytes: arrays of two elements, strings of five bytes."""
    rows = planted(tree)
    for row in rows:
        kind = row[KIND]
        if kind not in (9, 10):
            row[LENGTH] = 5 if kind == 8 else 2 * WIDTH[kind] if kind in (7, 11, 12) else WIDTH[kind]
            row[COUNT] = 2 if kind in (7, 11, 12) else 0
    return rows


def with_word(rows, i, word, value):
    out = [row[:] for row in rows]
    out[i][word] = value % 2**32
    return out


def worked(r, cases):
    """What the papers say, worked out by hand."""
    root = b"0000000a 00000003 00000000 00000000 00000000 00000000 00000000 00000001".replace(b" ", b"")
    first = b"0000000a 00000003 00000001 00000000 00000000 00000001 00000000 00000002".replace(b" ", b"")
    second = b"00000001 00000007 00000001 00000008 00000001 00000000 00000000 00000002".replace(b" ", b"")
    old, new = first + b"\n" + second + b"\n", first + b"00000000\n" + second + b"00000000\n"
    for plain in (True, False):
        for size, said in ((3, "done 73"), (4, "done 73"), (2, "refused 10 0")):
            cases.move(UP, size, root + b"\n", said, plain=plain)
            cases.move(DOWN, size, root + b"00000000\n", said.replace("73", "65"), plain=plain)
        for room, up, down in ((0, 13, 13), (129, 13, 13), (130, 13, 0), (145, 13, 0), (146, 0, 0), (150, 0, 0)):
            cases.move(UP, 10, old, "refused 13 0" if up else "done 146", room, plain=plain)
            cases.move(DOWN, 10, new, "refused 13 0" if down else "done 130", room, plain=plain)
        for way, text in ((UP, old), (DOWN, new)):
            cases.move(way, 9, text, "done 146" if way == UP else "done 130", plain=plain)
            cases.move(way, 8, text, "refused 10 0", plain=plain)
            cases.move(way, 10, text[:-1], "refused 29 2", plain=plain)
            cases.move(BACK[way], 10, text, "refused 29 1", plain=plain)
            for room in (0, 1, 65, 73):
                cases.move(way, 10, b"", "refused 10 0", room, plain=plain)


def some_trees():
    """Trees of every shape, with every kind in a list and in a compound, and small records behind deep ones."""
    yield (10,)
    for kind in range(1, 13):
        yield (10, (kind,))
        yield (10, (9, (kind,), (kind,)))
    yield (10, *((kind,) for kind in range(1, 13)))
    yield (10, (9, *((kind,) for kind in range(12, 0, -1))))  # a mixed list: its kind is that of the first
    yield (10, (9, (9,), (9, (9,)), (9, (9,), (9,))), (10, (10, (10,)), (10,)), (9, (10,), (10, (10,))))
    for deep in (2, 4, 9):
        for kinds in ((9,), (10,), (9, 10)):
            tree = (1,)
            for level in range(deep):
                tree = (kinds[level % len(kinds)], tree)
            yield (10, tree)
            yield (10, tree, (1,), (2,))  # all levels are left at once
            yield (10, (9, tree, (3,)), (10, tree, (4,)), (5,))
            comb = (1,)
            for level in range(deep):  # and one by one
                comb = (kinds[level % len(kinds)], (6,), comb, (8,))
            yield (10, comb, (1,))


def of_trees(r, cases):
    for tree, right in zip(TREES, THEIR_PARENTS):
        assert grown(26, [row[:PARENT] for row in planted(tree)]) == right
    for number, tree in enumerate([*TREES, *some_trees()]):
        rows = furnished(tree)
        cases.both(60, rows, True)
        for more in (-1, 1) if number % 3 == 0 else (5,) if number % 3 == 1 else (-len(rows),):
            for way in WAYS:
                cases.move(way, 60, lines(way, rows), "refused 13 0" if more < 0 else None, more=more)
        if len(rows) < 8:
            for way in WAYS:
                cases.move(way, 60, lines(way, rows), "refused 13 0", 0)


def of_depth(r, cases):
    """Deeper than a reader reads: rule 7 has no limit. Small records stand behind the deep ones at a few levels, far apart."""
    tree = (10,)
    for level in range(598, 0, -1):
        tree = (9 if level % 3 else 10, tree, *(((1,),) if level in (20, 21, 22, 300) else ()))
    rows = planted((10, tree, (1,)))
    n, size = len(rows), 1000
    assert n == 605 and [row[PARENT] for row in rows] == [0, *range(599), 300, 22, 21, 20, 0]
    cases.both(size, rows, True)
    for i, wrong in ((n - 5, 301), (n - 1, 20), (599, 597), (1, HUGE)):
        cases.move(DOWN, size, lines(DOWN, with_word(rows, i, PARENT, wrong)), "refused 10 0")
    cases.both(size, with_word(rows, 300, END, n - 5), False)


def bad_lines(line, other):
    """What is no line though nearly one; the first of its lines is the bad one."""
    digits = line[:-1]
    return [
        b"\n", b"0\n", digits[1:] + b"\n", b"0" + line, digits + b"0\n",  # empty, a digit short or over
        digits[:-8] + b"\n", digits + b"00000000\n", digits[:-16] + b"\n", digits + b"00000000" * 2 + b"\n",  # a word or two
        digits + other, digits + b"0" + other, digits[:32] + b"\n" + digits[32:] + b"\n",  # a line feed left out, or put in
        digits[:-1] + b"A\n", b"F" + line[1:], digits.upper() + b"\n" if digits != digits.upper() else b"A" + line[1:],
        b" " + line, b" " + line[1:], digits + b" \n", digits[:-1] + b" \n", b" \n",
        b" ".join(digits[i:i + 8] for i in range(0, len(digits), 8)) + b"\n", digits[:8] + b" " + digits[9:] + b"\n", b"\t" + line[1:],
        digits + b"\r\n", digits[:-1] + b"\r\n", b"\r\n", b"\r" + line, b"\r" + line[1:],
        b"0x" + line[2:], b"+" + line[1:], b"-" + line[1:], digits[:31] + b"_" + line[32:],
        *(digits[:at] + bytes([byte]) + line[at + 1:] for at, byte in zip((0, 7, 8, 63, 31, 40, 56, 62), b"\x2F\x3A\x40\x47\x60\x67\0\xFF")),
        bytes(len(digits)) + b"\n", b"\xEF\xBB\xBF" + line, digits + b"\0\n", "٠".encode() + line[2:],
    ]


def of_bad_lines(r, cases):
    """29 at a bad line alone, first, in the middle and last, among lines that would form a table."""
    rows = planted((10, (9, (1,)), (10,)))
    for way in WAYS:
        good = [line_of(row[:WORDS[way]]) for row in rows]
        for place in range(4):
            for bad in bad_lines(good[place], good[(place + 1) % 4]):
                if place == 0:
                    cases.move(way, 26, bad, "refused 29 1")
                cases.move(way, 26, b"".join(good[:place] + [bad] + good[place + 1:]), f"refused 29 {place + 1}", more=r.choice([0, 0, 9, -1]))
        for between in range(5):  # an empty line, or two, put in
            cases.move(way, 26, b"".join(good[:between] + [b"\n"] + good[between:]), f"refused 29 {between + 1}")
            cases.move(way, 26, b"".join(good[:between] + [b"\n\n"] + good[between:]), f"refused 29 {between + 1}")
        for line in (b"\n" * 9, b"\n" * 300, good[0] + b"\r", good[0] + b" "):
            cases.move(way, 26, line, room=300)


def of_widths(r, cases):
    """Lines of both widths in one file, and files wholly of the other width."""
    for rows in (planted((10, (9, (1,)), (10,), (1,))), planted((10, (1,))), planted((10,))):
        n = len(rows)
        for way in WAYS:
            here, there = ([line_of(row[:WORDS[w]]) for row in rows] for w in (way, BACK[way]))
            cases.move(way, 26, b"".join(there), "refused 29 1")
            cases.move(way, 26, b"".join(there)[:-1], "refused 29 1")
            for place in range(n):
                one, rest = here[:place] + there[place:place + 1] + here[place + 1:], here[:place] + there[place:]
                alone = there[:place] + here[place:place + 1] + there[place + 1:]
                for text in (one, rest):
                    cases.move(way, 26, b"".join(text), f"refused 29 {place + 1}")
                    cases.move(way, 26, b"".join(text)[:-1], f"refused 29 {place + 1}")
                cases.move(way, 26, b"".join(alone), f"refused 29 {1 if place else 2}" if n > 1 else None)
            for k in range(n):  # behind a whole table
                cases.move(way, 26, b"".join(here) + there[k], f"refused 29 {n + 1}")
    for way, n in ((UP, 8), (DOWN, 9)):  # so many lines of the other width have the digits of whole lines: good ones, but no table
        digits = lines(BACK[way], planted((10, *(((1,),) * (n - 1))))).replace(b"\n", b"")
        width = 8 * WORDS[way]
        cases.move(way, 26, b"".join(digits[i:i + width] + b"\n" for i in range(0, len(digits), width)), "refused 10 0")


def of_unended(r, cases):
    """A last line that no line feed ends, cut anywhere, or not even of digits."""
    for tree in ((10,), (10, (1,), (9, (1,)))):
        rows = planted(tree)
        n = len(rows)
        for way in WAYS:
            text, full = lines(way, rows), line_size(way)
            for left in sorted({1, 2, 8, 32, 63, 64, 65, 71, 72, full - 1} & set(range(full))):
                cut = text[:full * (n - 1) + left]
                cases.move(way, 26, cut, f"refused 29 {n}")
                for last in b"gA \r":
                    cases.move(way, 26, cut[:-1] + bytes([last]), f"refused 29 {n}")
            for more in (b"0", b"g", b" ", b"\r", b"\0", b"0" * 64, b"0" * 72, b"x" * 64, b"F" * 72):
                cases.move(way, 26, text + more, f"refused 29 {n + 1}")
                cases.move(way, 26, text[:-1] + more, f"refused 29 {n}")


def of_order(r, cases):
    """29 before 10, wherever each stands; 10 before 13; 9 before all."""
    rows = planted((10, (9, (1,)), (10,), (1,)))
    n = len(rows)
    for way in WAYS:
        for i, word, value in [(0, KIND, 9), (0, END, 1), (0, NAME, 27), (0, COUNT, 7), (2, LENGTH, 2), (1, LIST_KIND, 0), (n - 1, END, 0),
                               (n - 1, KIND, 13)]:
            wrong = lines(way, with_word(rows, i, word, value))
            for room in (0, 1, line_size(BACK[way]) * n - 1, line_size(BACK[way]) * n, 500):
                cases.move(way, 26, wrong, "refused 10 0", room)
            cases.move(way, 26, wrong[:-1], f"refused 29 {n}")
            cases.move(way, 26, wrong[:-2] + b"F\n", f"refused 29 {n}", 0)
            cases.move(way, 26, wrong + b"\n", f"refused 29 {n + 1}", 3)
            cases.move(way, 26, wrong + lines(BACK[way], rows[:1]), f"refused 29 {n + 1}")
            cases.move(way, BYTES + 1, wrong, "refused 9 0")
        cases.move(way, 0, lines(way, rows)[:-1], f"refused 29 {n}", 0)
        cases.move(way, 26, lines(way, rows) + b"x", f"refused 29 {n + 1}", 0)
    bad = lines(DOWN, with_word(rows, 1, PARENT, 4))
    for text, said in ((bad, "refused 10 0"), (bad[:-1], f"refused 29 {n}"), (bad + b"\n", f"refused 29 {n + 1}")):
        for room in (0, 65 * n - 1, 65 * n):
            cases.move(DOWN, 26, text, said, room)


def of_limits(r, cases):
    """9 by the document's length, whatever the lines and the room; the largest document."""
    root, at_end = [10, 3, 0, 0, 0, 0, 0, 1, 0], [10, BYTES - 1, 1, 0, 0, 0, 0, 1, 0]
    for way in WAYS:
        good = lines(way, [root])
        for size in (BYTES - 1, BYTES):
            cases.move(way, size, good)
            cases.move(way, size, good, "refused 13 0", 64)
            cases.move(way, size, good[:-1], "refused 29 1")
            cases.move(way, size, b"", "refused 10 0", 73)
        for size in (BYTES + 1, BYTES + 2, 2**31, 2**31 + 4, 2**32 - 1):
            for text in (good, good[:-1], b"", b"\n", lines(BACK[way], [root]), good + good, b"x", lines(way, [at_end])):
                for room in (0, 73):
                    cases.move(way, size, text, "refused 9 0", room)
        cases.move(way, BYTES - 1, lines(way, [at_end]), "refused 10 0")
    cases.both(BYTES, [at_end], True)
    cases.both(BYTES, [[10, BYTES, 0, 0, 0, 0, 0, 1, 0]], True)
    cases.both(BYTES, [[10, BYTES, 1, 0, 0, 0, 0, 1, 0]], False)
    cases.both(BYTES, [[10, 0, BYTES, 0, 0, 0, 0, 1, 0]], True)
    cases.both(0, [[10, 0, 0, 0, 0, 0, 0, 1, 0]], True)


def of_parents(r, cases):
    """A wrong parent on the way down, at every record and in all of them."""
    for number, tree in enumerate(TREES):
        rows = planted(tree)
        for i in range(len(rows)):
            wrong = wrong_parents(rows, i)
            for parent in wrong if number else r.sample(wrong, 4) + [HUGE]:
                changed = with_word(rows, i, PARENT, parent)
                cases.move(DOWN, 26, lines(DOWN, changed), "refused 10 0", more=r.choice([0, 0, 0, -1, 9]))
        for column in wrong_columns(rows):
            cases.move(DOWN, 26, lines(DOWN, [row[:PARENT] + [p] for row, p in zip(rows, column)]), "refused 10 0")
    for parent in (1, 2, HUGE, 2**31, 2**8, 2**16):  # the root's own, and its only child's
        cases.move(DOWN, 4, lines(DOWN, [[10, 3, 0, 0, 0, 0, 0, 1, parent]]), "refused 10 0")
        cases.move(DOWN, 26, lines(DOWN, with_word(planted((10, (1,))), 1, PARENT, parent)), "refused 10 0")
        cases.move(DOWN, 26, lines(DOWN, with_word(planted((10, (1,))), 0, PARENT, parent)), "refused 10 0")


def each_word(r, cases):
    """Every word of every record of small tables changed, but the parents."""
    listed = [[10, 0, 1, 0, 0, 3, 0, 5, 0], [9, 1, 1, 0, 0, 1, 3, 3, 0], [3, 0, 0, 4, 4, 0, 0, 3, 1], [8, 2, 1, 3, 2, 0, 0, 4, 0],
              [11, 3, 1, 0, 8, 2, 0, 5, 0]]
    nested = [[10, 0, 1, 0, 0, 1, 0, 4, 0], [10, 1, 1, 0, 0, 2, 0, 4, 0], [9, 2, 1, 0, 0, 0, 0, 3, 1], [7, 3, 1, 5, 3, 3, 0, 4, 1]]
    for rows, values in ((listed, [0, 1, HUGE]), (nested, [HUGE])):
        cases.both(9, rows, True)
        for i in range(len(rows)):
            for word in range(PARENT):
                here = rows[i][word]
                for value in sorted({here + 1, (here - 1) % 2**32, *values} - {here}):
                    cases.both(9, with_word(rows, i, word, value), None, r.choice([0, 0, -1, 4]))


def of_spans(r, cases):
    """Names and payloads that just lie in the document, and that just don't."""
    size = 20
    spans = [(size - 1, 1, True), (size, 1, False), (size, 0, True), (size + 1, 0, False), (0, size, True), (0, size + 1, False),
             (1, size, False), (HUGE, 2, False), (2, HUGE, False), (HUGE, 1, False), (HUGE, 0, False), (HUGE, HUGE, False), (2**31, 2**31, False)]
    for start, length, good in spans:
        cases.both(size, [[10, start, length, 0, 0, 0, 0, 1, 0]], good)
        cases.both(size, [[10, 0, 0, 0, 0, 1, 0, 2, 0], [1, start, length, 0, 1, 0, 0, 2, 0]], good)
        cases.both(size, [[10, 0, 0, 0, 0, 1, 0, 2, 0], [9, start, length, 0, 0, 0, 0, 2, 0]], good)
        cases.both(size, [[10, 0, 0, 0, 0, 1, 0, 2, 0], [8, 0, 1, start, length, 0, 0, 2, 0]], good)
        cases.both(size, [[10, 0, 0, 0, 0, 1, 0, 2, 0], [7, 0, 1, start, length, length, 0, 2, 0]], good)
        cases.both(size, [[10, 0, 0, 0, 0, 1, 0, 3, 0], [9, 0, 1, 0, 0, 1, 8, 3, 0], [8, 0, 0, start, length, 0, 0, 3, 1]], good)
    for kind in (1, 2, 3, 4, 5, 6, 11, 12):
        count = 2 if kind > 6 else 0
        length = WIDTH[kind] * max(1, count)
        for start, good in ((size - length, True), (size - length + 1, False), (size, False), (2**32 - length, False), (HUGE, False)):
            cases.both(size, [[10, 0, 0, 0, 0, 1, 0, 2, 0], [kind, 0, 1, start, length, count, 0, 2, 0]], good)
    for told in (0, 1):  # a document of no bytes, and of one
        for start, length in ((0, 0), (0, 1), (1, 0)):
            cases.both(told, [[10, start, length, 0, 0, 0, 0, 1, 0]], start + length <= told)
    # nothing wraps
    for kind, count, length in ((12, 2**29 + 1, 8), (11, 2**30 + 1, 4), (12, 2**29, 0), (11, 2**30, 0), (12, 2**31, 0), (7, HUGE, HUGE)):
        cases.both(size, [[10, 0, 0, 0, 0, 1, 0, 2, 0], [kind, 0, 1, 0, length, count, 0, 2, 0]], False)


def of_kinds(r, cases):
    """Every kind, none, and others: as the root, an entry and an element; its length and count."""
    for kind in (*range(15), 255, 256 + 1, 256 + 10, 2**31 + 1, HUGE):
        cases.both(40, [[kind, 0, 1, 0, 0, 0, 0, 1, 0]], kind == 10)
        width = WIDTH.get(kind, 0)
        for count, length in sorted({(0, 0), (0, width), (1, width), (2, 2 * width), (1, width + 1)}):
            good = count == length == 0 if kind in (9, 10) else count == 0 if kind == 8 else length == width * count if kind in (7, 11, 12) else (
                1 <= kind <= 6 and (count, length) == (0, width))
            cases.both(40, [[10, 0, 0, 0, 0, 1, 0, 2, 0], [kind, 1, 1, 0, length, count, 0, 2, 0]], good)
        element = [kind, 0, 0, 0, width if kind < 7 else 0, 0, 0, 3, 1]
        cases.both(40, [[10, 0, 0, 0, 0, 1, 0, 3, 0], [9, 1, 1, 0, 0, 1, kind, 3, 0], element], 1 <= kind <= 12)


def of_lists(r, cases):
    """List kinds, and names of elements."""
    two = planted((10, (9, (1,), (9,)), (9,), (10, (1,)), (1,)))
    cases.both(26, two, True)
    for i, row in enumerate(two):
        for kind in sorted({0, 1, 2, 9, 10, 13, HUGE} - {row[LIST_KIND]}):
            cases.both(26, with_word(two, i, LIST_KIND, kind), False)
    for i in (2, 3):  # the elements
        for name in ((0, 1), (1, 0), (1, 1), (26, 0), (HUGE, 0)):
            rows = [row[:] for row in two]
            rows[i][NAME:START] = name
            cases.both(26, rows, False)
    for kind in (1, 9, 10):  # the same in a compound
        rows = [[10, 0, 0, 0, 0, 1, 0, 2, 0], [kind, 0, 0, 0, int(kind == 1), 0, 0, 2, 0]]
        cases.both(26, rows, True)


def of_ends(r, cases):
    """End words that are too small or too large, children that don't tile, and lines that are gone, doubled or changed over."""
    for tree in (TREES[2], (10, (1,), (10, (9,), (1,)), (9, (1,), (1,)))):
        rows = planted(tree)
        n = len(rows)
        for i, row in enumerate(rows):
            end = row[END]
            for value in sorted({0, i, i + 1, i + 2, end - 1, end + 1, n, n + 1, HUGE, end + 2**16, end + 2**31} - {end}):
                cases.both(26, with_word(rows, i, END, value), False, r.choice([0, 0, 7]))
            for other in (rows[:i] + rows[i + 1:], rows[:i] + [row] + rows[i:], rows[:i] + rows[i + 1:i + 2] + [row] + rows[i + 2:]):
                if other and other != rows:
                    cases.both(26, other, None)
    # the byte as the root's entry and as the compound's: each of the three words by itself is wrong
    out, inside = planted((10, (10, (1,)), (1,))), planted((10, (10, (1,), (1,))))
    assert [row[PARENT] for row in out] == [0, 0, 1, 0] and [row[PARENT] for row in inside] == [0, 0, 1, 1]
    for choice in range(8):
        rows = [row[:] for row in out]
        for bit, (i, word) in enumerate([(0, COUNT), (1, COUNT), (1, END)]):
            rows[i][word] = (inside if choice >> bit & 1 else out)[i][word]
        for parent in (0, 1, 2):
            cases.move(DOWN, 26, lines(DOWN, with_word(rows, 3, PARENT, parent)), None if (choice, parent) in ((0, 0), (7, 1)) else "refused 10 0")
        cases.move(UP, 26, lines(UP, rows), "done 292" if choice in (0, 7) else "refused 10 0")
    for rows in ([[10, 0, 0, 0, 0, 0, 0, 1, 0]] * 2, [[10, 0, 0, 0, 0, 0, 0, 2, 0], [1, 0, 0, 0, 1, 0, 0, 2, 0]], [[10, 0, 0, 0, 0, 1, 0, 1, 0]]):
        cases.both(26, rows, False)


def hopped(r, ends):
    """Records that end so, or are bytes where 0 stands, each container counting the hops by end words from its first record to its end or
    past it; the parent is the last container that reaches so far."""
    rows = [[r.choice([9, 10]) if i else 10, 0, 0, 0, 0, 0, 0, end, 0] if end else [1, 0, 0, 0, 1, 0, 0, i + 1, 0] for i, end in enumerate(ends)]
    for i, row in enumerate(rows):
        j = i + 1
        while j < row[END]:
            row[COUNT], j = row[COUNT] + 1, rows[j][END]
        row[LIST_KIND] = rows[i + 1][KIND] if row[KIND] == 9 and row[COUNT] else 0
        row[PARENT] = max((k for k in range(i) if rows[k][END] > i), default=0)
    return rows


def of_overlaps(r, cases):
    """Every choice of end words in small tables: they are tables where no record ends behind one that holds it."""
    for n in (4, 5):
        for ends in itertools.product(*([0, *range(i + 1, n + 1)] for i in range(1, n))):
            rows = hopped(r, (n, *ends))
            nested = all(rows[j][END] <= row[END] for i, row in enumerate(rows) for j in range(i + 1, row[END]))
            cases.both(1, rows, nested)


def from_documents(r, cases):
    """Tables as they are read, told the least length that they agree with and one less; then with words changed."""
    for doc, rows in tables_read(r, 40, 9):
        least = next(size for size in range(len(doc) + 1) if grown(size, [row[:PARENT] for row in rows]))
        cases.both(least, rows, True)
        if least:
            cases.both(least - 1, rows, False)
        cases.both(len(doc), rows_of(nudged(r, rows)), None)
        i = r.randrange(len(rows))
        cases.move(DOWN, len(doc), lines(DOWN, with_word(rows, i, PARENT, r.choice(wrong_parents(rows, i)))), "refused 10 0")


def of_made_up(r, cases):
    """Tables that no reader made, and changes to them and to their lines."""
    some = 0
    while some < 60:
        size = r.choice([8, 20, 60])
        rows = made_up(r, bytes(size), r.randrange(2) == 0)
        if not 3 <= len(rows) <= 10 or not is_table(size, flat(rows)):
            continue
        some += 1
        cases.both(size, rows, True, r.choice([0, 0, 3, 73]))
        cases.both(size, rows_of(nudged(r, rows)), None)
        for way in WAYS:
            cases.move(way, size, mutated(r, lines(way, rows[:r.choice([1, 2, 4])])), room=300)


PARTS = [worked, of_trees, of_depth, of_bad_lines, of_widths, of_unended, of_order, of_limits, of_parents, each_word, of_spans, of_kinds, of_lists,
         of_ends, of_overlaps, from_documents, of_made_up]


def main(folder):
    sys.setrecursionlimit(20000)
    r = random.Random(20261116)
    cases = Cases()
    for part in PARTS:
        part(r, cases)
    for key, least in {"done": 300, "9": 60, "29": 400, "10": 700, "13": 90}.items():
        for way in WAYS:
            assert cases.seen.get(f"{way} {key}", 0) >= least, (key, cases.seen)
    for name, some in (("stdin", cases.lines), ("stdout", cases.answers)):
        text = "\n".join(some) + "\n"
        assert len(text) < 900000, (name, len(text))
        open(f"{folder}/{name}", "w", newline="").write(text)
    print(len(cases.lines), "cases:", ", ".join(f"{k} {v}" for k, v in sorted(cases.seen.items())))


if __name__ == "__main__":
    main(sys.argv[1])
