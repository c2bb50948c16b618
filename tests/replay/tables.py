#!/usr/bin/env python3
"""Writes the cases of crates/replay_tables: stdin has a document and a table's words a line, stdout what the program must print.

    tests/replay/tables.py crates/replay_tables

The answers are worked out by a second check and a second writer, below, that are written from documents 01 and 02 [3] and [7] alone: the
check goes down the tree, then down it once more for the parents; the writer keeps the names of each open compound. Refusal 9 can't occur
here, for no line is that long; tests/ffi/write.c has it.
"""
import random
import sys

import listing
from forms import JAVA
from listing import WIDTH, Refused

KIND, NAME, NAME_LENGTH, START, LENGTH, COUNT, LIST_KIND, END, PARENT = range(9)
WORDS = 9  # of a record, the parent's number being the last


class Reader(listing.Reader):
    """The reader of the listing, with all nine words of a record."""

    def __init__(self, doc, form=JAVA):
        super().__init__(doc, form)
        self.rows, self.within = [], []  # within: the records whose payloads are being read

    def payload(self, kind, name, at, deep):
        n = len(self.records)
        self.rows.append(None)
        parent = self.within[-1] if self.within else 0
        self.within.append(n)
        to = super().payload(kind, name, at, deep)
        self.within.pop()
        _, length, size, count = self.records[n]
        start = 0 if kind in (9, 10) else at + {8: 2, 7: 4, 11: 4, 12: 4}.get(kind, 0)
        first = self.records[n + 1][0] if kind == 9 and count else 0
        self.rows[n] = [kind, name[0], length, start, size, count, first, len(self.records), parent]
        return to


def rows_of(words):
    return [words[i:i + WORDS] for i in range(0, len(words), WORDS)]


def agrees(size, rows, i, limit, element):
    """Whether record i and those in it, which end at `limit` at the latest, are as rules 4 and 6 have them."""
    kind, name, name_len, start, length, count, list_kind, end, _ = rows[i]
    if not 1 <= kind <= 12 or name + name_len > size or not i < end <= limit:
        return False
    if element and (name or name_len):
        return False
    if kind not in (9, 10):
        if end != i + 1 or list_kind or start + length > size:
            return False
        if kind == 8:
            return count == 0
        return length == WIDTH[kind] * count if kind in (7, 11, 12) else length == WIDTH[kind] and count == 0
    if start or length:
        return False
    children, j = [], i + 1
    while j < end:
        if not agrees(size, rows, j, end, kind == 9):
            return False
        children.append(rows[j][KIND])
        j = rows[j][END]
    return count == len(children) and list_kind == (children[0] if kind == 9 and children else 0)


def parents(rows):
    """The number of each record's parent, and 0 in the root (02, [7]): a container's first child stands behind it, each other child where
    the one before it ends. For rows that agree with rules 4 and 6."""
    out = [0] * len(rows)
    for i, row in enumerate(rows):
        j = i + 1
        while row[KIND] in (9, 10) and j < row[END]:
            out[j] = i
            j = rows[j][END]
    return out


def is_table(size, words):
    if not words or len(words) % WORDS:
        return False
    rows = rows_of(words)
    if rows[0][KIND] != 10 or rows[0][END] != len(rows) or not agrees(size, rows, 0, len(rows), False):
        return False
    return [row[PARENT] for row in rows] == parents(rows)


def fine(doc, start, length, i, form):
    """A name or string of record i: 12 at the record; 4 at the document's offset, with the record beside it (02, [3])."""
    if length > 65535:
        raise Refused(12, i)
    good = form.readable(doc[start:start + length])
    if good < length:
        raise Refused(4, start + good, i)


def judge(doc, rows, form):
    """Rule 8's questions, record by record; the open containers with the names seen in each."""
    opened = []
    for i, (kind, name, name_len, start, length, _, list_kind, end, _) in enumerate(rows):
        while opened and opened[-1][0] == i:
            opened.pop()
        fine(doc, name, name_len, i, form)
        text = doc[name:name + name_len]
        if opened and opened[-1][1] == 10:
            if text in opened[-1][3]:
                raise Refused(6, i)
            opened[-1][3].add(text)
        if kind in (9, 10) and len(opened) + 1 > 512:
            raise Refused(7, i)
        if opened and opened[-1][1] == 9 and kind != opened[-1][2]:
            raise Refused(11, i)
        if kind == 8:
            fine(doc, start, length, i, form)
        if kind in (9, 10):
            opened.append((end, kind, list_kind, set()))


def laid(doc, rows, i, named, form):
    """The bytes of record i and of those in it."""
    kind, name, name_len, start, length, count, list_kind, end, _ = rows[i]
    out = bytes([kind]) + form.string(doc[name:name + name_len]) if named else b""
    if kind in (9, 10):
        if kind == 9:
            out += bytes([list_kind]) + form.bytes(count, 4)
        j = i + 1
        while j < end:
            out += laid(doc, rows, j, kind == 10, form)
            j = rows[j][END]
        return out + (b"\0" if kind == 10 else b"")
    body = doc[start:start + length]
    return out + (form.string(body) if kind == 8 else form.bytes(count, 4) + body if kind > 6 else body)


def written(doc, words, form):
    if not is_table(len(doc), words):
        raise Refused(10, 0)
    rows = rows_of(words)
    judge(doc, rows, form)
    return laid(doc, rows, 0, True, form)


class Cases:
    def __init__(self, form=JAVA):
        self.form, self.lines, self.answers, self.seen = form, [], [], {}

    def put(self, doc, words, room=None, more=0):
        """A case; the room is just enough where none is given, or what `room` makes of that."""
        whole = doc + b"a" * more
        check = "table" if is_table(len(whole), words) else "none"
        try:
            out, answer = written(whole, words, self.form), None
            size = len(out)
        except Refused as e:
            out, answer, size = b"", (*e.args, 0)[:3], 12  # beside all but 4 there is 0
        space = size if room is None else max(0, room(size)) if callable(room) else room
        if answer is None and len(out) > space:
            out, answer = b"", (13, 0, 0)
        said = f"written {len(out)}" if answer is None else "refused %d %d %d" % answer
        line = f"{doc.hex()} {more} " + "".join(f"{w:08x}" for w in words) + f" {space}"
        assert len(line) <= 65536 and len(whole) <= 70000 and space <= 70000 and len(words) <= 9216
        self.lines.append(line)
        self.answers.append(f"{check} {said} " + (out + b"\xAA" * (space - len(out))).hex().upper())
        for key in (check, "written" if answer is None else f"refused {answer[0]}"):
            self.seen[key] = self.seen.get(key, 0) + 1

    def no_table(self, doc, words, more=0):
        """A case of words of which it is known beforehand that they form no table."""
        self.put(doc, words, 4, more)
        assert self.answers[-1] == "none refused 10 0 0 AAAAAAAA", (doc, words)

    def refused(self, doc, rows, answer, room=4, more=0):
        """A case of a table of which it is known beforehand by what number, at what place and beside what record it is refused."""
        self.put(doc, flat(rows), room, more)
        assert self.answers[-1] == "table refused %d %d %d " % answer + "AA" * room, (doc, rows, self.answers[-1])


def flat(rows):
    return [w for row in rows for w in row]


def nudged(r, rows):
    """One or two words changed, none of them a parent's number: those have cases of their own."""
    words = flat(row[:PARENT] for row in rows)
    for _ in range(r.choice([1, 1, 2])):
        at = r.randrange(len(words))
        words[at] = r.choice([words[at] + 1, words[at] - 1, words[at] ^ 8, 0, 1, 9, 10, 13, 0xFFFFFFFF, r.choice(words), r.randrange(16)]) % 2**32
    return flat(words[PARENT * i:PARENT * (i + 1)] + row[PARENT:] for i, row in enumerate(rows))  # the parents as they were


def made_up(r, doc, apart=False):
    """A table that no reader made: spans anywhere in the document, names of any sort (or all different), lists that may be mixed."""
    rows = []

    def span(most):
        start = r.randrange(len(doc) + 1)
        return start, r.randrange(min(most, len(doc) - start) + 1)

    def record(kind, element, deep, parent):
        i = len(rows)
        name = (0, 0) if element else (i, 3) if apart else span(4)
        row = [kind, *name, 0, 0, 0, 0, 0, parent]
        rows.append(row)
        if kind in (9, 10):
            each = r.randrange(1, 13)
            for _ in range(r.choice([0, 1, 2, 4]) if deep else 0):
                inner = each if kind == 9 and r.randrange(4 if apart else 12) else r.randrange(1, 13)
                row[LIST_KIND] = row[LIST_KIND] or (inner if kind == 9 else 0)
                row[COUNT] += 1
                record(inner, kind == 9, deep - 1, i)
        elif kind == 8:
            row[START:COUNT] = span(6)
        else:
            many = r.choice([0, 1, 2]) if kind in (7, 11, 12) else 1
            row[LENGTH] = WIDTH[kind] * many
            row[COUNT] = many if kind in (7, 11, 12) else 0
            row[START] = r.randrange(max(0, len(doc) - row[LENGTH]) + 1)
        row[END] = len(rows)

    record(10, False, r.randrange(1, 4), 0)
    return rows


def chain(deep, kind):
    """The root and containers within it, so many deep."""
    def element(i):
        return kind if i and kind == 9 and i + 1 < deep else 0

    return [[kind if i else 10, 0, 0, 0, 0, int(i + 1 < deep), element(i), deep, max(0, i - 1)] for i in range(deep)]


# Words to cut off or to add, up to a whole record. What comes of the parent's number alone is in of_lengths.
CUT, ADDED = [2, 3, 4, 5, 6, 7, 8, WORDS], [1, 2, 3, 4, 5, 6, 7, WORDS]


def tables_read(r, count, most, form=JAVA):
    """So many documents, each with its table as it is read, of no more records than that."""
    some = 0
    while some < count:
        doc = bytes([10]) + form.string(r.choice([b"", b"root", "Höhe".encode()])) + listing.random_entries(r, r.randrange(4), form)
        reader = Reader(doc, form)
        reader.root()
        if len(reader.rows) <= most:
            some += 1
            yield doc, reader.rows


def from_documents(r, cases):
    """Tables as they are read, and each damaged in several ways."""
    for some, (doc, rows) in enumerate(tables_read(r, 250, 40, cases.form), 1):
        cases.put(doc, flat(rows))
        cases.put(doc, flat(rows), lambda n: n + r.randrange(5))
        cases.put(doc, flat(rows), lambda n: n - r.choice([1, 1, 2, n]))
        for _ in range(3):
            cases.put(doc, nudged(r, rows), lambda n: n + 1)
        if some <= 25 and len(rows) <= 6:  # each word in turn
            for at in range(WORDS * len(rows)):
                for by in (1, -1):
                    words = flat(rows)
                    words[at] = (words[at] + by) % 2**32
                    cases.put(doc, words)
        spans = [(row[NAME], row[NAME_LENGTH]) for row in rows if row[NAME_LENGTH]] + [(row[START], row[LENGTH]) for row in rows if row[KIND] == 8 and row[LENGTH]]
        if spans:  # an ill-formed string under a good table
            start, length = r.choice(spans)
            bad = bytearray(doc)
            bad[start + r.randrange(length)] = r.choice([0, 0x80, 0xC0, 0xED, 0xF0, 0xFF])
            cases.put(bytes(bad), flat(rows))
        named = [i for i, row in enumerate(rows) if i and row[NAME]]
        if len(named) > 1:  # an entry with the name of another
            words = flat(rows)
            a, b = r.sample(named, 2)
            words[WORDS * a + NAME:WORDS * a + START] = words[WORDS * b + NAME:WORDS * b + START]
            cases.put(doc, words)
        words = flat(rows)
        cases.put(doc, words[:-r.choice(CUT)], 4)
        cases.put(doc, words + words[:r.choice(ADDED)], 4)
        if len(rows) > 1:  # a shorter document, spans past its end
            cases.put(doc[:r.randrange(len(doc))], words, 4)


def by_hand(cases):
    cases.put(bytes.fromhex("0A00000900016C050000000000"), [10, 3, 0, 0, 0, 1, 0, 2, 0, 9, 6, 1, 0, 0, 0, 0, 2, 0])
    cases.put(b"", [], 4)
    cases.put(b"\x0A\0\0\0", [], 0)
    cases.put(b"", [10, 0, 0, 0, 0, 0, 0, 1, 0])
    cases.put(b"", [10, 1, 0, 0, 0, 0, 0, 1, 0])
    cases.put(b"a", [10, 1, 0, 0, 0, 0, 0, 1, 0])
    cases.put(b"a", [10, 0xFFFFFFFF, 2, 0, 0, 0, 0, 1, 0])
    for length in (65534, 65535, 65536):  # a name, then a string
        room = None if length == 65535 else 9
        cases.put(b"", [10, 0, length, 0, 0, 0, 0, 1, 0], room, 65536)
        cases.put(b"b", [10, 0, 0, 0, 0, 1, 0, 2, 0, 8, 0, 1, 1, length, 0, 0, 2, 0], room, 65536)
        cases.put(b"b", [10, 0, 0, 0, 0, 1, 0, 2, 0, 1, 0, length, 1, 1, 0, 0, 2, 0], room, 65536)
        cases.put(b"\xFF", [10, 1, length, 0, 0, 1, 0, 2, 0, 8, 0, 1, 1, length, 0, 0, 2, 0], 9, 65536)
    # over 65,535 bytes comes before ill-formed, a name before a payload
    cases.put(b"\xFF", [10, 0, 65536, 0, 0, 0, 0, 1, 0], 9, 65536)
    cases.put(b"\xFF", [10, 0, 65535, 0, 0, 0, 0, 1, 0], 9, 65536)
    for kind in (9, 10):
        for deep in (511, 512, 513, 600):
            cases.put(b"", flat(chain(deep, kind)))
            cases.put(b"", flat(chain(deep, kind)), lambda n: n - 1)
    # depth before kind: an element at depth 513 that is a container in a list of bytes; the record before it is a byte
    rows = chain(512, 9)
    rows[511][COUNT], rows[511][LIST_KIND] = 2, 1
    for row in rows:
        row[END] += 2
    for last in (9, 1, 2):
        width = 0 if last == 9 else WIDTH[last]
        cases.put(b"ab", flat(rows + [[1, 0, 0, 0, 1, 0, 0, 513, 511], [last, 0, 0, 0, width, 0, 0, 514, 511]]))


def of_siblings(cases):
    """Record 2 holds record 3, the rest are the root's entries; the names stand in five letters. Then the same with fewer records."""
    rows = [[10, 0, 0, 0, 0, 4, 0, 6, 0], [1, 0, 2, 9, 1, 0, 0, 2, 0], [10, 2, 1, 0, 0, 1, 0, 4, 0], [1, 0, 2, 9, 1, 0, 0, 4, 2],
            [1, 3, 2, 9, 1, 0, 0, 5, 0], [1, 2, 1, 9, 1, 0, 0, 6, 0]]
    cases.put(b"abcab", flat(rows), None, 5)
    cases.put(b"abcac", flat(rows), None, 5)
    cases.put(b"abcac", flat([[10, 0, 0, 0, 0, 3, 0, 5, 0]] + rows[1:5]), None, 5)
    cases.put(b"abcab", flat([[10, 0, 0, 0, 0, 1, 0, 3, 0], [10, 2, 1, 0, 0, 1, 0, 3, 0], [1, 0, 2, 9, 1, 0, 0, 3, 1]]), None, 5)
    cases.put(b"abcab", [10, 0, 0, 0, 0, 0, 0, 1, 0], None, 5)


def well(r, deep):
    """Containers so many deep, of both sorts, a few small records beside them; in places a list's element is of another kind."""
    rows = []

    def small(kind, parent):
        name = (0, 0) if kind == 9 else (r.randrange(26), 2)
        rows.append([1, *name, 0, 1, 0, 0, len(rows) + 1, parent])

    def box(kind, element, left, parent):
        i, row = len(rows), [kind, 0, 0 if element else 1, 0, 0, 0, 0, 0, parent]
        rows.append(row)
        if left:
            inner = r.choice([9, 10])
            if kind == 10 and r.randrange(12) == 0:
                small(10, i)
                row[COUNT] += 1
            if kind == 9 and r.randrange(12) == 0:  # an empty container of the same kind
                rows.append([inner, 0, 0, 0, 0, 0, 0, len(rows) + 1, i])
                row[COUNT] += 1
            box(inner, kind == 9, left - 1, i)
            row[COUNT] += 1
            if r.randrange(200) == 0:  # in a list a mixed one, after what is too deep
                small(kind, i)
                row[COUNT] += 1
            row[LIST_KIND] = inner if kind == 9 else 0
        row[END] = len(rows)

    box(10, False, deep - 1, 0)
    return rows


def until(cases, number, many, make):
    """Cases from `make` that are refused with that number, until there are so many."""
    for _ in range(5000):
        if cases.seen.get(f"refused {number}", 0) >= many:
            return
        doc, rows, more = make()
        try:
            written(doc + b"a" * more, flat(rows), cases.form)
        except Refused as e:
            if e.args[0] == number:
                cases.put(doc, flat(rows), None, more)
    raise AssertionError(number)


def long_strings(r):
    """A made-up table one of whose strings, a name or a payload, is longer than 65,535 bytes."""
    doc = bytes(range(32, 127))
    rows = made_up(r, doc, True)
    over = r.choice([65536, 65536, 65537, 66000, 69000])
    spots = [(i, NAME) for i, row in enumerate(rows) if row[NAME_LENGTH]] + [(i, START) for i, row in enumerate(rows) if row[KIND] == 8]
    i, word = r.choice(spots)
    rows[i][word:word + 2] = [r.choice([0, 90, len(doc)]), over]
    return doc, rows, 69900


# Trees for wrong parents, each tag its kind and its children. The last record of all is the root's entry, an element deep in lists, and an
# entry deep in compounds.
LEAF, EMPTY_LIST, EMPTY_COMPOUND = (1,), (9,), (10,)
TREES = [
    (10, (10, LEAF, (9, (9, LEAF, LEAF), EMPTY_LIST), LEAF), (9, (10, LEAF), EMPTY_COMPOUND), LEAF),
    (10, LEAF, (9, (9, LEAF), (9, LEAF, LEAF))),
    (10, (10, (9, LEAF), (10, LEAF, LEAF))),
]
THEIR_PARENTS = [[0, 0, 1, 1, 3, 4, 4, 3, 1, 0, 9, 10, 9, 0], [0, 0, 0, 2, 3, 2, 5, 5], [0, 0, 1, 2, 1, 4, 4]]  # worked out by hand
LETTERS = b"abcdefghijklmnopqrstuvwxyz"  # the document of a planted tree


def planted(tree):
    """The table of a tree of bytes and containers; each entry's name is a letter of its own."""
    rows = []

    def record(kind, children, element, parent):
        i, first = len(rows), children[0][KIND] if kind == 9 and children else 0
        row = [kind, *((0, 0) if element else (i, 1)), 0, int(kind == 1), len(children), first, 0, parent]
        rows.append(row)
        for child in children:
            record(child[0], child[1:], kind == 9, i)
        row[END] = len(rows)

    record(tree[0], tree[1:], False, 0)
    return rows


def wrong_parents(rows, i):
    """What might be taken for the parent of record i: its neighbours, itself, its parent's parent, the others of that parent, where it ends,
    the root, the parent counted from 1 or known by its low bits alone, and what is at the table's end or beyond it."""
    n, right = len(rows), rows[i][PARENT]
    others = {j for j in range(1, n) if j != i and rows[j][PARENT] == right}
    within = {i - 1, i, i + 1, rows[right][PARENT], rows[i][END], 0, right - 1, right + 1}
    beyond = {n - 1, n, n + 1, 0xFFFFFFFF, right + 2**8, right + 2**16, right + 2**31}
    return sorted((others | within | beyond) - {right, -1})


def some_records(rows):
    """The root, its first child, every third record and the last: for the replays that leave every record to replay_tables."""
    return sorted({0, 1, *range(3, len(rows), 3), len(rows) - 1})


def with_parent(rows, i, parent):
    words = flat(rows)
    words[WORDS * i + PARENT] = parent
    return words


def wrong_columns(rows):
    """The parents of all records by one mistake, where that makes a difference."""
    n, right, boxes = len(rows), [row[PARENT] for row in rows], [i for i, row in enumerate(rows) if row[KIND] in (9, 10)]
    yield from (column for column in [
        [0] * n, [0xFFFFFFFF] * n, [*range(n)], [row[END] for row in rows],
        [0] + [p + 1 for p in right[1:]], [p + 1 for p in right],  # counted from 1
        [max(0, i - 1) for i in range(n)], [max([0] + [b for b in boxes if b < i]) for i in range(n)],  # the record before, the container before
        [rows[p][PARENT] for p in right], right[1:] + [0], [0] + right[:-1], right[::-1],
    ] if column != right)


def of_parents(r, cases):
    """A wrong parent in every place (02, [7])."""
    for tree, right in zip(TREES, THEIR_PARENTS):
        rows = planted(tree)
        assert [row[PARENT] for row in rows] == parents(rows) == right
        cases.put(LETTERS, flat(rows))
        for i in range(len(rows)):
            for wrong in wrong_parents(rows, i):
                cases.no_table(LETTERS, with_parent(rows, i, wrong))
        for column in wrong_columns(rows):
            cases.no_table(LETTERS, flat(row[:PARENT] + [p] for row, p in zip(rows, column)))
    for deep, kind, i, wrong in [(512, 9, 1, 1), (512, 9, 511, 509), (512, 10, 256, 0), (512, 10, 511, 511), (513, 9, 512, 510), (513, 10, 512, 0)]:
        cases.no_table(b"", with_parent(chain(deep, kind), i, wrong))
    some = 0
    while some < 60:
        doc = bytes([10]) + cases.form.string(b"root") + listing.random_entries(r, r.randrange(1, 4), cases.form)
        reader = Reader(doc, cases.form)
        reader.root()
        rows = reader.rows
        if not 3 <= len(rows) <= 12:
            continue
        some += 1
        for i in r.sample(range(len(rows)), 3):
            cases.no_table(doc, with_parent(rows, i, r.choice(wrong_parents(rows, i))))


def before_all_else(cases):
    """10 for a wrong parent comes before all that the writer asks record by record."""
    byte = [1, 1, 1, 1, 1, 0, 0, 2, 0]
    for doc, rows, more, refused in [
        (b"ab", [[10, 0, 65536, 0, 0, 1, 0, 2, 0], byte], 65536, 12),
        (b"\xFFb", [[10, 0, 1, 0, 0, 1, 0, 2, 0], byte], 0, 4),
        (b"ab", [[10, 0, 1, 0, 0, 2, 0, 3, 0], byte, byte[:END] + [3, 0]], 0, 6),
        (b"ab", [[10, 0, 1, 0, 0, 1, 0, 4, 0], [9, 0, 1, 0, 0, 2, 1, 4, 0], [1, 0, 0, 0, 1, 0, 0, 3, 1], [2, 0, 0, 0, 2, 0, 0, 4, 1]], 0, 11),
    ]:
        cases.put(doc, flat(rows), None, more)
        assert f" refused {refused} " in cases.answers[-1]
        last = len(rows) - 1
        cases.no_table(doc, with_parent(rows, 0, 1), more)
        cases.no_table(doc, with_parent(rows, last, last), more)


def of_lengths(cases):
    """Numbers of words that are no table's; eight to a record, as there were before [7], and ten. Of nine records these are a multiple of 9."""
    words = flat(planted(TREES[1]))
    for n in range(1, len(words)):
        cases.no_table(LETTERS, words[:n])
    for n in range(1, WORDS + 1):
        cases.no_table(LETTERS, words + [0] * n)
        cases.no_table(LETTERS, words + words[:n])
    for rows in [*map(planted, TREES), *(chain(n, kind) for n in (1, 2, 3, 8, 9, 10, 18) for kind in (9, 10))]:
        cases.put(LETTERS, flat(rows))
        cases.no_table(LETTERS, flat(row[:PARENT] for row in rows))
        cases.no_table(LETTERS, flat(row + [0] for row in rows))
        if len(rows) > 1:  # the parent's number as the first word
            cases.no_table(LETTERS, flat(row[PARENT:] + row[:PARENT] for row in rows))


HEAD = b"abcdefgh"  # good names and strings, before what is broken
SPOTS = [("root", 0), ("name", 1), ("text", 1), ("element", 4)]  # with their records


def with_strings(root=(0, 1), name=(1, 1), text=(2, 1), element=(3, 1)):
    """A table with a string in each spot, each a span: the root's name; the name and the payload of record 1; the payload of record 4, the
    second element of a list."""
    return [[10, *root, 0, 0, 2, 0, 5, 0], [8, *name, *text, 0, 0, 2, 0], [9, 4, 1, 0, 0, 2, 8, 5, 0], [8, 0, 0, 0, 2, 0, 0, 4, 2],
            [8, 0, 0, *element, 0, 0, 5, 2]]


def and_behind(rows, name, text):
    """The table with one entry more in its root: a string behind all else."""
    root, n = rows[0], len(rows)
    return [root[:COUNT] + [root[COUNT] + 1, 0, n + 1, 0]] + rows[1:] + [[8, *name, *text, 0, 0, n + 1, 0]]


def of_characters(cases):
    """The place of refusal 4 and the record beside it, by hand (02, [3])."""
    cases.put(HEAD, flat(with_strings()))
    for text, place in listing.broken_strings(cases.form):
        span = len(HEAD), len(text)
        for spot, record in SPOTS:
            cases.refused(HEAD + text + b"z", with_strings(**{spot: span}), (4, len(HEAD) + place, record))
    for i, (text, place) in enumerate(listing.far_strings(cases.form)):
        spot, record = SPOTS[i % 4]
        cases.refused(HEAD + text, with_strings(**{spot: (len(HEAD), len(text))}), (4, len(HEAD) + place, record))
    cases.refused(HEAD + b"a" * 32000 + b"\xE2\x82", with_strings(text=(8, 32002)), (4, 32008, 1))


def of_spans(cases):
    """Every span of a few bytes as a name or a string: spans that overlap, begin or end within a character, and hold one fault or more."""
    doc = HEAD + bytes.fromhex("61 C3A9 E282AC EDA0BDEDB880 00 EDA0BD 62 FF")
    for start in range(len(doc) + 1):
        for end in range(max(start, len(HEAD)), len(doc) + 1):
            cases.put(doc, flat(with_strings(**{SPOTS[(start + end) % 4][0]: (start, end - start)})))
    doc = HEAD + b"ab\xFFc\x80"  # spans with a fault in common, at another offset in each
    for name, text, answer in [
        ((8, 5), (9, 4), (4, 10, 1)), ((9, 2), (8, 5), (4, 10, 1)), ((11, 2), (10, 3), (4, 12, 1)), ((12, 1), (8, 5), (4, 12, 1)),
        ((8, 2), (8, 5), (4, 10, 1)), ((11, 1), (11, 2), (4, 12, 1)), ((8, 2), (8, 1), (4, 10, 4)),
    ]:
        cases.refused(doc, with_strings(name=name, text=text, element=(9, 3)), answer)


def of_order(cases):
    """What comes before refusal 4 and what does not: rule 8's order stays, whatever the places are."""
    doc = HEAD + b"ab\xFF" + b"c\x80" + b"defg" + cases.form.faults[0][0]
    first, second, third = (8, 3), (11, 2), (13, 5)  # their faults are at 10, 12 and 17
    for spots, answer in [
        # a bad name and a bad string in one record: the name's, before or behind the string's in the document
        (dict(name=first, text=second), (4, 10, 1)), (dict(name=second, text=first), (4, 12, 1)), (dict(name=third, text=third), (4, 17, 1)),
        # records in turn, wherever their strings stand
        (dict(root=third, name=second, text=first), (4, 17, 0)), (dict(text=third, element=first), (4, 17, 1)),
        (dict(name=second, element=first), (4, 12, 1)), (dict(root=third, element=first), (4, 17, 0)), (dict(element=second), (4, 12, 4)),
    ]:
        for room in (0, 1, 60):  # 13 comes last
            cases.refused(doc, with_strings(**spots), answer, room)
        cases.no_table(doc, with_parent(with_strings(**spots), 1, 1))
    for spot, record in SPOTS:  # a byte of room too few, without the fault and with it
        cases.put(doc, flat(with_strings(**{spot: (8, 2)})), lambda n: n - 1)
        cases.refused(doc, with_strings(**{spot: first}), (4, 10, record), len(laid(doc, with_strings(**{spot: first}), 0, True, cases.form)) - 1)
    long = (8, 65536)
    for spots, answer in [
        # 12 in the same record: the name's, the string's, and that of a string which is ill-formed too
        (dict(name=long, text=first), (12, 1, 0)), (dict(name=first, text=long), (4, 10, 1)), (dict(text=long), (12, 1, 0)),
        # and in another one
        (dict(root=long, text=first), (12, 0, 0)), (dict(name=long, element=first), (12, 1, 0)), (dict(text=long, element=first), (12, 1, 0)),
        (dict(root=first, text=long), (4, 10, 0)), (dict(text=first, element=long), (4, 10, 1)), (dict(name=first, element=long), (4, 10, 1)),
    ]:
        cases.refused(doc, with_strings(**spots), answer, more=65536)
    # 6 in the same record, before it and behind it; and two entries of one bad name
    again = (4, 1)  # the list's own name
    cases.refused(doc, and_behind(with_strings(), again, first), (6, 5, 0))
    cases.refused(doc, and_behind(with_strings(name=again), (5, 1), first), (6, 2, 0))
    cases.refused(doc, and_behind(with_strings(text=first), again, second), (4, 10, 1))
    cases.refused(doc, and_behind(with_strings(name=first), first, (0, 1)), (4, 10, 1))
    # 11, of a string in a list of bytes: in the same record, before it and behind it
    for spots, answer in [(dict(element=first), (11, 4, 0)), (dict(), (11, 4, 0)), (dict(text=first), (4, 10, 1))]:
        rows = with_strings(**spots)
        rows[2][LIST_KIND], rows[3][KIND], rows[3][LENGTH] = 1, 1, 1
        cases.refused(doc, and_behind(rows, (5, 1), second), answer)
    # 7: the name of the container at depth 513, of the one that holds it, and a string behind both
    for at, answer in [(512, (4, 10, 512)), (511, (4, 10, 511)), (None, (7, 512, 0))]:
        rows = chain(513, 10)
        if at:
            rows[at][NAME:START] = first
        cases.refused(doc, and_behind(rows, (5, 1), second), answer)
    cases.refused(doc, and_behind(chain(513, 9), (5, 1), second), (7, 512, 0))
    cases.refused(doc, and_behind(chain(512, 9), (5, 1), second), (4, 12, 512))


def main(folder):
    sys.setrecursionlimit(20000)
    r = random.Random(20261116)
    cases = Cases()
    by_hand(cases)
    from_documents(r, cases)
    for _ in range(600):
        doc = bytes(r.choice(b"aabbcdefghijklmnop" if r.randrange(40) else b"\0\x80\xC3\xA4\xED") for _ in range(r.choice([0, 1, 20, 60])))
        rows = made_up(r, doc)
        if len(rows) <= 60:
            cases.put(doc, flat(rows), r.choice([None, None, lambda n: n + 2, lambda n: n - 1]))
            if r.randrange(3) == 0:
                cases.put(doc, nudged(r, rows))
    for _ in range(400):  # nothing to refuse but mixed lists
        doc = bytes(range(32, 127))
        rows = made_up(r, doc, True)
        if len(rows) <= 60:
            cases.put(doc, flat(rows))
    until(cases, 11, 120, lambda: (bytes(range(32, 127)), made_up(r, bytes(range(32, 127)), True), 0))
    until(cases, 12, 60, lambda: long_strings(r))
    until(cases, 7, 50, lambda: (b"abcdefghijklmnopqrstuvwxyzabc", well(r, r.choice([513, 513, 514, 530])), 0))
    of_siblings(cases)
    of_parents(r, cases)
    before_all_else(cases)
    of_lengths(cases)
    of_characters(cases)
    of_spans(cases)
    of_order(cases)
    cases.put(bytes.fromhex("0A00016101000162FF00"), [10, 3, 1, 0, 0, 1, 0, 2, 0, 1, 7, 1, 8, 1, 0, 0, 2, 0])
    for key in ["table", "none", "written"] + [f"refused {n}" for n in (4, 6, 7, 10, 11, 12, 13)]:
        assert cases.seen.get(key, 0) >= 50, key
    assert len(cases.lines) >= 3000
    open(folder + "/stdin", "w", newline="").write("\n".join(cases.lines) + "\n")
    open(folder + "/stdout", "w", newline="").write("\n".join(cases.answers) + "\n")
    print(len(cases.lines), "tables:", ", ".join(f"{k} {v}" for k, v in sorted(cases.seen.items())))


if __name__ == "__main__":
    main(sys.argv[1])
