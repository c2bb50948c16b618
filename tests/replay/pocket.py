#!/usr/bin/env python3
"""Writes the cases of crates/replay_pocket: stdin has a call a line, stdout what the program must print.

    tests/replay/pocket.py crates/replay_pocket

The answers are of the second reader, writer, query and rescue of listing.py, tables.py, queries.py and rescue.py, with the pocket edition's form
(02, [2]) in place of Java's; what the two differ in is in forms.py alone. Answers worked out by hand come first. Then those makers' own cases:
tables and queries are made in this form, while documents of Java's form are carried into it, and where all their strings are plain the
answers to both must be the same. Of each answer so many are kept. Refusal 9 can't occur here, for no line is that long.
"""
import collections
import random
import re
import sys

import depths
import listing
import queries
import rescue
import tables
from forms import JAVA, POCKET, units
from listing import WIDTH, Refused
from queries import UNTOUCHED
from rescue import listed_words
from tables import WORDS, flat


# ---- documents of Java's form in this one

class Carrier(listing.Reader):
    """Reads a document of Java's form, whatever its size, and notes what stands in the other form in place of what was read."""

    room = depth = 1 << 60

    def __init__(self, doc):
        super().__init__(doc)
        self.plain, self.spans = True, {}  # whether all strings are the same bytes in both; where a span starts: its end, and what stands there
        try:
            self.root()
        except Refused:
            pass

    def number(self, at, n, signed=False):
        value = super().number(at, n, signed)
        self.spans[at] = at + n, self.d[at:at + n][::-1]
        return value

    def string(self, at):
        try:
            start, n = super().string(at)
        except Refused as e:
            self.plain = self.plain and e.args[0] == 1
            raise
        text = self.d[start:start + n]
        self.plain = self.plain and all(0 < b < 128 for b in text)
        halves = b"".join(u.to_bytes(2, "big") for u in units(text))
        self.spans[at] = start + n, POCKET.string(halves.decode("utf-16-be").encode())
        return start, n

    def payload(self, kind, name, at, deep):
        to = super().payload(kind, name, at, deep)
        if kind in WIDTH:
            for place in range(at + (4 if kind > 6 else 0), to, WIDTH[kind]):
                self.number(place, WIDTH[kind])
        return to

    def carried(self):
        """The document with the same values, as far as it could be read, and from there on as it is."""
        out, at = b"", 0
        for start, (end, there) in sorted(self.spans.items()):
            out, at = out + self.d[at:start] + there, end
        return out + self.d[at:]


hexed = bytes.fromhex


# ---- r

def read(doc, words, form):
    reader = rescue.Reader(doc, words // WORDS, form)
    try:
        consumed = reader.root()
    except Refused as e:
        return "refused %d %d: zero" % e.args
    return f"ok {consumed} {len(reader.rows)}:" + listed_words(flat(reader.rows), words)


class Reads:
    def __init__(self):
        self.lines, self.answers = [], []

    def put(self, doc, words=None):
        """A case; there is just room where none is given."""
        words = WORDS * rescue.needed(doc, POCKET)[0] if words is None else words
        self.lines.append(f"{doc.hex()} {words}")
        self.answers.append(read(doc, words, POCKET))

    def carry(self, doc):
        carrier = Carrier(doc)
        self.put(carrier.carried())
        if carrier.plain:
            assert self.answers[-1] == read(doc, int(self.lines[-1].split(" ")[1]), JAVA), doc.hex()


ROOT = "10 3 0 0 0 1 0 2 0 "  # with one entry, which is no container or an empty one
A256, B258, C128 = "61" * 256, "62" * 258, "63" * 128


def reads_by_hand(reads):
    for words, doc, answer in [
        # the marked records of 01
        (9, "0A0000", "refused 1 3: zero"), (9, "0A0000 00", "ok 4 1: 10 3 0 0 0 0 0 1 0"),
        (18, "0A010061 01010062 FF 00", "ok 10 2: 10 3 1 0 0 1 0 2 0 1 7 1 8 1 0 0 2 0"),
        (18, "0A0000 0901006C 05 00000000 00", "ok 13 2: " + ROOT + "9 6 1 0 0 0 0 2 0"),
        (18, "0A0000 0901006C 0D 00000000 00", "refused 3 7: zero"), (18, "0A0000 0901006C 01 FFFFFFFF 00", "refused 5 8: zero"),
        (27, "0A0000 01010062 01 01010062 02 00", "refused 6 8: zero"),
        # lengths: 0001 is 256, 0201 is 258
        (9, "0A0001 61 00", "refused 1 3: zero"), (9, "0A0001" + A256 + "00", "ok 260 1: 10 3 256 0 0 0 0 1 0"),
        (9, "0A0201" + B258 + "00", "ok 262 1: 10 3 258 0 0 0 0 1 0"), (9, "0A0201" + A256 + "00", "refused 1 3: zero"),
        (18, "0A0000 08010073 0001" + A256 + "00", "ok 266 2: " + ROOT + "8 6 1 9 256 0 0 2 0"),
        (18, "0A0000 08010073 0001 61 00", "refused 1 9: zero"), (18, "0A0000 08010073 00", "refused 1 7: zero"),
        # counts of an array: the last byte has the sign
        (18, "0A0000 07010061 01000000 07 00", "ok 13 2: " + ROOT + "7 6 1 11 1 1 0 2 0"),
        (18, "0A0000 07010061 00010000" + A256 + "00", "ok 268 2: " + ROOT + "7 6 1 11 256 256 0 2 0"),
        (18, "0A0000 07010061 80000000" + C128 + "00", "ok 140 2: " + ROOT + "7 6 1 11 128 128 0 2 0"),
        (18, "0A0000 07010061 00000001 07", "refused 1 11: zero"), (18, "0A0000 07010061 FFFFFF7F", "refused 1 11: zero"),
        (18, "0A0000 07010061 00000080 07", "refused 5 7: zero"), (18, "0A0000 07010061 000000FF", "refused 5 7: zero"),
        (18, "0A0000 07010061 01000080 07 00", "refused 5 7: zero"), (18, "0A0000 07010061 000000", "refused 1 7: zero"),
        (18, "0A0000 0B010061 01000000 04030201 00", "ok 16 2: " + ROOT + "11 6 1 11 4 1 0 2 0"),
        (18, "0A0000 0B010061 FEFFFFFF 00", "refused 5 7: zero"), (18, "0A0000 0C010061 00000080", "refused 5 7: zero"),
        (18, "0A0000 0C010061 01000000 0102030405060708 00", "ok 20 2: " + ROOT + "12 6 1 11 8 1 0 2 0"),
        # and of a list
        (36, "0A0000 09010061 01 02000000 0708 00", "ok 15 4: 10 3 0 0 0 1 0 4 0 9 6 1 0 0 2 1 4 0 1 0 0 12 1 0 0 3 1 1 0 0 13 1 0 0 4 1"),
        (36, "0A0000 09010061 01 00000002 0708 00", "refused 8 14: zero"), (90, "0A0000 09010061 01 00000002 0708 00", "refused 1 15: zero"),
        (36, "0A0000 09010061 01 00000080 07 00", "refused 5 8: zero"), (36, "0A0000 09010061 00 00000080 00", "refused 3 7: zero"),
        (36, "0A0000 09010061 00 01000000 00", "refused 3 7: zero"), (36, "0A0000 09010061 0D 000000", "refused 1 8: zero"),
        # a zero byte is a character, C080 is none; four bytes are one, a pair is none
        (9, "0A0100 00 00", "ok 5 1: 10 3 1 0 0 0 0 1 0"), (9, "0A0200 C080 00", "refused 4 3: zero"), (9, "0A0300 00C080 00", "refused 4 4: zero"),
        (9, "0A0400 F09F9880 00", "ok 8 1: 10 3 4 0 0 0 0 1 0"), (9, "0A0600 EDA0BDEDB880 00", "refused 4 3: zero"),
        (9, "0A0400 F0908080 00", "ok 8 1: 10 3 4 0 0 0 0 1 0"), (9, "0A0400 F08FBFBF 00", "refused 4 3: zero"),
        (9, "0A0400 F48FBFBF 00", "ok 8 1: 10 3 4 0 0 0 0 1 0"), (9, "0A0400 F4908080 00", "refused 4 3: zero"),
        (9, "0A0300 EFBFBF 00", "ok 7 1: 10 3 3 0 0 0 0 1 0"), (9, "0A0300 ED9FBF 00", "ok 7 1: 10 3 3 0 0 0 0 1 0"),
        (18, "0A0000 08010000 0300 610062 00", "ok 13 2: " + ROOT + "8 6 1 9 3 0 0 2 0"), (18, "0A0000 08010073 0300 61C080 00", "refused 4 10: zero"),
        (27, "0A0000 01010000 07 01010000 08 00", "refused 6 8: zero"),
        (27, "0A0000 01010000 07 010000 08 00", "ok 13 3: 10 3 0 0 0 2 0 3 0 1 6 1 7 1 0 0 2 0 1 11 0 11 1 0 0 3 0"),
        # the order of the rest
        (9, "", "refused 1 0: zero"), (9, "00", "refused 2 0: zero"), (9, "0A", "refused 1 1: zero"), (9, "0A01", "refused 1 1: zero"),
        (9, "0A0100", "refused 1 3: zero"), (0, "0A0100 FF", "refused 4 3: zero"), (8, "0A0000", "refused 8 3: zero"), (10, "0A0000 00", "ok 4 1: 10 3 0 0 0 0 0 1 0 -"),
        (18, "0A0000 0D0100 61", "refused 3 3: zero"), (18, "0A0000 0D0001 61", "refused 1 6: zero"), (18, "0A0000 0D0100 FF", "refused 4 6: zero"),
    ]:
        reads.put(hexed(doc), words)
        assert reads.answers[-1] == answer, (doc, reads.answers[-1])
    for doc, place in list(listing.broken_documents(POCKET))[::7]:
        reads.put(doc)
        assert reads.answers[-1] == f"refused 4 {place}: zero", doc.hex()
    for shape in depths.SHAPES[:3]:  # with all their records
        reads.carry(depths.nested(shape(512), depths.BYTE))


def documents():
    """Documents of Java's form: those of the listing, and containers that are deep."""
    for line in listing.cases():
        try:
            yield bytes.fromhex(line)
        except ValueError:
            pass
    yield from (doc for doc, _ in depths.cases())


def reads_made(r, reads):
    for i, doc in enumerate(documents()):
        if len(doc) <= 4096:
            reads.carry(doc)
            if i % 40 == 0:  # as it stands, its numbers meaning others
                reads.put(doc, 20 * WORDS)
    for _ in range(600):
        doc = b"\x0A" + POCKET.string(POCKET.text(r.choice(["", "root", "Höhe", "\0"]))) + listing.random_entries(r, r.randrange(4), POCKET)
        reads.put(doc)
        reads.put(doc, r.randrange(4 * WORDS))
        for _ in range(2):
            reads.put(listing.damaged(r, doc))


# ---- w

def writes_by_hand(cases):
    for doc, rows, out in [
        ("0A010061 01010062 FF 00", [[10, 3, 1, 0, 0, 1, 0, 2, 0], [1, 7, 1, 8, 1, 0, 0, 2, 0]], "0A010061 01010062 FF 00"),
        ("0A0000 0901006C 05 00000000 00", [[10, 3, 0, 0, 0, 1, 0, 2, 0], [9, 6, 1, 0, 0, 0, 0, 2, 0]], "0A0000 0901006C 00 00000000 00"),
        # lengths and counts of one byte and of two
        (A256, [[10, 0, 256, 0, 0, 0, 0, 1, 0]], "0A0001" + A256 + "00"), (B258, [[10, 0, 258, 0, 0, 0, 0, 1, 0]], "0A0201" + B258 + "00"),
        (A256, [[10, 0, 0, 0, 0, 1, 0, 2, 0], [8, 0, 1, 0, 256, 0, 0, 2, 0]], "0A0000 08010061 0001" + A256 + "00"),
        (A256, [[10, 0, 0, 0, 0, 1, 0, 2, 0], [7, 0, 1, 0, 256, 256, 0, 2, 0]], "0A0000 07010061 00010000" + A256 + "00"),
        (C128, [[10, 0, 0, 0, 0, 1, 0, 2, 0], [12, 0, 1, 0, 16, 2, 0, 2, 0]], "0A0000 0C010063 02000000" + "63" * 16 + "00"),
        (A256, [[10, 0, 0, 0, 0, 1, 0, 2, 0], [9, 0, 1, 0, 0, 0, 0, 2, 0]], "0A0000 09010061 00 00000000 00"),
        (A256, [[10, 0, 0, 0, 0, 1, 0, 258, 0], [9, 0, 1, 0, 0, 256, 1, 258, 0]] + [[1, 0, 0, n, 1, 0, 0, n + 3, 1] for n in range(256)],
         "0A0000 09010061 01 00010000" + A256 + "00"),
        # numbers as they stand in the document
        ("78 04030201 0807060504030201", [[10, 0, 0, 0, 0, 2, 0, 3, 0], [3, 0, 1, 1, 4, 0, 0, 2, 0], [6, 0, 0, 5, 8, 0, 0, 3, 0]],
         "0A0000 03010078 04030201 060000 0807060504030201 00"),
        # a zero byte, four bytes
        ("6B00", [[10, 1, 1, 0, 0, 1, 0, 2, 0], [8, 0, 1, 1, 1, 0, 0, 2, 0]], "0A010000 0801006B 010000 00"),
        ("F09F9880", [[10, 0, 4, 0, 0, 1, 0, 2, 0], [8, 0, 4, 0, 4, 0, 0, 2, 0]], "0A0400F09F9880 080400F09F9880 0400F09F9880 00"),
    ]:
        cases.put(hexed(doc), flat(rows))
        assert cases.answers[-1] == f"table written {len(hexed(out))} {hexed(out).hex().upper()}", (doc, cases.answers[-1])
    for doc, rows, answer in [
        ("C080", [[10, 0, 2, 0, 0, 0, 0, 1, 0]], (4, 0, 0)), ("6BC080", [[10, 0, 0, 0, 0, 1, 0, 2, 0], [8, 0, 1, 1, 2, 0, 0, 2, 0]], (4, 1, 1)),
        ("6B00C080", [[10, 0, 0, 0, 0, 1, 0, 2, 0], [8, 1, 3, 0, 4, 0, 0, 2, 0]], (4, 2, 1)),
        ("EDA0BDEDB880", [[10, 0, 6, 0, 0, 0, 0, 1, 0]], (4, 0, 0)), ("F09F9880", [[10, 0, 3, 0, 0, 0, 0, 1, 0]], (4, 0, 0)),
        ("F09F9880", [[10, 1, 1, 0, 0, 0, 0, 1, 0]], (4, 1, 0)), ("00", [[10, 0, 0, 0, 0, 2, 0, 3, 0], *([1, 0, 1, 0, 1, 0, 0, n, 0] for n in (2, 3))], (6, 2, 0)),
    ]:
        cases.refused(hexed(doc), rows, answer)
    # a string just below the limit, and one past it
    cases.put(b"", [10, 0, 65534, 0, 0, 0, 0, 1, 0], None, 65536)
    assert cases.answers[-1].startswith("table written 65538 0AFEFF6161")
    cases.refused(b"", [[10, 0, 65536, 0, 0, 0, 0, 1, 0]], (12, 0, 0), 4, 65536)


def writes_made(r, cases):
    tables.by_hand(cases)
    tables.from_documents(r, cases)
    for _ in range(400):
        doc = bytes(r.choice(b"aabbcdefghijklmnop" if r.randrange(40) else b"\0\x80\xC3\xA4\xED") for _ in range(r.choice([0, 1, 20, 60])))
        rows = tables.made_up(r, doc, r.randrange(2) == 1)
        if len(rows) <= 60:
            cases.put(doc, flat(rows), r.choice([None, None, lambda n: n + 2, lambda n: n - 1]))
    tables.until(cases, 12, 40, lambda: tables.long_strings(r))
    tables.until(cases, 11, 60, lambda: (bytes(range(32, 127)), tables.made_up(r, bytes(range(32, 127)), True), 0))
    tables.of_siblings(cases)
    tables.before_all_else(cases)
    tables.of_characters(cases)
    tables.of_spans(cases)
    tables.of_order(cases)


# ---- q

def queries_by_hand(cases):
    doc = hexed("0A0000 01010000 07 09010062 01 02000000 0708 0A0400F09F9880 00 00")  # a byte, a list of two bytes, a compound
    reader = tables.Reader(doc, POCKET)
    assert reader.root() == len(doc) and len(reader.rows) == 6
    for query, found in [
        ("", [0]), ("04", [0, 1, 2, 3, 4, 5]), ("03", [1, 2, 5]), ("0303", [3, 4]), ("010000", []),
        # lengths and indices are big-endian
        ("01 0001 62", [2]), ("01 0100 62", 0), ("01 0001 62 02 00000001", [4]), ("01 0001 62 02 01000000", []), ("01 0001 62 02 00000080", []),
        ("01 0001 62 02 80000000", 4), ("01 0001 62 02 FFFFFFFF", 4), ("04 02 00000000", [3]), ("04 02 000000FF", []), ("02 7FFFFFFF", []),
        ("01 0100" + A256, []), ("01 0001" + A256, 4), ("01 0102" + B258, []), ("01 0201" + B258, 0),
        # names keep the document's rule
        ("01 0001 00", [1]), ("04 01 0001 00", [1]), ("01 0002 0000", []), ("01 0002 C080", 0), ("03 01 0002 C080", 1), ("01 0003 00C080", 0),
        ("01 0004 F09F9880", [5]), ("01 0006 EDA0BDEDB880", 0), ("01 0003 EDA0BD", 0), ("01 0002 C3A9", []), ("01 0001 80", 0), ("01 0004 F4908080", 0),
        ("01 0001 62 04 01 0001 FF", 5), ("01 0001 00 05", 4), ("01 0001 00" * 17, 64), ("01 00", 0),
    ]:
        cases.put(doc, flat(reader.rows), hexed(query), 6)
        left = (found if isinstance(found, list) else []) + [UNTOUCHED] * 6
        said = f"matches {len(found)}:" if isinstance(found, list) else f"refused 14 {found} 0:"
        assert cases.answers[-1] == said + listed_words(left[:6], 6), (query, cases.answers[-1])
    for room, answer in [(2, "refused 24 0 3:"), (3, "matches 3:"), (0, "refused 24 0 3:")]:
        cases.put(doc, flat(reader.rows), b"\3", room)
        assert cases.answers[-1].startswith(answer)
    queries.of_characters(cases)


def queries_made(r, cases):
    queries.marked(cases)
    queries.of_limits(r, cases)
    queries.of_chains(cases)
    queries.of_documents(r, cases)
    queries.of_tables(r, cases)


# ---- c

class Rescues(rescue.Cases):
    """Each document is carried; where its strings are plain, what a rescue of it saves must be carried to what is saved of the other."""

    def put(self, doc, words=rescue.exact, room=rescue.exact, changes=rescue.exact):
        carrier, before = Carrier(doc), len(self.lines)
        there = carrier.carried()
        super().put(there, words, room, changes)
        if carrier.plain and len(self.lines) > before:
            rooms = [int(field) for field in self.lines[-1].split(" ")[1:]]
            first, second = rescue.Rescue(doc, *rooms, JAVA), rescue.Rescue(there, *rooms, POCKET)
            assert (first.refusal, first.changes, first.table) == (second.refusal, second.changes, second.table), doc.hex()
            assert Carrier(bytes(first.out)).carried() == bytes(second.out), doc.hex()


def rescues_by_hand(cases):
    for doc, saved, lines in [
        ("0A000172", None, (32, 3, 0)), ("0A010072", "0A010072 00", [0, 0, 0]), ("0A010000", "0A010000 00", [0, 0, 0]),
        ("0A0200C080", None, (4, 3, 0)), ("0A0400F09F9880", "0A0400F09F9880 00", [0, 0, 0]), ("0A0400F09F98", None, (32, 3, 0)),
        ("0A0000 0901006C 05 07000000", "0A0000 0901006C 00 00000000 00", [0, 0, 1, 1, 7, 0]),
        ("0A0000 0901006C 01 04030201 07", "0A0000 0901006C 01 01000000 07 00", [0, 0, 1, 1, 0x01020304, 1]),
        ("0A0000 0901006C 0A 03000000 00 01", "0A0000 0901006C 0A 02000000 00 00 00", [0, 0, 1, 1, 3, 2, 3, 0, 0]),
        ("0A0000 0901006C 01 00000080", None, (5, 8, 0)), ("0A0000 0901006C 01 000000", "0A0000 00", [0, 0, 0]),
        ("0A0000 0901006C 01 00010000" + A256, "0A0000 0901006C 01 00010000" + A256 + "00", [0, 0, 1]),
        ("0A0000 01010061 07 01000162", "0A0000 01010061 07 00", [0, 0, 1]), ("0A0000 08010061 0001" + C128, "0A0000 00", [0, 0, 0]),
        ("0A0000 08010061 0001" + A256, "0A0000 08010061 0001" + A256 + "00", [0, 0, 1]),
        ("0A0000 07010061 02000000 0102", "0A0000 07010061 02000000 0102 00", [0, 0, 1]), ("0A0000 07010061 00000002 0102", "0A0000 00", [0, 0, 0]),
        ("0A0000 0A0100 00 01010000 07", "0A0000 0A010000 01010000 07 00 00", [0, 0, 1, 1, 0, 1]), ("0A0000 0A010061 00 00", None, (31, 0, 0)),
        ("0A0000 01010000 07 01010000", None, (6, 8, 0)), ("0A0000 01010000 07 010200C080", None, (4, 11, 0)),
    ]:
        found = rescue.Rescue(hexed(doc), 90 * WORDS * 3, 900, 900, POCKET)
        assert found.refusal == (None if saved else lines), (doc, found.refusal)
        assert not saved or found.out == hexed(saved) and found.changes == lines, (doc, found.out, found.changes)
        cases.put(hexed(doc))
        cases.around(hexed(doc))
    rescue.of_characters(cases)


def rescues_made(r, cases):
    for make in (rescue.worked, rescue.of_roots, rescue.of_entries, rescue.of_counts, rescue.refused_else):
        make(cases)
    for make in (rescue.of_whole_ones, rescue.deep_ones, rescue.at_random, rescue.of_parents):
        make(r, cases)
    for doc in rescue.documents(r):
        cases.cuts(r, doc)


# ---- s

EDGES = [0, 1, 0x7F, 0x80, 0x7FF, 0x800, 0xFFF, 0x1000, 0xCFFF, 0xD7FF, 0xE000, 0xFFFD, 0xFFFF, 0x10000, 0x3FFFF, 0x40000, 0xFFFFF, 0x100000, 0x10FFFF]


def strings(r):
    """Strings, each with the place of its first fault, or its length where it has none; or nothing where that is left to the decoder."""
    yield from listing.broken_strings(POCKET)
    yield from list(listing.far_strings(POCKET))[::3]
    for c in EDGES:
        for before in (b"", b"a", bytes(63), "é".encode() * 40):
            whole = before + chr(c).encode()
            yield whole, len(whole)
            if c > 0x7F:
                yield whole[:-1] + b"z", len(before)
    for n in (0, 1, 15, 16, 17, 31, 32, 33, 63, 64, 65, 127, 128, 129, 500):
        yield listing.good_bytes(n, n, POCKET), n
        yield bytes(n), n
    for lead in hexed("C0C1C2DFE0E1ECEDEEEFF0F1F3F4F5"):
        for second in hexed("00617F808F909FA0BFC0"):
            yield bytes([lead, second, 0x80, 0x80]), None
    for _ in range(150):
        text = bytearray(listing.good_bytes(r.randrange(1, 200), r.randrange(5), POCKET))
        text[r.randrange(len(text))] = r.choice(hexed("006180BFC0C3E0EDF0F4F8FF"))
        yield bytes(text), None


class Checks:
    def __init__(self, r):
        self.lines, self.answers = [], []
        for text, place in strings(r):
            good = POCKET.readable(text)
            assert place in (None, good), (text.hex(), place, good)
            self.lines.append(text.hex())
            self.answers.append("ok" if good == len(text) else str(good))


# ---- all of them

def sort_of(answer):
    return re.match("(none |table )?(refused [0-9]+|[a-z]+( 0)?|[0-9]+)", answer)[0]


def picked(cases, many, longest):
    """So many cases with answers no longer than that, or as many as there are: of each sort of answer about as many, from end to end."""
    sorts = {}
    for line, answer in dict(zip(cases.lines, cases.answers)).items():
        if len(answer) <= longest:
            sorts.setdefault(sort_of(answer), []).append((line, answer))
    left = many
    for done, some in enumerate(sorted(sorts.values(), key=len)):
        share = min(len(some), left // (len(sorts) - done))
        left -= share
        yield from (some[i * len(some) // share] for i in range(share))


SHARES = {"r": (1600, 900), "w": (1300, 6000), "q": (900, 3000), "c": (700, 1500)}  # how many, with how long answers
WANTED = {"r": (1, 2, 3, 4, 5, 6, 7, 8), "w": (4, 6, 7, 10, 11, 12, 13), "q": (7, 10, 14, 24), "c": (2, 3, 4, 5, 6, 7, 8, 13, 24, 31, 32), "s": ()}
BAD_LINES = ["", "x 0a000000 9", "r 0g 9", "r 0a000000 x", "w 0a000000 0 0 70001", "s 0"]


def main(folder):
    sys.setrecursionlimit(20000)
    r = random.Random(20261118)
    hand = {"r": Reads(), "w": tables.Cases(POCKET), "q": queries.Cases(POCKET), "c": rescue.Cases(POCKET), "s": Checks(r)}
    made = {"r": Reads(), "w": tables.Cases(POCKET), "q": queries.Cases(POCKET), "c": Rescues(POCKET)}
    for call, by_hand in zip("rwqc", (reads_by_hand, writes_by_hand, queries_by_hand, rescues_by_hand)):
        by_hand(hand[call])
    for call, make in zip("rwqc", (reads_made, writes_made, queries_made, rescues_made)):
        make(r, made[call])
    lines, out = list(BAD_LINES), ["badline"] * len(BAD_LINES)
    for call, cases in hand.items():
        some = [*zip(cases.lines, cases.answers), *(picked(made[call], *SHARES[call]) if call in made else ())]
        seen = collections.Counter(sort_of(answer) for _, answer in some if call != "s")
        for number in WANTED[call]:
            assert any(key.endswith(f"refused {number}") for key in seen), (call, number)
        lines += [f"{call} {line}" for line, _ in some]
        out += [answer.replace(f" {UNTOUCHED}", " -") for _, answer in some]
        print(call, len(some), ", ".join(f"{k} {v}" for k, v in sorted(seen.items())))
    assert max(map(len, lines)) <= 65536 and sum(len(line) + 1 for line in out) <= 1 << 20
    open(folder + "/stdin", "w", newline="").write("\n".join(lines) + "\n")
    open(folder + "/stdout", "w", newline="").write("\n".join(out) + "\n")


if __name__ == "__main__":
    main(sys.argv[1])
