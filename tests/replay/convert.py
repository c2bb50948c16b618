#!/usr/bin/env python3
"""Writes the cases of crates/replay_convert: stdin has a table over its document a line, stdout what the program must print.

    tests/replay/convert.py crates/replay_convert

The answers are worked out by a second conversion, below, that is written from documents 01 and 02 ([2], [3] and [7]) alone: it goes down the
tree once, takes strings apart into characters and numbers into integers, and puts both together in the other form. What it writes is read
again, and must mean what was there and come back as it was. Answers worked out by hand come first; of the cases that tables.py makes, some
of each answer are kept. Refusal 9 can't occur here, for no line is that long.
"""
import collections
import random
import sys
import types

import listing
import tables
from forms import JAVA, POCKET, units
from listing import WIDTH, Refused
from pocket import EDGES, Carrier, picked, sort_of
from tables import COUNT, END, HEAD, KIND, LENGTH, LIST_KIND, NAME, SPOTS, START, and_behind, chain, flat, with_parent, with_strings

THERE, BACK = (0, 2), (2, 0)  # from Java's form to the pocket edition's, and back
BOTH = THERE, BACK
LIMIT = 65535
hexed = bytes.fromhex


def form_of(number):
    """The pocket edition's form is 2; every other number is Java's."""
    return POCKET if number == 2 else JAVA


# ---- the second conversion

def characters(b, form):
    """The characters of a well-formed string."""
    if form is POCKET:
        return b.decode("utf-8")
    return b"".join(u.to_bytes(2, "big") for u in units(b)).decode("utf-16-be")


class Conversion:
    def __init__(self, doc, rows, source, target):
        self.doc, self.rows, self.source, self.target = doc, rows, source, target

    def string(self, i, start, length):
        """A name or string of record i behind its length: 12 and 4 of it as it stands, then 12 as it is written."""
        tables.fine(self.doc, start, length, i, self.source)
        text = self.target.text(characters(self.doc[start:start + length], self.source))
        if len(text) > LIMIT:
            raise Refused(12, i)
        return self.target.string(text)

    def leaf(self, i):
        kind, _, _, start, length, count = self.rows[i][:LIST_KIND]
        if kind == 8:
            return self.string(i, start, length)
        out, width = self.target.bytes(count, 4) if kind > 6 else b"", WIDTH[kind]
        for at in range(start, start + length, width):
            out += self.target.bytes(self.source.number(self.doc[at:at + width]), width)
        return out

    def container(self, i, deep):
        kind, count, each, end = (self.rows[i][word] for word in (KIND, COUNT, LIST_KIND, END))
        inner, names, j = b"", set(), i + 1
        while j < end:
            inner += self.record(j, each, None, deep + 1) if kind == 9 else self.record(j, None, names, deep + 1)
            j = self.rows[j][END]
        if kind == 10:
            return inner + b"\0"
        return bytes([each]) + self.target.bytes(count, 4) + inner if count else bytes(5)

    def record(self, i, each, names, deep):
        """The bytes of record i and of those in it: an element of a list of kind `each`, or an entry with the names before its own."""
        kind, name, length = self.rows[i][:START]
        head = bytes([kind]) + self.string(i, name, length)
        if names is not None:
            text = self.doc[name:name + length]
            if text in names:
                raise Refused(6, i)
            names.add(text)
        if kind in (9, 10) and deep > 512:
            raise Refused(7, i)
        if each not in (None, kind):
            raise Refused(11, i)
        body = self.container(i, deep) if kind in (9, 10) else self.leaf(i)
        return head + body if each is None else body


def converted(doc, words, source, target):
    if not tables.is_table(len(doc), words):
        raise Refused(10, 0)
    return Conversion(doc, tables.rows_of(words), source, target).record(0, None, set(), 1)


# ---- what a conversion keeps

class Reader(tables.Reader):
    """With room for every record that a case has."""

    room = 1 << 20


def rows_read(doc, form):
    reader = Reader(doc, form)
    reader.root()
    return reader.rows


def meant(doc, rows, form):
    """What a table stands for, in whatever form: of each record the words that are no spans, its name's characters, and its value."""
    for row in rows:
        kind, name, length = row[:START]
        body, width = doc[row[START]:row[START] + row[LENGTH]], WIDTH.get(kind, 1)
        value = characters(body, form) if kind == 8 else [form.number(body[at:at + width]) for at in range(0, len(body), width)]
        yield kind, characters(doc[name:name + length], form), value, *row[COUNT:]


def keeps(doc, words, out, source, target):
    """What is written can be read, means what was there, and comes back as the plain write has it; a third way carries the one to the other."""
    rows = rows_read(out, target)
    assert [*meant(doc, tables.rows_of(words), source)] == [*meant(out, rows, target)], (doc, words)
    plain = tables.written(doc, words, source)
    assert converted(out, flat(rows), target, source) == plain, (doc, words)
    if source is not target:
        java, pocket = (plain, out) if source is JAVA else (out, plain)
        assert Carrier(java).carried() == pocket, (doc, words)


class Cases(tables.Cases):
    """Cases of one way. A document is what is given, then `more` times the byte `run`, then its last bytes."""

    def __init__(self, way):
        super().__init__(form_of(way[0]))
        self.way, self.target = way, form_of(way[1])

    def put(self, doc, words, room=None, more=0, run=97, tail=b""):
        """A case; the room is just enough where none is given, or what `room` makes of that."""
        whole = doc + bytes([run]) * more + tail
        check = "table" if tables.is_table(len(whole), words) else "none"
        try:
            out, answer = converted(whole, words, self.form, self.target), None
            size = len(out)
            if size < 5000 or room is None:  # it takes long of a long string
                keeps(whole, words, out, self.form, self.target)
        except Refused as e:
            out, answer, size = b"", (*e.args, 0)[:3], 12  # beside all but 4 there is 0
        space = size if room is None else max(0, room(size)) if callable(room) else room
        if answer is None and len(out) > space:
            out, answer = b"", (13, 0, 0)
        line = "%08x%08x" % self.way + f" {doc.hex()} {run:02x} {more} {tail.hex()} " + "".join(f"{w:08x}" for w in words) + f" {space}"
        assert len(line) <= 65536 and len(whole) <= 70000 and space <= 70000 and len(words) <= 9216
        said = f"written {len(out)}" if answer is None else "refused %d %d %d" % answer
        self.lines.append(line)
        self.answers.append(f"{check} {said} " + (out + b"\xAA" * (space - len(out))).hex().upper())
        key = "written" if answer is None else f"refused {answer[0]}"
        self.seen[key] = self.seen.get(key, 0) + 1

    def gives(self, doc, rows, out, room=None, **run):
        """A case of which it is known beforehand what is written."""
        self.put(doc, flat(rows), room, **run)
        assert self.answers[-1] == f"table written {len(out)} {out.hex().upper()}", (doc, rows, self.answers[-1])

    def refused(self, doc, rows, answer, room=4, more=0, **run):
        self.put(doc, flat(rows), room, more, **run)
        assert self.answers[-1] == "table refused %d %d %d " % answer + "AA" * room, (doc, rows, self.answers[-1])


class Ways(dict):
    """The cases of each way."""

    def __missing__(self, way):
        self[way] = Cases(way)
        return self[way]

    def both(self):
        return [self[way] for way in BOTH]


# ---- by hand: documents in both forms

A254 = "61" * 254
INTS = "01020304 05060708 11121314 15161718 21222324", "04030201 08070605 14131211 18171615 24232221"
LONGS = "0102030405060708 1112131415161718", "0807060504030201 1817161514131211"
PAYLOADS = [
    # numbers; floats by their bits: NaNs with what they carry, quiet and signalling, and -0
    (1, "80", "80"), (2, "0102", "0201"), (2, "8000", "0080"), (2, "FFFE", "FEFF"), (3, "01020304", "04030201"), (3, "80000000", "00000080"),
    (3, "FFFFFFFE", "FEFFFFFF"), (4, "0102030405060708", "0807060504030201"), (4, "8000000000000001", "0100000000000080"),
    (5, "7FA00001", "0100A07F"), (5, "FFC12345", "4523C1FF"), (5, "80000000", "00000080"), (5, "3F800000", "0000803F"), (5, "7F800000", "0000807F"),
    (6, "7FF4000000000001", "010000000000F47F"), (6, "FFF8123456789ABC", "BC9A78563412F8FF"), (6, "3FB999999999999A", "9A9999999999B93F"),
    # arrays, element by element
    (7, "00000000", "00000000"), (7, "00000001 80", "01000000 80"), (7, "00000002 0102", "02000000 0102"),
    (7, "00000005 0102030405", "05000000 0102030405"), (7, "00000100" + "61" * 256, "00010000" + "61" * 256),
    (7, "00000102" + "61" * 258, "02010000" + "61" * 258),
    (11, "00000000", "00000000"), (11, "00000001 01020304", "01000000 04030201"), (11, "00000002 01020304 05060708", "02000000 04030201 08070605"),
    (11, "00000005" + INTS[0], "05000000" + INTS[1]), (12, "00000000", "00000000"), (12, "00000001 0102030405060708", "01000000 0807060504030201"),
    (12, "00000002" + LONGS[0], "02000000" + LONGS[1]),
    (12, "00000005" + LONGS[0] * 2 + "A1A2A3A4A5A6A7A8", "05000000" + LONGS[1] * 2 + "A8A7A6A5A4A3A2A1"),
    # characters: U+0000, the edges of one byte, two and three, the first pair and the last, and the ends of each half
    (8, "0000", "0000"), (8, "0002 C080", "0100 00"), (8, "0001 01", "0100 01"), (8, "0001 7F", "0100 7F"), (8, "0002 C280", "0200 C280"),
    (8, "0002 DFBF", "0200 DFBF"), (8, "0003 E0A080", "0300 E0A080"), (8, "0003 ED9FBF", "0300 ED9FBF"), (8, "0003 EE8080", "0300 EE8080"),
    (8, "0003 EFBFBF", "0300 EFBFBF"), (8, "0006 EDA080EDB080", "0400 F0908080"), (8, "0006 EDAFBFEDBFBF", "0400 F48FBFBF"),
    (8, "0006 EDA080EDBFBF", "0400 F0908FBF"), (8, "0006 EDAFBFEDB080", "0400 F48FB080"), (8, "0006 EDA0BDEDB880", "0400 F09F9880"),
    (8, "0010 61C080C3A9E282ACEDA0BDEDB880C080", "0C00 6100C3A9E282ACF09F988000"), (8, "0006 C080C080C080", "0300 000000"),
    (8, "000C EDA080EDB080EDAFBFEDBFBF", "0800 F0908080F48FBFBF"), (8, "0100 C080" + A254, "FF00 00" + A254),
    (8, "0101 C080" + A254 + "62", "0001 00" + A254 + "62"), (8, "0106" + A254 + "C080EDA080EDB080", "0301" + A254 + "00F0908080"),
    # lists and compounds
    (9, "00 00000000", "00 00000000"), (9, "01 00000002 0708", "01 02000000 0708"), (9, "02 00000002 0102 0304", "02 02000000 0201 0403"),
    (9, "03 00000001 01020304", "03 01000000 04030201"), (9, "04 00000002" + LONGS[0], "04 02000000" + LONGS[1]),
    (9, "05 00000001 7FA00001", "05 01000000 0100A07F"), (9, "06 00000002" + LONGS[0], "06 02000000" + LONGS[1]),
    (9, "07 00000002 00000001 07 00000000", "07 02000000 01000000 07 00000000"),
    (9, "08 00000003 0000 0002C080 000161", "08 03000000 0000 010000 010061"),
    (9, "08 00000002 0006EDA0BDEDB880 0002C080", "08 02000000 0400F09F9880 010000"),
    (9, "09 00000002 02 00000001 0102 00 00000000", "09 02000000 02 01000000 0201 00 00000000"),
    (9, "09 00000001 09 00000001 01 00000001 07", "09 01000000 09 01000000 01 01000000 07"),
    (9, "0A 00000002 02000173 0102 00 00", "0A 02000000 02010073 0201 00 00"),
    (9, "0B 00000002 00000001 01020304 00000000", "0B 02000000 01000000 04030201 00000000"),
    (9, "0C 00000001 00000002" + LONGS[0], "0C 01000000 02000000" + LONGS[1]), (10, "00", "00"), (10, "0A0000 00 00", "0A0000 00 00"),
    (10, "01000162 07 0C000163 00000001 0102030405060708 00", "01010062 07 0C010063 01000000 0807060504030201 00"),
    (10, "0A0002C080 030002C080 01020304 00 00", "0A010000 03010000 04030201 00 00"),
]
DOCUMENTS = [(f"0A0000 {kind:02X}000161 {java} 00", f"0A0000 {kind:02X}010061 {pocket} 00") for kind, java, pocket in PAYLOADS] + [
    # names of roots and entries; those of one compound are alike, and yet different in both forms
    ("0A0000 00", "0A0000 00"), ("0A000161 00", "0A010061 00"), ("0A0002C080 00", "0A010000 00"), ("0A0006EDA0BDEDB880 00", "0A0400F09F9880 00"),
    ("0A0100" + "61" * 256 + "00", "0A0001" + "61" * 256 + "00"), ("0A000161 01000162 FF 00", "0A010061 01010062 FF 00"),
    ("0A0000 010000 01 010002C080 02 010004C080C080 03 01000361C080 04 010003C08061 05 01000161 06 00",
     "0A0000 010000 01 01010000 02 0102000000 03 0102006100 04 0102000061 05 01010061 06 00"),
    ("0A0000 010006EDA080EDB080 01 010006EDA080EDB081 02 010006EDA081EDB080 03 010003EE8080 04 010003EFBFBF 05 00",
     "0A0000 010400F0908080 01 010400F0908081 02 010400F0909080 03 010300EE8080 04 010300EFBFBF 05 00"),
    ("0A0002C080 0A0002C080 010002C080 01 00 020003C08061 0102 00", "0A010000 0A010000 01010000 01 00 0202000061 0201 00"),  # one within another
]
ONE_WAY = [  # an empty list forgets its id; what follows the root is left out
    (THERE, "0A0000 0900016C 05 00000000 00", "0A0000 0901006C 0000000000 00"),
    (BACK, "0A0000 0901006C 0C 00000000 00", "0A0000 0900016C 0000000000 00"),
    (THERE, "0A0000 0900016C 09 00000002 0A 00000000 01 00000000 00", "0A0000 0901006C 09 02000000 0000000000 0000000000 00"),
    (BACK, "0A0000 0901006C 09 02000000 08 00000000 07 00000000 00", "0A0000 0900016C 09 00000002 0000000000 0000000000 00"),
    (THERE, "0A0000 00 FFFF00", "0A0000 00"), (BACK, "0A010000 00 C080", "0A0002C080 00"), (THERE, "0A0000 00 0A0000 00", "0A0000 00"),
]


def documents_by_hand(ways):
    """Both ways and as they stand: with just enough room, a byte too little, none, and some to spare."""
    for java, pocket in DOCUMENTS:
        docs = {0: hexed(java), 2: hexed(pocket)}
        for source, doc in docs.items():
            rows = rows_read(doc, form_of(source))
            for target, out in docs.items():
                cases = ways[source, target]
                cases.gives(doc, rows, out)
                if source != target:
                    cases.refused(doc, rows, (13, 0, 0), len(out) - 1)
                    cases.refused(doc, rows, (13, 0, 0), 0)
                    cases.put(doc, flat(rows), lambda n: n + 3)
    for way, doc, out in ONE_WAY:
        ways[way].gives(hexed(doc), rows_read(hexed(doc), form_of(way[0])), hexed(out))


def rooms(ways):
    """Every room up to a little more than what is written."""
    docs = "0A0002C080 03000161 01020304 080000 0006EDA0BDEDB880 00", "0A010000 03010061 04030201 080000 0400F09F9880 00"
    for cases, doc in zip(ways.both(), docs):
        rows = rows_read(hexed(doc), cases.form)
        size = len(converted(hexed(doc), flat(rows), cases.form, cases.target))
        for room in range(size + 3):
            cases.put(hexed(doc), flat(rows), room)
            assert cases.answers[-1].startswith(f"table written {size} " if size <= room else "table refused 13 0 0 ")


# ---- by hand: tables that no reader made

EIGHT = "6162 0102030405060708"  # two letters and a number
HAND_MADE = [
    # one number after another out of the same bytes, and a list of bytes backwards
    (THERE, EIGHT, [[10, 0, 0, 0, 0, 4, 0, 5, 0], [4, 0, 1, 2, 8, 0, 0, 2, 0], [3, 1, 1, 3, 4, 0, 0, 3, 0], [11, 0, 2, 2, 8, 2, 0, 4, 0],
                    [12, 0, 0, 2, 8, 1, 0, 5, 0]],
     "0A0000 04010061 0807060504030201 03010062 05040302 0B02006162 02000000 04030201 08070605 0C0000 01000000 0807060504030201 00"),
    (BACK, EIGHT, [[10, 1, 1, 0, 0, 3, 0, 4, 0], [6, 0, 1, 2, 8, 0, 0, 2, 0], [2, 1, 1, 9, 2, 0, 0, 3, 0], [7, 0, 2, 2, 8, 8, 0, 4, 0]], None),
    (BACK, EIGHT, [[10, 1, 1, 0, 0, 3, 0, 4, 0], [6, 0, 1, 2, 8, 0, 0, 2, 0], [2, 1, 1, 8, 2, 0, 0, 3, 0], [7, 0, 2, 2, 8, 8, 0, 4, 0]],
     "0A000162 06000161 0807060504030201 02000162 0807 0700026162 00000008 0102030405060708 00"),
    (THERE, EIGHT, [[10, 2, 0, 0, 0, 1, 0, 4, 0], [9, 10, 0, 0, 0, 2, 1, 4, 0], [1, 0, 0, 9, 1, 0, 0, 3, 1], [1, 0, 0, 2, 1, 0, 0, 4, 1]],
     "0A0000 090000 01 02000000 0801 00"),
    # strings that overlap and repeat, names and payloads of one span, numbers out of characters
    (BACK, "000000", [[10, 0, 3, 0, 0, 3, 0, 4, 0], [8, 0, 1, 0, 3, 0, 0, 2, 0], [8, 1, 2, 2, 1, 0, 0, 3, 0], [8, 3, 0, 3, 0, 0, 0, 4, 0]],
     "0A0006C080C080C080 080002C080 0006C080C080C080 080004C080C080 0002C080 080000 0000 00"),
    (THERE, "C080C080", [[10, 0, 4, 0, 0, 3, 0, 4, 0], [8, 2, 2, 0, 4, 0, 0, 2, 0], [8, 0, 0, 2, 2, 0, 0, 3, 0], [3, 0, 4, 0, 4, 0, 0, 4, 0]],
     "0A02000000 08010000 02000000 080000 010000 0302000000 80C080C0 00"),
    (BACK, "F09F9880", [[10, 0, 4, 0, 0, 2, 0, 3, 0], [8, 0, 4, 0, 4, 0, 0, 2, 0], [3, 0, 0, 0, 4, 0, 0, 3, 0]],
     "0A0006EDA0BDEDB880 080006EDA0BDEDB880 0006EDA0BDEDB880 030000 80989FF0 00"),
    (THERE, "EDA0BDEDB880", [[10, 6, 0, 0, 0, 1, 0, 2, 0], [8, 0, 6, 0, 6, 0, 0, 2, 0]], "0A0000 080400F09F9880 0400F09F9880 00"),
    (THERE, "", [[10, 0, 0, 0, 0, 0, 0, 1, 0]], "0A0000 00"),
    (BACK, "", [[10, 0, 0, 0, 0, 1, 0, 2, 0], [9, 0, 0, 0, 0, 0, 0, 2, 0]], "0A0000 090000 0000000000 00"),
]
REFUSED = [
    # the source's rule alone says what is well formed
    (THERE, "00", [[10, 0, 1, 0, 0, 0, 0, 1, 0]], (4, 0, 0)), (BACK, "C080", [[10, 0, 2, 0, 0, 0, 0, 1, 0]], (4, 0, 0)),
    (THERE, "F09F9880", [[10, 0, 4, 0, 0, 0, 0, 1, 0]], (4, 0, 0)), (BACK, "EDA0BDEDB880", [[10, 0, 6, 0, 0, 0, 0, 1, 0]], (4, 0, 0)),
    (THERE, "C080C080", [[10, 1, 3, 0, 0, 0, 0, 1, 0]], (4, 1, 0)),
    (THERE, "6BC08000", [[10, 0, 0, 0, 0, 1, 0, 2, 0], [8, 0, 1, 1, 3, 0, 0, 2, 0]], (4, 3, 1)),
    (BACK, "6B00C080", [[10, 0, 0, 0, 0, 1, 0, 2, 0], [8, 0, 1, 1, 3, 0, 0, 2, 0]], (4, 2, 1)),
    (BACK, "F09F9880", [[10, 0, 3, 0, 0, 0, 0, 1, 0]], (4, 0, 0)),
    # a name twice in a compound, by its bytes as they stand
    (THERE, "C080C080", [[10, 0, 0, 0, 0, 2, 0, 3, 0], [1, 0, 2, 0, 1, 0, 0, 2, 0], [1, 2, 2, 0, 1, 0, 0, 3, 0]], (6, 2, 0)),
    (BACK, "000000", [[10, 0, 0, 0, 0, 2, 0, 3, 0], [1, 0, 2, 0, 1, 0, 0, 2, 0], [1, 1, 2, 0, 1, 0, 0, 3, 0]], (6, 2, 0)),
    (THERE, "EDA0BDEDB880", [[10, 0, 0, 0, 0, 2, 0, 3, 0], *([1, 0, 6, 0, 1, 0, 0, n, 0] for n in (2, 3))], (6, 2, 0)),
    (BACK, "F09F9880", [[10, 0, 0, 0, 0, 3, 0, 4, 0], [1, 0, 4, 0, 1, 0, 0, 2, 0], [1, 0, 0, 0, 1, 0, 0, 3, 0], [1, 0, 4, 0, 1, 0, 0, 4, 0]],
     (6, 3, 0)),
]


def tables_by_hand(ways):
    for way, doc, rows, out in HAND_MADE:
        if out is None:  # a span past the end
            ways[way].no_table(hexed(doc), flat(rows))
        else:
            ways[way].gives(hexed(doc), rows, hexed(out))
            ways[way].refused(hexed(doc), rows, (13, 0, 0), len(hexed(out)) - 1)
            ways[way].no_table(hexed(doc), with_parent(rows, len(rows) - 1, len(rows)))
    for way, doc, rows, answer in REFUSED:
        for room in (0, 60):
            ways[way].refused(hexed(doc), rows, answer, room)


NUMBERS = [0, 1, 2, 3, 4, 255, 256, 258, 514, 1 << 17, 1 << 31 | 2, 4294967295]


def of_numbers(ways):
    """Every number as either form: a good document, and a string that only one of the forms can read."""
    docs = {JAVA: hexed("0A0002C080 03000161 01020304 00"), POCKET: hexed("0A010000 03010061 04030201 00")}
    for source in NUMBERS:
        for target in NUMBERS:
            cases = ways[source, target]
            cases.gives(docs[cases.form], rows_read(docs[cases.form], cases.form), docs[cases.target])
            for text in (b"\0", b"\xC0\x80"):
                cases.put(text, [10, 0, len(text), 0, 0, 0, 0, 1, 0])


# ---- by hand: strings near 65,535 bytes

FITS = (13, 0, 0)  # with no room, what passes every question about records is refused last of all
LONG = [  # first bytes, a byte and how often it follows, last bytes; 12, or 4 with its offset
    # a zero byte grows by one, four bytes grow by two
    (BACK, "", 97, 65535, "", FITS), (BACK, "00", 97, 65534, "", 12), (BACK, "", 97, 65534, "00", 12), (BACK, "00", 97, 65533, "", FITS),
    (BACK, "", 97, 65533, "00", FITS), (BACK, "0000", 97, 65532, "", 12), (BACK, "0000", 97, 65531, "", FITS), (BACK, "00", 97, 65531, "00", FITS),
    (BACK, "", 0, 32767, "", FITS), (BACK, "", 0, 32767, "61", FITS), (BACK, "", 0, 32768, "", 12), (BACK, "", 0, 32769, "", 12),
    (BACK, "", 0, 65535, "", 12), (BACK, "F0908080", 97, 65531, "", 12), (BACK, "F0908080", 97, 65530, "", 12),
    (BACK, "F0908080", 97, 65529, "", FITS), (BACK, "", 97, 65530, "F48FBFBF", 12), (BACK, "", 97, 65529, "F48FBFBF", FITS),
    (BACK, "00", 97, 65528, "F0908080", 12), (BACK, "00", 97, 65527, "F0908080", FITS), (BACK, "C3A9E282AC", 97, 65530, "", FITS),
    (BACK, "F0908080" * 400, 97, 63136, "", 12), (BACK, "F0908080" * 400, 97, 63135, "", FITS),
    # as it stands it is too long, whatever it holds
    (BACK, "", 97, 65536, "", 12), (BACK, "", 97, 69900, "", 12), (BACK, "FF", 97, 65535, "", 12), (BACK, "", 97, 65535, "FF", 12),
    (BACK, "", 0, 65536, "", 12), (BACK, "", 255, 65536, "", 12),
    # 4 before what the characters before it would take
    (BACK, "0000", 97, 65532, "FF", (4, 65534)), (BACK, "", 0, 40000, "C3", (4, 40000)), (BACK, "", 0, 65533, "C080", (4, 65533)),
    (BACK, "FF", 0, 65534, "", (4, 0)), (BACK, "F0908080", 97, 65530, "80", (4, 65534)), (BACK, "0000", 97, 65530, "F09080", (4, 65532)),
    # the other way strings shrink, and none is too long but as it stands
    (THERE, "", 97, 65535, "", FITS), (THERE, "", 97, 65536, "", 12), (THERE, "C080", 97, 65533, "", FITS), (THERE, "C080", 97, 65534, "", 12),
    (THERE, "", 97, 65533, "C080", FITS), (THERE, "", 97, 65534, "C080", 12), (THERE, "C080C080C080", 97, 65530, "", 12),
    (THERE, "C080" * 400, 97, 64735, "", FITS), (THERE, "EDA080EDB080", 97, 65529, "", FITS), (THERE, "EDA080EDB080", 97, 65530, "", 12),
    (THERE, "", 97, 65529, "EDAFBFEDBFBF", FITS), (THERE, "", 97, 65530, "EDAFBFEDBFBF", 12), (THERE, "", 97, 65534, "00", (4, 65534)),
    (THERE, "", 97, 65535, "00", 12), (THERE, "", 0, 65536, "", 12), (THERE, "00", 97, 65534, "", (4, 0)),
    (THERE, "C080", 97, 65532, "ED", (4, 65534)), (THERE, "", 97, 65532, "EDA080", (4, 65532)), (THERE, "", 97, 69900, "", 12),
    # and as they stand they are written with no change
    ((2, 2), "00", 97, 65534, "", FITS), ((2, 2), "", 0, 65535, "", FITS), ((2, 2), "", 0, 65536, "", 12), ((2, 2), "F0908080", 97, 65531, "", FITS),
    ((0, 0), "C080", 97, 65533, "", FITS), ((0, 0), "C080", 97, 65534, "", 12), ((0, 0), "EDA080EDB080", 97, 65529, "", FITS),
]
WHOLE = [  # written in full, in a spot
    (BACK, "", 97, 65533, "00", "root"), (BACK, "00", 97, 65527, "F0908080", "name"), (BACK, "", 0, 32767, "61", "text"),
    (THERE, "C080", 97, 65527, "EDAFBFEDBFBF", "element"), (THERE, "EDA080EDB080", 97, 65529, "", "name"),
]


def long_ones(ways):
    for way, first, run, more, tail, answer in LONG:
        length = len(hexed(first)) + more + len(hexed(tail))
        for spot, record in SPOTS:
            said = answer if answer == FITS else (12, record, 0) if answer == 12 else (4, len(HEAD) + answer[1], record)
            rows = with_strings(**{spot: (len(HEAD), length)})
            ways[way].refused(HEAD + hexed(first), rows, said, 0, more, run=run, tail=hexed(tail))
    for way, first, run, more, tail, spot in WHOLE:
        length = len(hexed(first)) + more + len(hexed(tail))
        ways[way].put(HEAD + hexed(first), flat(with_strings(**{spot: (len(HEAD), length)})), None, more, run, hexed(tail))
        assert " written 65" in ways[way].answers[-1]


# ---- by hand: the order of refusals

ORDER_DOC, ORDER_RUN = HEAD + b"ab\xFFc\x80\0", 65600  # letters follow
FIRST, SECOND = (8, 3), (11, 2)  # with faults at 10 and 12
GROWN, OVER = (13, 65535), (13, 65536)  # a zero byte and letters: too long in Java's form alone, and as it stands
AGAIN = (4, 1)  # the list's own name
ORDER = [
    # within a record: the name's before the string's
    (dict(name=GROWN, text=FIRST), (12, 1, 0)), (dict(name=FIRST, text=GROWN), (4, 10, 1)), (dict(name=GROWN, text=OVER), (12, 1, 0)),
    (dict(name=OVER, text=GROWN), (12, 1, 0)), (dict(name=GROWN, text=GROWN), (12, 1, 0)), (dict(text=GROWN), (12, 1, 0)),
    (dict(name=GROWN), (12, 1, 0)),
    # records in turn: 12 before 4, 4 before 12, and of two the first
    (dict(root=GROWN, name=FIRST, text=SECOND), (12, 0, 0)), (dict(text=GROWN, element=FIRST), (12, 1, 0)),
    (dict(name=GROWN, element=OVER), (12, 1, 0)), (dict(root=FIRST, name=GROWN), (4, 10, 0)), (dict(text=SECOND, element=GROWN), (4, 12, 1)),
    (dict(text=OVER, element=GROWN), (12, 1, 0)), (dict(root=GROWN, element=GROWN), (12, 0, 0)), (dict(element=GROWN), (12, 4, 0)),
    (dict(element=OVER), (12, 4, 0)), (dict(element=SECOND), (4, 12, 4)),
]
BEHIND = [  # one entry more: its name and its string; 6 is asked after the name's 12, and before the string's
    (dict(), AGAIN, GROWN, (6, 5, 0)), (dict(), AGAIN, OVER, (6, 5, 0)), (dict(name=AGAIN), (5, 1), GROWN, (6, 2, 0)),
    (dict(text=GROWN), AGAIN, FIRST, (12, 1, 0)), (dict(name=GROWN), GROWN, (0, 1), (12, 1, 0)), (dict(), GROWN, FIRST, (12, 5, 0)),
    (dict(), FIRST, GROWN, (4, 10, 5)), (dict(element=GROWN), AGAIN, (0, 1), (12, 4, 0)), (dict(name=GROWN), AGAIN, (0, 1), (12, 1, 0)),
    (dict(root=GROWN), AGAIN, (0, 1), (12, 0, 0)),
]
DEEP = [(512, (12, 512, 0)), (None, (7, 512, 0))]  # the name of the container at depth 513, and none


def of_order(cases):
    """A string that only grows too long comes where its record does; 10 before it, 13 behind it. The way is back."""
    doc, more = ORDER_DOC, ORDER_RUN
    for spots, answer in ORDER:
        for room in (0, 1, 60):
            cases.refused(doc, with_strings(**spots), answer, room, more)
        cases.no_table(doc, with_parent(with_strings(**spots), 1, 1), more)
    for spots, name, text, answer in BEHIND:
        cases.refused(doc, and_behind(with_strings(**spots), name, text), answer, 4, more)
    # a string in a list of bytes
    for spots, answer in [(dict(element=GROWN), (11, 4, 0)), (dict(element=OVER), (11, 4, 0)), (dict(text=GROWN), (12, 1, 0))]:
        rows = with_strings(**spots)
        rows[2][LIST_KIND], rows[3][KIND], rows[3][LENGTH] = 1, 1, 1
        cases.refused(doc, and_behind(rows, (5, 1), GROWN), answer, 4, more)
    for at, answer in DEEP:
        rows = chain(513, 10)
        if at:
            rows[at][NAME:START] = GROWN
        cases.refused(doc, and_behind(rows, (5, 1), GROWN), answer, 4, more)
    cases.refused(doc, and_behind(chain(512, 9), (5, 1), GROWN), (12, 512, 0), 4, more)


def of_depths(ways):
    """512 containers, and one more; a fault behind as many as there may be."""
    for cases, kind in zip(ways.both(), (9, 10)):
        cases.put(HEAD, flat(chain(512, kind)))
        cases.refused(HEAD, chain(513, 19 - kind), (7, 512, 0))
    ways[THERE].refused(HEAD + b"\0", and_behind(chain(512, 10), (5, 1), (8, 1)), (4, 8, 512))


# ---- characters

def texts(r):
    """Each edge alone, beside itself and among others, behind so many letters as are taken together; then characters of all sorts."""
    for c in map(chr, EDGES):
        yield from (c, c + c, "a" + c, c + "a", "é" + c + "\0", "\0" + c + "😀")
        yield from ("a" * many + c + "b" * 40 for many in (15, 16, 31, 63, 64))
    for many in (*range(1, 20), 31, 32, 33, 63, 64, 65, 128, 200):
        yield "\0" * many
        yield "😀" * many
    for _ in range(40):
        yield "".join(any_character(r) for _ in range(r.randrange(1, 60)))


def any_character(r):
    """An edge, or any character of a plane."""
    if r.randrange(3) == 0:
        return chr(r.choice(EDGES))
    c = r.choice([r.randrange(0x80), r.randrange(0x800), r.randrange(0x10000), r.randrange(0x110000)])
    return "\0" if 0xD800 <= c < 0xE000 else chr(c)


def of_texts(r, ways):
    for i, text in enumerate(texts(r)):
        spot, _ = SPOTS[i % 4]
        for cases in ways.both():
            there, here = cases.target.text(text), cases.form.text(text)
            cases.put(HEAD + here, flat(with_strings(**{spot: (len(HEAD), len(here))})), r.choice([None, lambda n: n + 2]))
            assert there.hex().upper() in cases.answers[-1]


def of_faults(cases):
    """The place of refusal 4 and the record beside it, by the source's rule (02, [3])."""
    for i, (text, place) in enumerate([*listing.broken_strings(cases.form)][::7] + [*listing.far_strings(cases.form)][::11]):
        spot, record = SPOTS[i % 4]
        cases.refused(HEAD + text + b"z", with_strings(**{spot: (len(HEAD), len(text))}), (4, len(HEAD) + place, record))


def of_spans(cases, around):
    """Every span of a few bytes as a name or a string: spans that overlap, begin or end within a character, and hold a fault."""
    doc = HEAD + hexed(around)
    for start in range(len(HEAD) - 1, len(doc) + 1):
        for end in range(max(start, len(HEAD)), len(doc) + 1):
            cases.put(doc, flat(with_strings(**{SPOTS[(start + end) % 4][0]: (start, end - start)})))


# ---- at random: trees that stand in no form yet

def number(r, kind):
    """Bits of a number; of a float often a NaN's."""
    bits = 8 * WIDTH[kind]
    nan = {5: 0x7F800000, 6: 0x7FF0000000000000}.get(kind, 0) if r.randrange(3) == 0 else 0
    return r.choice([r.getrandbits(bits), r.getrandbits(bits), 1, 1 << bits - 1, (1 << bits) - 2]) | nan


def text_of(r, most):
    return "".join(any_character(r) if r.randrange(2) else r.choice("ab\0") for _ in range(r.randrange(most)))


def value_of(r, kind, deep):
    """A number's bits, an array's, characters, a list's kind and its elements, or kinds and values by name."""
    if kind == 8:
        return text_of(r, 8)
    if kind in (7, 11, 12):
        return [number(r, kind) for _ in range(r.choice([0, 1, 2, 5]))]
    if kind == 9:
        each = r.randrange(1, 13)
        return each, [value_of(r, each, deep - 1) for _ in range(r.choice([0, 1, 2, 3]) if deep else 0)]
    if kind == 10:
        kinds = {text_of(r, 5): r.randrange(1, 13) for _ in range(r.choice([0, 1, 2, 4]) if deep else 0)}
        return {name: (inner, value_of(r, inner, deep - 1)) for name, inner in kinds.items()}
    return number(r, kind)


def spelt(kind, value, form, ids):
    """A payload in a form; an empty list may have any id."""
    if kind == 8:
        return form.string(form.text(value))
    if kind in (7, 11, 12):
        return form.bytes(len(value), 4) + b"".join(form.bytes(v, WIDTH[kind]) for v in value)
    if kind == 9:
        each, values = value
        return bytes([each if values or ids else 0]) + form.bytes(len(values), 4) + b"".join(spelt(each, v, form, ids) for v in values)
    if kind == 10:
        return b"".join(bytes([k]) + form.string(form.text(name)) + spelt(k, v, form, ids) for name, (k, v) in value.items()) + b"\0"
    return form.bytes(value, WIDTH[kind])


def strayed(r, doc, rows):
    """The table with a span or two somewhere else in the document."""
    rows = [[*row] for row in rows]
    for _ in range(r.choice([1, 1, 2])):
        i = r.randrange(len(rows))
        row, element = rows[i], rows[i][NAME] == 0
        if row[KIND] in (9, 10) and element:
            continue
        start = r.randrange(len(doc) + 1)
        length = r.randrange(min(9, len(doc) - start) + 1)
        if row[KIND] in (9, 10) or not element and r.randrange(2):
            row[NAME:START] = start, length
        elif row[KIND] == 8:
            row[START:COUNT] = start, length
        else:
            row[START] = min(start, len(doc) - row[LENGTH])
    return rows


def of_trees(r, ways, many):
    """Documents of random trees in both forms, with tables as they are read; then in the same way or as they stand, after a change."""
    while many:
        name, tree = text_of(r, 4), value_of(r, 10, r.randrange(1, 4))
        for way in BOTH:
            source, target = map(form_of, way)
            doc = b"\x0A" + source.string(source.text(name)) + spelt(10, tree, source, True) + r.choice([b"", b"", b"\0\xFF"])
            rows = rows_read(doc, source)
            if not 3 <= len(rows) <= 12:
                break
            ways[way].gives(doc, rows, b"\x0A" + target.string(target.text(name)) + spelt(10, tree, target, False))
            cases = ways[way if r.randrange(5) else (way[0], way[0])]
            edit = r.randrange(4)
            words = tables.nudged(r, rows) if edit == 0 else flat(strayed(r, doc, rows) if edit < 3 else rows)
            cases.put(doc, words, r.choice([None, lambda n: n - 1, lambda n: n + 5]))
        else:
            many -= 1


def of_made_up(r, cases, many):
    """Tables whose spans are anywhere in a document of short characters."""
    some = [cases.form.text(c) for c in "aabbcdef\0\0é😀"]
    for _ in range(many):
        doc = b"".join(r.choice(some) for _ in range(r.choice([4, 20, 60])))
        rows = tables.made_up(r, doc, r.randrange(2) == 1)
        if len(rows) <= 12:
            cases.put(doc, flat(rows), r.choice([None, None, lambda n: n + 2, lambda n: n - 1]))


# ---- the cases of tables.py, and all of them

def of_tables(r, way):
    """The cases that are made for a plain write, converted; of these the short ones."""
    cases = Cases(way)
    tables.by_hand(cases)
    tables.from_documents(r, cases)
    tables.until(cases, 12, 30, lambda: tables.long_strings(r))
    tables.until(cases, 11, 60, lambda: (bytes(range(32, 127)), tables.made_up(r, bytes(range(32, 127)), True), 0))
    for make in (tables.of_siblings, tables.before_all_else, tables.of_lengths, tables.of_characters, tables.of_order):
        make(cases)
    tables.of_parents(r, cases)
    some = [(line, answer) for line, answer in zip(cases.lines, cases.answers) if len(line) <= 1500]
    return types.SimpleNamespace(lines=[line for line, _ in some], answers=[answer for _, answer in some])


def by_hand(r, ways):
    documents_by_hand(ways)
    rooms(ways)
    tables_by_hand(ways)
    of_numbers(ways)
    long_ones(ways)
    of_order(ways[BACK])
    of_depths(ways)
    of_texts(r, ways)
    for cases, around in zip(ways.both(), ("61C080C3A9E282ACEDA0BDEDB88062 00 C0", "6100C3A9E282ACF09F98800062 C080 F0")):
        of_faults(cases)
        of_spans(cases, around)


BAD_LINES = ["", "x"] + [f"{forms} {rest}" for forms, rest in [
    ("00000000", "0a000000 61 0  0000000a 4"), ("000000000000000g", "0a000000 61 0  0000000a 4"), ("0000000000000002", "0a0000zz 61 0  0000000a 4"),
    ("0000000000000002", "0a000000 61 0 f 0000000a 4"), ("0000000000000002", "0a000000 61 0  0000000a 70001"),
    ("0000000000000002", "0a000000 61 70000  0000000a 4"), ("0000000000000002", "0a000000 61 x  0000000a 4"),
]]


def main(folder):
    sys.setrecursionlimit(20000)
    r = random.Random(20261119)
    ways = Ways()
    by_hand(r, ways)
    of_trees(r, ways, 170)
    for cases in ways.both():
        of_made_up(r, cases, 150)
    some = [(line, answer) for cases in ways.values() for line, answer in zip(cases.lines, cases.answers)]
    for way, many in ((THERE, 200), (BACK, 200), ((0, 0), 30), ((2, 2), 30)):
        some += picked(of_tables(r, way), many, 3000)
    seen = collections.Counter(sort_of(answer) for _, answer in some)
    for refusal in (4, 6, 7, 11, 12, 13):
        assert seen[f"table refused {refusal}"] > (2 if refusal == 7 else 50), refusal  # a table for 7 has 37,000 digits
    assert seen["none refused 10"] >= 100 and len(some) >= 3000
    print(len(some), "conversions:", ", ".join(f"{k} {v}" for k, v in sorted(seen.items())))
    lines, out = BAD_LINES + [line for line, _ in some], ["badline"] * len(BAD_LINES) + [answer for _, answer in some]
    open(folder + "/stdin", "w", newline="").write("\n".join(lines) + "\n")
    open(folder + "/stdout", "w", newline="").write("\n".join(out) + "\n")


if __name__ == "__main__":
    main(sys.argv[1])
