#!/usr/bin/env python3
"""Writes the cases of crates/replay_rescue: stdin has a document and three rooms a line, stdout what the program must print.

    tests/replay/rescue.py crates/replay_rescue

The answers are worked out by a second rescue, below, that is written from documents 01 and 02 [11] alone: it goes forward through the bytes
with a stack of the containers that are open, hangs each tag that is whole on the tree, and writes that tree with a writer of its own, which
also numbers the records. Only whether, where and why a document is refused comes from the second reader of the listing. Refusal 9 can't
occur here, for no line is that long; tests/ffi/rescue.c has it.
"""
import random
import sys

import depths
import listing
import tables
from forms import JAVA
from listing import WIDTH, Refused, random_entries, string

LIST, COMPOUND, TEXT = 9, 10, 8
BYTES, TABLE, CHANGES = 4096, 5400, 4800  # what crates/replay_rescue has room for, in bytes, words of table and words of changes


class Reader(tables.Reader):
    depth = 512

    def __init__(self, doc, room, form):
        super().__init__(doc, form)
        self.room = room


class Ended(Exception):
    """The data ends in what is asked for."""


class Tag:
    def __init__(self, kind, name):
        self.kind, self.name = kind, name
        self.body = b""  # a leaf's bytes behind its name
        self.element, self.promised = 0, 0  # of a list, by its head
        self.children = []


class Salvage:
    """The tree of the tags that came before the data ends, and the containers that were open there, outermost first."""

    def __init__(self, doc, form):
        self.d, self.form, self.at, self.open, self.root = doc, form, 0, [], None
        try:
            assert self.take(1) == b"\x0A"
            self.root = Tag(COMPOUND, self.name())
            self.open.append(self.root)
            while self.open:
                self.turn(self.open[-1])
        except Ended:
            pass

    def take(self, n):
        if len(self.d) - self.at < n:
            raise Ended
        self.at += n
        return self.d[self.at - n:self.at]

    def name(self):
        return self.take(self.form.number(self.take(2)))

    def turn(self, top):
        """One tag more in the innermost open container, or its end."""
        if top.kind == LIST:
            if len(top.children) == top.promised:
                self.open.pop()
            else:
                self.tag(top, Tag(top.element, None))
            return
        kind = self.take(1)[0]
        if kind == 0:
            self.open.pop()
        else:
            self.tag(top, Tag(kind, self.name()))

    def tag(self, parent, tag):
        """A tag behind its name: hung on its parent once it counts as kept."""
        if tag.kind == COMPOUND:
            if tag.name is None and self.at == len(self.d):  # of an element one byte must be there
                raise Ended
        elif tag.kind == LIST:
            tag.element = self.take(1)[0]
            tag.promised = self.form.number(self.take(4))
        elif tag.kind == TEXT:
            size = self.take(2)
            tag.body = size + self.take(self.form.number(size))
        elif tag.kind in (7, 11, 12):
            many = self.take(4)
            tag.body = many + self.take(self.form.number(many) * WIDTH[tag.kind])
        else:
            tag.body = self.take(WIDTH[tag.kind])
        parent.children.append(tag)
        if tag.kind in (LIST, COMPOUND):
            self.open.append(tag)


class Writing:
    """A tree's document, and the number of each of its tags."""

    def __init__(self, root, form):
        self.form, self.out, self.numbers = form, bytearray(), {}
        self.put(root)

    def put(self, tag):
        self.numbers[tag] = len(self.numbers)
        if tag.name is not None:
            self.out += bytes([tag.kind]) + self.form.string(tag.name)
        if tag.kind == LIST:
            many = len(tag.children)
            self.out += bytes([tag.element if many else 0]) + self.form.bytes(many, 4)
        self.out += tag.body
        for child in tag.children:
            self.put(child)
        if tag.kind == COMPOUND:
            self.out += b"\0"


class Rescue:
    """The answer to a document with rooms in words, bytes and words, and what each lent memory holds after it."""

    def __init__(self, doc, words, room, changes, form=JAVA):
        self.form, self.out, self.changes, self.table = form, [], [], None
        reader = Reader(doc, words // tables.WORDS, form)
        try:
            reader.root()
        except Refused as e:
            self.refusal = (*e.args, 0)
            if e.args[0] == 1:
                self.cut(doc, e.args[1], room, changes)
            return
        self.refusal, self.table = (31, 0, 0), tables.flat(reader.rows)

    def cut(self, doc, place, room, changes):
        salvage = Salvage(doc, self.form)
        if salvage.root is None:
            self.refusal = (32, place, 0)
            return
        writing = Writing(salvage.root, self.form)
        lines = [(writing.numbers[tag], tag.promised, len(tag.children)) for tag in salvage.open]
        if changes // 3 < len(lines):
            self.refusal = (24, 0, len(lines))
        elif room < len(writing.out):
            self.refusal = (13, 0, 0)
        else:
            self.refusal = None
            self.out, self.changes = bytes(writing.out), [n for line in lines for n in line]
            self.look_over()

    def look_over(self):
        """What must hold of any rescue: the new document is whole, and each line names a container with so many children."""
        again = Reader(self.out, 1 << 20, self.form)
        assert again.root() == len(self.out)
        for at in range(0, len(self.changes), 3):
            record, promised, kept = self.changes[at:at + 3]
            kind, count = again.records[record][0], again.records[record][3]
            assert kind in (LIST, COMPOUND) and count == kept and (kept <= promised if kind == LIST else promised == 0)

    def line(self, words, room, changes):
        if self.refusal:
            said = "refused %d %d %d" % self.refusal
        else:
            said = "saved %d %d" % (len(self.out), len(self.changes) // 3)
        out = bytes(self.out) + b"\xAA" * (room - len(self.out))
        table = listed_words(self.table, words) if self.table else " zero"
        return f"{said}: {out.hex().upper()};{listed_words(self.changes, changes)};{table}"


def listed_words(words, room):
    """Words in decimal, and a dash for each that is as it was."""
    return "".join(f" {w}" for w in words) + " -" * (room - len(words))


def needed(doc, form=JAVA):
    """The rooms that are just enough: of records, bytes and words of changes."""
    reader = Reader(doc, 1 << 20, form)
    try:
        reader.root()
    except Refused as e:
        if e.args[0] == 1:
            rescue = Rescue(doc, tables.WORDS << 20, 1 << 20, 1 << 20, form)
            return len(reader.records), len(rescue.out), len(rescue.changes)
    return len(reader.records), 7, 5


def exact(n):
    return n


def short(n):
    return max(0, n - 1)


def none(_):
    return 0


class Cases:
    def __init__(self, form=JAVA):
        self.form, self.lines, self.answers, self.seen, self.put_already = form, [], [], {}, set()

    def put(self, doc, words=exact, room=exact, changes=exact):
        """A case: each room is what its function makes of the least one."""
        records, size, lines = needed(doc, self.form)
        words, room, changes = words(tables.WORDS * records), room(size), changes(lines)
        line = f"{doc.hex()} {words} {room} {changes}"
        if line in self.put_already:
            return
        self.put_already.add(line)
        assert len(doc) <= BYTES and words <= TABLE and room <= BYTES and changes <= CHANGES, (len(doc), words, room, changes)
        rescue = Rescue(doc, words, room, changes, self.form)
        self.lines.append(line)
        self.answers.append(rescue.line(words, room, changes))
        key = "refused %d" % rescue.refusal[0] if rescue.refusal else "saved"
        self.seen[key] = self.seen.get(key, 0) + 1

    def around(self, doc):
        """Rooms that are too small, one at a time and together, and rooms that are larger than need be."""
        self.put(doc, words=short)
        self.put(doc, words=lambda w: max(0, w - tables.WORDS))
        self.put(doc, changes=short)
        self.put(doc, changes=lambda n: max(0, n - 3))
        self.put(doc, room=short)
        self.put(doc, room=short, changes=short)
        self.put(doc, words=lambda w: w + tables.WORDS + 1, room=lambda n: n + 3, changes=lambda n: n + 2)

    def cuts(self, r, doc, often=6, places=None):
        """The document cut at every byte, or at these, and now and then rooms that are too small."""
        for at in places or range(len(doc) + 1):
            cut = doc[:at]
            self.put(cut)
            if r.randrange(often) == 0:
                self.around(cut)


# ---- documents

def entry(kind, name, payload):
    return bytes([kind]) + string(name) + payload


def many(n):
    return n.to_bytes(4, "big")


def listed(kind, *payloads):
    return bytes([kind]) + many(len(payloads)) + b"".join(payloads)


def compound(*entries):
    return b"".join(entries) + b"\0"


def document(name, *entries):
    return bytes([COMPOUND]) + string(name) + compound(*entries)


def every_kind(r):
    """A payload of each kind, none of them empty."""
    some = {kind: bytes(r.randrange(256) for _ in range(WIDTH[kind])) for kind in range(1, 7)}
    some |= {kind: many(2) + bytes(r.randrange(256) for _ in range(2 * WIDTH[kind])) for kind in (7, 11, 12)}
    return some | {TEXT: string("Größe".encode()), LIST: listed(2, b"\0\1", b"\0\2"), COMPOUND: compound(entry(1, b"x", b"\7"))}


def documents(r):
    kinds = every_kind(r)
    yield document(b"tile", *(entry(kind, b"k%d" % kind, kinds[kind]) for kind in range(1, 13)))
    for kind in range(1, 13):  # lists of each kind, of which the last is followed by an entry
        yield document(b"", entry(LIST, b"l", listed(kind, *[kinds[kind]] * 3)), entry(1, b"z", b"\1"))
    # compounds in compounds, with entries before and behind
    inner = compound(entry(3, b"lon", bytes(4)), entry(10, b"c", compound(entry(8, b"id", string(b"reef")))), entry(2, b"s", b"\0\7"))
    yield document(b"root", entry(10, b"a", inner), entry(10, b"b", compound()), entry(10, b"", inner))
    # lists of lists, empty ones with an id and without among them, and lists of lists of lists
    empty, odd = bytes(5), b"\x06" + bytes(4)
    yield document(b"", entry(9, b"ll", listed(9, listed(1, b"\1", b"\2"), empty, odd, listed(3, bytes(4)), listed(9, odd, listed(2, b"\0\1")))))
    deeper = listed(9, listed(9, listed(9, empty, odd), empty), listed(9, listed(5, bytes(4), bytes(4)), odd), odd)
    yield document(b"", entry(9, b"lll", deeper), entry(9, b"", odd))
    # whole empty lists with an id lose it
    yield document(b"e", *(entry(9, b"%x" % id, bytes([id]) + bytes(4)) for id in range(13)))
    # lists of compounds, some of them empty, and lists in those again
    scene = compound(entry(8, b"SceneId", string(b"S2A")), entry(9, b"f", listed(10, compound(entry(1, b"q", b"\1")), compound())))
    yield document(b"", entry(9, b"scenes", listed(10, scene, compound(), scene)), entry(9, b"none", listed(10, compound(), compound(), compound())))
    # lists of lists of compounds of lists
    leaf = compound(entry(9, b"w", listed(7, many(1) + b"\1", many(0), many(3) + b"abc")))
    yield document(b"", entry(9, b"x", listed(9, listed(10, leaf, leaf), listed(10), listed(10, leaf))))
    # names and strings of more than one byte a character: U+0000, pairs, the root's own
    pair, nul = b"\xED\xA0\xBD\xED\xB8\x80", b"\xC0\x80"
    texts = listed(8, string(pair), string(b""), string(nul))
    within = compound(entry(8, nul + pair, string(nul)))
    yield document(pair + nul, entry(8, nul, string(pair)), entry(10, pair, within), entry(9, "€".encode(), texts))
    # arrays, empty and not, in lists and beside them
    longs, ints = many(2) + bytes(range(16)), listed(11, many(0), many(3) + bytes(range(12)))
    yield document(b"", entry(7, b"e", many(0)), entry(12, b"l", longs), entry(9, b"a", ints), entry(11, b"i", many(5) + bytes(20)))
    # wide ones
    yield document(b"w", *(entry(1, b"%d" % n, bytes([n])) for n in range(30)))
    yield document(b"", entry(9, b"w", listed(1, *(bytes([n]) for n in range(90)))))
    yield document(b"", entry(9, b"w", listed(10, *[compound()] * 40)), *(entry(10, b"%d" % n, compound()) for n in range(12)))


def worked(cases):
    """What 02 says in words, worked out by hand: the document that is saved and its lines."""
    for doc, saved, lines in [
        # the root's name, and nothing after it
        ("0A000172", "0A00017200", [(0, 0, 0)]),
        # a list of three compounds, cut in the second, of which its end byte came, or one byte, or none
        ("0A0000 0900016C 0A00000003 00 00", "0A0000 0900016C 0A00000002 00 00 00", [(0, 0, 1), (1, 3, 2)]),
        ("0A0000 0900016C 0A00000003 00 01", "0A0000 0900016C 0A00000002 00 00 00", [(0, 0, 1), (1, 3, 2), (3, 0, 0)]),
        ("0A0000 0900016C 0A00000003 00", "0A0000 0900016C 0A00000001 00 00", [(0, 0, 1), (1, 3, 1)]),
        # all of a list's elements came, and the last is open
        ("0A0000 0900016C 0A00000002 00 01", "0A0000 0900016C 0A00000002 00 00 00", [(0, 0, 1), (1, 2, 2), (3, 0, 0)]),
        # the last is whole, and the document ends there
        ("0A0000 0900016C 0A00000002 00 00", "0A0000 0900016C 0A00000002 00 00 00", [(0, 0, 1)]),
        # an empty list is whole; one of which nothing came is open
        ("0A0000 0900016C 0500000000", "0A0000 0900016C 0000000000 00", [(0, 0, 1)]),
        ("0A0000 0900016C 0500000007", "0A0000 0900016C 0000000000 00", [(0, 0, 1), (1, 7, 0)]),
        # a list's head that is cut, and a compound's name that is
        ("0A0000 0900016C 05000000", "0A0000 00", [(0, 0, 0)]),
        ("0A0000 0A00016C", "0A0000 0A00016C 00 00", [(0, 0, 1), (1, 0, 0)]),
        ("0A0000 0A0001", "0A0000 00", [(0, 0, 0)]),
        # the entry that is cut vanishes, those before it stay
        ("0A0000 01000161 07 08000162 0003 6162", "0A0000 01000161 07 00", [(0, 0, 1)]),
    ]:
        doc = bytes.fromhex(doc)
        rescue = Rescue(doc, 900, 800, 800)
        assert rescue.refusal is None and rescue.out == bytes.fromhex(saved), doc.hex()
        assert rescue.changes == [n for line in lines for n in line], doc.hex()
        cases.put(doc)
        cases.around(doc)


def of_roots(cases):
    """The cut falls in the root's id or name, or right behind them."""
    for doc in ["", "0A", "0A00", "0A0001", "0A0002", "0A000261", "0A0002C0", "0A0001FF", "0A0000", "0A000161", "0A0002C080"]:
        doc = bytes.fromhex(doc)
        cases.put(doc)
        cases.around(doc)
        cases.put(doc, none, none, none)
        cases.put(doc, lambda w: 2 * tables.WORDS, lambda n: 20, lambda n: 9)


TAILS = """00 01 0C 0D FF 0100 010001 0D0001 010002C0 01000161 09000161 0900016101 090001610D 09000161FF 0900016100000000 0900016100FFFFFF
    0900016101FFFFFF 0800016100 080001610001 080001610002FF 0700016100 07000161000000 07000161FFFFFF 070001610000000201
    0B00016100000001000000 0C0001610000000100000000000000 0A000161 0A00016100 0A0001610100016200"""


def of_entries(cases):
    """An id byte alone, whatever its value; a name that is cut; a value that is missing or cut: in the root, in a compound, in lists."""
    for head in ["", "01000161 0A", "0A000163", "09000163 0A00000002", "09000163 0900000002"]:
        for tail in ["", *TAILS.split()]:
            doc = bytes.fromhex("0A000172" + head + tail)
            cases.put(doc)
            cases.put(doc, short)
            cases.put(doc, exact, short)
            cases.put(doc, exact, exact, short)


def of_counts(cases):
    """Counts that promise more than can come."""
    for count in (1, 2, 3, 255, 256, 65536, 2**31 - 1):
        for kind in (1, 3, 8, 9, 10, 12):
            way = bytes.fromhex("0A00000900016C") + bytes([kind]) + many(count)
            for came in (b"", b"\0", b"\0\0\0\0", b"\0\0\0\0\0", b"\1\0\0\0\0"):
                cases.put(way + came)
                cases.put(way + came, short)
                cases.put(way + came, lambda w: w + 100 * tables.WORDS)
        for kind in (7, 11, 12):
            came = b"\1\2\3"[:min(3, count * WIDTH[kind] - 1)]
            cases.put(b"\x0A\0\0" + entry(kind, b"l", many(count) + came))


def of_whole_ones(r, cases):
    """Documents that are whole, and bytes behind the root that would not be read as tags."""
    for doc in documents(random.Random(1)):
        cases.put(doc)
        cases.put(doc, room=none, changes=none)
        cases.put(doc + b"\x0A\0"[:r.randrange(3)] + b"\xFF" * r.randrange(4), lambda w: w + r.randrange(9))
        cases.put(doc, short)
    for tail in (b"", b"\0", b"\x0A", b"\x0A\0\0", b"\xFF" * 9):
        for rooms in ((exact, none, none), (exact, exact, exact), (lambda w: w + 7, exact, exact), (short, exact, exact), (none, none, none)):
            cases.put(b"\x0A\0\0\0" + tail, *rooms)


def refused_else(cases):
    """The reader's refusals other than 1, on documents that are cut behind the fault or not, with every room or with none."""
    faults = {
        2: ["00", "09", "090000", "FF00", "0B0000"],
        3: ["0A0000 0D000161", "0A0000 FF0000", "0A0000 09000161 0D00000000", "0A0000 09000161 0000000001", "0A0000 09000161 00FFFFFFFF",
            "0A0000 09000161 FF00000001"],
        4: ["0A000100", "0A0001FF 0A", "0A000201C0", "0A0000 010001C0", "0A0000 08000161 0002EDA0", "0A0000 08000161 000180", "0A0000 0D0001FF",
            "0A0003EDA0BD"],
        5: ["0A0000 07000161 80000000", "0A0000 0B000161 FFFFFFFF", "0A0000 0C000161 FFFFFFFF", "0A0000 09000161 01FFFFFFFF",
            "0A0000 09000161 0AFFFFFFFF 01"],
        6: ["0A0000 01000161 07 01000161", "0A0000 010000 00 0A0000", "0A0000 0A000161 00 09000161", "0A0000 0A000178 01000161 01 02000161"],
    }
    for number, docs in faults.items():
        for doc in docs:
            doc = bytes.fromhex(doc)
            assert Rescue(doc, 900, 0, 0).refusal[0] == number, doc.hex()
            for tail in (b"", b"\0", b"\x0A\0\0", b"\0\0\0\0"):
                for rooms in ((exact, exact, exact), (exact, none, none), (lambda w: w + 10 * tables.WORDS, lambda n: n + 90, lambda n: n + 30)):
                    cases.put(doc + tail, *rooms)
            for at in range(len(doc)):
                cases.put(doc[:at])


def deep_ones(r, cases):
    """Containers up to 512 deep and past it, cut at the ends of what is laid out and in a few places between."""
    for shape in depths.SHAPES:
        for deep in (2, 3, 5, 8):
            cases.cuts(r, depths.nested(shape(deep), depths.BYTE), often=3)
        for deep in (511, 512, 513):
            doc, way = depths.nested(shape(deep), depths.BYTE), len(depths.way_to(shape(deep)))
            places = {511: {way}, 512: {way - 1, way, way + 5, len(doc) - 1, r.randrange(way)}, 513: {way - 1, way, way + 1, len(doc)}}[deep]
            for at in sorted(p for p in places if p <= len(doc)):
                cases.put(doc[:at])
        doc = depths.nested(shape(512), depths.BYTE)[:-1]
        cases.put(doc, short, lambda n: 9)
        cases.put(doc, exact, short)
        cases.put(doc, exact, lambda n: 9, short)
        cases.put(doc, exact, lambda n: 9, lambda n: n - 3)
        cases.put(depths.nested(shape(30), depths.BYTE))  # accepted


def stairs(kinds):
    """A document of containers each of which holds the next, with something before and behind that: a byte is in the last."""
    inner, payload = 1, b"\7"
    for kind in reversed(kinds):
        if kind == LIST:
            small = {LIST: bytes(5), COMPOUND: compound()}.get(inner, b"\0")
            payload = listed(inner, small, payload, small)
        else:
            payload = compound(entry(1, b"a", b"\1"), entry(inner, b"b", payload), entry(1, b"c", b"\2"))
        inner = kind
    return bytes([COMPOUND]) + string(b"") + payload


def of_parents(r, cases):
    """Whole documents: what the read leaves in the table has the parents too (02, [7]), behind containers that close by any number of levels."""
    for doc, column in [(b"\x0A\0\0\0", [0]), (bytes.fromhex("0A00016101000162FF00"), [0, 0]), (stairs([10, 9, 10]), [0, 0, 0, 2, 2, 4, 4, 4, 2, 0])]:
        found = Rescue(doc, 900, 0, 0)
        assert found.refusal == (31, 0, 0) and found.table[tables.PARENT::tables.WORDS] == column, doc.hex()
        cases.put(doc)
    docs = [stairs(shape(deep)) for shape in depths.SHAPES for deep in (2, 3, 6)]
    while len(docs) < 36:
        doc = bytes([COMPOUND]) + string(b"root") + random_entries(r, r.randrange(2, 5))
        if 8 <= needed(doc)[0] <= 20:
            docs.append(doc)
    for doc in docs:
        cases.put(doc, lambda w: w + r.randrange(9))


def of_characters(cases):
    """The reader's place of refusal 4 is handed on (02, [3]); a string that is cut is 1, whatever came of it, and vanishes."""
    for doc, place in list(listing.broken_documents(cases.form))[1::37]:
        cases.put(doc, exact, none, none)
        assert cases.answers[-1] == f"refused 4 {place} 0: ;; zero", doc.hex()
    for text, _ in list(listing.broken_strings(cases.form))[3::23]:
        cases.put(b"\x0A" + cases.form.string(b"") + b"\x08" + cases.form.string(b"b") + cases.form.string(text + b"a")[:-1])
        assert cases.answers[-1] == "saved 4 1: 0A000000; 0 0 0; zero", text.hex()


def at_random(r, cases):
    for _ in range(60):
        doc = bytes([COMPOUND]) + string(r.choice([b"", b"root", "Höhe".encode()])) + random_entries(r, r.randrange(1, 4))
        if len(doc) <= 260:
            cases.cuts(r, doc, often=12, places=sorted({r.randrange(len(doc)) for _ in range(24)}))


def main(folder):
    sys.setrecursionlimit(20000)
    r = random.Random(20261116)
    cases = Cases()
    worked(cases)
    of_roots(cases)
    of_entries(cases)
    of_counts(cases)
    of_whole_ones(r, cases)
    refused_else(cases)
    for doc in documents(r):
        cases.cuts(r, doc)
    deep_ones(r, cases)
    at_random(r, cases)
    of_parents(r, cases)
    of_characters(cases)
    for key in ["saved"] + [f"refused {n}" for n in (2, 3, 4, 5, 6, 7, 8, 13, 24, 31, 32)]:
        assert cases.seen.get(key, 0) >= 8, key
    open(folder + "/stdin", "w", newline="").write("\n".join(cases.lines) + "\n")
    open(folder + "/stdout", "w", newline="").write("\n".join(cases.answers) + "\n")
    print(len(cases.lines), "documents:", ", ".join(f"{k} {v}" for k, v in sorted(cases.seen.items())))


if __name__ == "__main__":
    main(sys.argv[1])
