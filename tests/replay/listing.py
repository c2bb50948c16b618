#!/usr/bin/env python3
"""Writes the cases of crates/listing: stdin has a document a line, in hexadecimal, stdout what the listing program must print.

    tests/replay/listing.py crates/listing

The answers are worked out by a second reader, below, that is written from documents 01 and 02 [3] alone and looks at names entry by entry.
It is run on the marked documents first, whose answers 01 gives, and on strings whose first fault is placed by hand.
"""
import random
import sys

from forms import JAVA

WIDTH = {1: 1, 2: 2, 3: 4, 4: 8, 5: 4, 6: 8, 7: 1, 11: 4, 12: 8}
ROOM, DEPTH = 512, 512


class Refused(Exception):
    pass


class Reader:
    room, depth = ROOM, DEPTH

    def __init__(self, doc, form=JAVA):
        self.d, self.form, self.records = doc, form, []

    def field(self, at, n):
        if at + n > len(self.d):
            raise Refused(1, at)
        return self.d[at:at + n]

    def number(self, at, n, signed=False):
        return self.form.number(self.field(at, n), signed)

    def string(self, at):
        n = self.number(at, 2)
        good = self.form.readable(self.field(at + 2, n))
        if good < n:
            raise Refused(4, at + 2 + good)
        return at + 2, n

    def count(self, at):
        n = self.number(at, 4, signed=True)
        if n < 0:
            raise Refused(5, at)
        return n

    def take_name(self, names, word, at):
        """The name of the entry at `at`, beside those before it."""
        if word in names:
            raise Refused(6, at)
        names.add(word)

    def payload(self, kind, name, at, deep):
        """Reads a payload at depth `deep`, and answers the place past it."""
        if len(self.records) == self.room:
            raise Refused(8, at)
        record = [kind, name[1], 0, 0]
        self.records.append(record)
        if kind in (9, 10) and deep > self.depth:
            raise Refused(7, at)
        if kind <= 6:
            record[2] = WIDTH[kind]
            self.field(at, WIDTH[kind])
            return at + WIDTH[kind]
        if kind == 8:
            at, record[2] = self.string(at)
            return at + record[2]
        if kind == 9:
            id = self.field(at, 1)[0]
            n = self.number(at + 1, 4, signed=True)
            if id > 12 or id == 0 and n != 0:
                raise Refused(3, at)
            record[3] = self.count(at + 1)
            at += 5
            for _ in range(n):
                at = self.payload(id, (0, 0), at, deep + 1)
            return at
        if kind == 10:
            names = set()
            while True:
                id = self.field(at, 1)[0]
                if id == 0:
                    return at + 1
                name = self.string(at + 1)
                if id > 12:
                    raise Refused(3, at)
                self.take_name(names, bytes(self.d[name[0]:sum(name)]), at)
                record[3] += 1
                at = self.payload(id, name, sum(name), deep + 1)
        record[3] = self.count(at)
        record[2] = record[3] * WIDTH[kind]
        self.field(at + 4, record[2])
        return at + 4 + record[2]

    def root(self):
        if self.field(0, 1)[0] != 10:
            raise Refused(2, 0)
        name = self.string(1)
        return self.payload(10, name, sum(name), 1)


def listed(number, line):
    digits = "0123456789abcdefABCDEF"
    if len(line) % 2 or len(line) > 8192 or any(c not in digits for c in line):
        return [f"doc {number} badline"]
    reader = Reader(bytes.fromhex(line))
    try:
        consumed = reader.root()
    except Refused as e:
        return [f"doc {number} refused {e.args[0]} {e.args[1]}"]
    return [f"doc {number} ok {consumed} {len(reader.records)}"] + [f"{i} " + " ".join(map(str, r)) for i, r in enumerate(reader.records)]


def marked():
    for line, answer in [
        ("0A0000", ["doc 1 refused 1 3"]),
        ("0A000000", ["doc 1 ok 4 1", "0 10 0 0 0"]),
        ("0A00016101000162FF00", ["doc 1 ok 10 2", "0 10 1 0 1", "1 1 1 1 0"]),
        ("0A00000900016C0D0000000000", ["doc 1 refused 3 7"]),
        ("0A00000900016C01FFFFFFFF00", ["doc 1 refused 5 8"]),
        ("0A00000100016201010001620200", ["doc 1 refused 6 8"]),
    ]:
        assert listed(1, line) == answer, (line, listed(1, line))
        yield line


string = JAVA.string


def characters(form):
    """Good characters of each length, with U+0000 among them."""
    return [form.text(c) for c in "aé€😀\0"]


def broken_strings(form=JAVA):
    """Each fault alone, and as the first, a middle and the last of good characters; with its place."""
    good = characters(form)
    every = b"".join(good)
    for fault, offset in form.faults:
        sides = [(b"", b""), (every, every)]
        for c, other in zip(good, good[1:] + good[:1]):
            sides += [(b"", c), (c, b""), (c, other)]
        for before, after in sides:
            yield before + fault + after, len(before) + offset


def good_bytes(n, first=0, form=JAVA):
    """So many bytes of good characters of every length in turn."""
    out, good = b"", characters(form)
    while len(out) < n:
        c = good[first % len(good)]
        out, first = out + (c if len(out + c) <= n else b"a"), first + 1
    return out


def far_strings(form=JAVA):
    """Faults behind and before many good characters; with their places."""
    for i, (fault, offset) in enumerate(form.faults):
        for far in (14, 15, 16, 17, 62, 63, 64, 65, 127, 128, 200):
            before = b"a" * far if (i + far) % 3 == 0 else good_bytes(far, i, form)
            yield before + fault + good_bytes((i + far) % 5 * 30, 0, form), far + offset


def broken_documents(form=JAVA):
    """Documents with one broken string in each spot that a string has: the root's name, an entry's, a payload, an element; with its place."""
    a, b, ab, x, two = (form.string(text) for text in (b"a", b"b", b"ab", b"x", b"\xC3\xA9"))
    spots = [
        (b"\x0A", b"\0"),
        (b"\x0A" + a + b"\1" + b + b"\7" + b"\x08", x + b"\0"),
        (b"\x0A" + form.string(b"") + b"\x0A" + b + b"\x08" + ab, b"\1" + b + b"\7" + b"\0\0"),
        (b"\x0A" + form.string(b"") + b"\x09" + b + b"\x08" + form.bytes(3, 4) + two, x + b"\0"),
    ]
    for text, place in broken_strings(form):
        for head, tail in spots:
            yield head + form.string(text) + tail, len(head) + 2 + place
    for i, (text, place) in enumerate(far_strings(form)):
        head, tail = spots[i % 4]
        yield head + form.string(text) + tail, len(head) + 2 + place


def of_characters():
    """The place of refusal 4, by hand (02, [3]); and what comes before it and what does not, its order being 01's."""
    for doc, place in broken_documents():
        assert listed(1, doc.hex()) == [f"doc 1 refused 4 {place}"], (doc.hex(), place)
        yield doc.hex()
    many = bytes.fromhex("0A0000090000 01") + (510).to_bytes(4, "big") + bytes(510)  # as many records as there is room for
    for line, number, place in [
        ("0A0003 61FF", 1, 3), ("0A0000 0D0003 61FF", 1, 6), ("0A0000 08000161 0003 61FF", 1, 9),  # the content is not whole
        ("0A0000 0D0002 61FF", 4, 7), ("0A0000 FF0004 61E282AC 07", 3, 3), ("090002 61FF", 2, 0),  # an id that no tag has
        ("0A0000 010002 61FF 07 010002 61FF 07 00", 4, 7),  # a name twice
        ("0A0000 01000161 07 08000161 0002 61FF 00", 6, 8), ("0A0000 01000161 07 08000162 0002 61FF 00", 4, 15),
        ("0A0003 61FF00 00", 4, 4), ("0A0003 6100FF 00", 4, 4), ("0A0004 61EDA0BD", 4, 4),  # two faults in a string
        ("0A0002 61FF 080002 62FF 0002 63FF 00", 4, 4), ("0A0001 61 080002 62FF 0002 63FF 00", 4, 8), ("0A0001 61 080002 6263 0002 63FF 00", 4, 12),
        ("0A0000 09000161 0800000003 0000 0001 61 0001 FF 00", 4, 19), ("0A0000 09000161 0D00000001 0001 FF 00", 3, 7),
        ("0A0000 00 080001 FF", None, 4),  # behind the root's end
        (many.hex() + "080002 61FF 0002 61FF 00", 4, len(many) + 4), (many.hex() + "08000162 0002 61FF 00", 8, len(many) + 4),
    ]:
        line = line.replace(" ", "")
        assert listed(1, line)[0] == (f"doc 1 refused {number} {place}" if number else f"doc 1 ok {place} 1"), line
        yield line


def random_payload(r, kind, deep, form=JAVA):
    if kind <= 6:
        return bytes(r.randrange(256) for _ in range(WIDTH[kind]))
    if kind == 8:
        return form.string(form.text(r.choice(["", "reef", "Größe", "\0", "😀", "€"])))
    if kind in (7, 11, 12):
        n = r.choice([0, 1, 3])
        return form.bytes(n, 4) + bytes(r.randrange(256) for _ in range(n * WIDTH[kind]))
    if kind == 9:
        n = r.choice([0, 1, 2, 5]) if deep else 0
        id = r.randrange(1, 13) if n else r.randrange(13)
        return bytes([id]) + form.bytes(n, 4) + b"".join(random_payload(r, id, deep - 1, form) for _ in range(n))
    return random_entries(r, deep - 1, form) if deep else b"\0"


def random_entries(r, deep, form=JAVA):
    out = b""
    names = r.sample(["", "a", "b", "SceneId", "OriginLon", "OriginLat", "\0", "ä"], r.randrange(5))
    for name in names:
        kind = r.randrange(1, 13)
        out += bytes([kind]) + form.string(form.text(name)) + random_payload(r, kind, deep, form)
    return out + b"\0"


def damaged(r, d):
    d = bytearray(d)
    for _ in range(r.choice([1, 1, 2])):
        way = r.randrange(4)
        at = r.randrange(len(d))
        if way == 0:
            d[at] = r.choice([0, 1, 8, 9, 10, 12, 13, 0x7F, 0x80, 0xC0, 0xED, 0xF0, 0xFF, r.randrange(256)])
        elif way == 1:
            del d[at:]
        elif way == 2:
            d[at:at] = bytes([r.randrange(256)])
        else:
            d[at:at + 1] = d[at:at + 8]
        if not d:
            break
    return bytes(d)


def cases():
    r = random.Random(20261115)
    yield from marked()
    yield ""
    yield from ["0", "0A000", "0A0000 00", "zz", "0A0000g0", "0A000000\r", " 0A000000", "\t"]
    exact = bytes.fromhex("0A0000070000") + (4096 - 11).to_bytes(4, "big") + bytes(4096 - 11) + b"\0"
    assert len(exact) == 4096
    yield exact.hex()
    yield (exact + b"\0").hex()
    yield "0" * 8193
    yield "x" * 70000
    for n in (510, 511):  # 512 records, and one more
        yield (bytes.fromhex("0A0000090000") + b"\1" + n.to_bytes(4, "big") + bytes(n) + b"\0").hex()
    for lists in (510, 511, 512):  # room ends first where there is a record more
        d = bytes.fromhex("0A0000090000") + b"\x09\0\0\0\1" * (lists - 1) + b"\0\0\0\0\0" + b"\0"
        yield d.hex()
    for d in ["00", "09", "FF0000", "0A", "0A00", "0A000161", "0A000200", "0A0001FF00", "0A0002C08000", "0A0001C000", "0A0006EDA0BDEDB88000", "0A0003EDA0BD00",
              "0A00000D000100", "0A00000D0001FF", "0A000001", "0A00000100", "0A0000010000", "0A00000100016101000161", "0A0000080000000200", "0A00000800000002C18100",
              "0A0000090000", "0A00000900000D", "0A00000900000D00000000", "0A000009000000FFFFFFFF", "0A00000900000000000001", "0A0000090000017FFFFFFF",
              "0A00000700007FFFFFFF", "0A00000C00007FFFFFFF", "0A00000B0000FFFFFFFF", "0A00000B000080000000", "0A0000010000000100000000", "0A00000A0000010000000100000000",
              "0A000001000161000100016200010001610000", "0A000001000161000100016200010001610D", "0A0000010001610001000161"]:
        yield d
    for i in range(1500):
        d = bytes([10]) + string(r.choice([b"", b"root", "Höhe".encode()])) + random_entries(r, r.randrange(4))
        yield d.hex().upper() if i % 2 else d.hex()
        for _ in range(2):
            yield damaged(r, d).hex()
    yield from of_characters()


def main(folder):
    lines = [*cases(), "0A000000"]  # the last has no line feed
    out, seen = [], {}
    for number, line in enumerate(lines, 1):
        answer = listed(number, line)
        out += answer
        word = " ".join(answer[0].split()[2:4]) if "refused" in answer[0] else answer[0].split()[2]
        seen[word] = seen.get(word, 0) + 1
    open(folder + "/stdin", "w", newline="").write("\n".join(lines))
    open(folder + "/stdout", "w", newline="").write("\n".join(out) + "\n")
    print(len(lines), "documents:", ", ".join(f"{k} {v}" for k, v in sorted(seen.items())))


if __name__ == "__main__":
    main(sys.argv[1])
