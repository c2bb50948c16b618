#!/usr/bin/env python3
"""Writes the cases of crates/replay_depths: stdin has a document a line, in hexadecimal, stdout what the program must print.

    tests/replay/depths.py crates/replay_depths

Document 01: at most 512 containers deep, the root being depth 1; depth 513 is refusal 7 at the first payload byte, after room (8) and
before anything of the payload (1). Each case names the answer that its making gives, and the second reader of the listing, which counts
the depth on its way down, must find the same.
"""
import sys

import listing
from listing import Refused, string

ROOM, DEPTH, BYTES = 1100, 512, 8192
LIST, COMPOUND = 9, 10
BYTE = (1, b"\x7F")  # a kind and a payload


class Reader(listing.Reader):
    room, depth = ROOM, DEPTH


def answer_to(doc):
    reader = Reader(doc)
    try:
        consumed = reader.root()
    except Refused as e:
        return "refused %d %d" % e.args
    return "ok %d %d" % (consumed, len(reader.records))


def holding(kind, child):
    """The payload of a container of the kind that holds the child, a kind and a payload, or nothing."""
    if kind == LIST:
        return bytes([child[0], 0, 0, 0, 1]) + child[1] if child else bytes(5)
    return bytes([child[0]]) + string(b"") + child[1] + b"\0" if child else b"\0"


def way_to(kinds):
    """The document up to the first payload byte of the last of these containers, each of which holds the next."""
    way = bytes([COMPOUND]) + string(b"")
    for kind, child in zip(kinds, kinds[1:]):
        way += bytes([child, 0, 0, 0, 1] if kind == LIST else [child, 0, 0])
    return way


def nested(kinds, child=None):
    """The document of containers each of which holds the next, and the last of them the child."""
    for kind in reversed(kinds):
        child = kind, holding(kind, child)
    return bytes([COMPOUND]) + string(b"") + child[1]


SHAPES = [
    lambda d: [COMPOUND] + [LIST] * (d - 1),
    lambda d: [COMPOUND] * d,
    lambda d: [COMPOUND, LIST] * (d // 2) + [COMPOUND] * (d % 2),
    lambda d: ([COMPOUND, COMPOUND, LIST, LIST] * (d // 4 + 1))[:d],
]


def passed(doc, records):
    return doc, "ok %d %d" % (len(doc), records)


def refused(doc, number, place):
    return doc, "refused %d %d" % (number, place)


def deep(shape, d):
    """Containers d deep: nothing in the last, or a leaf, or what is no container; or cut where the last begins."""
    kinds = shape(d)
    leaves = [None, BYTE, (8, string(b"reef")), (7, b"\0\0\0\2\1\2"), (11, bytes(4)), (12, b"\0\0\0\1" + bytes(8))]
    place = len(way_to(shape(DEPTH + 1)))
    for leaf in leaves if d >= DEPTH else leaves[:2]:
        doc = nested(kinds, leaf)
        yield refused(doc, 7, place) if d > DEPTH else passed(doc, d + (leaf is not None))
    way = way_to(kinds)
    yield refused(way, 7, place) if d > DEPTH else refused(way, 1, len(way))
    bad = way + b"\x0D" + bytes(4)  # an id that no tag has
    yield refused(bad, 7, place) if d > DEPTH else refused(bad, 3, len(way))


def around(shape):
    """What comes before refusal 7 and what does not, in the container that is 512 deep and at the one below it."""
    kinds, below = shape(DEPTH), shape(DEPTH + 1)
    way, place = way_to(kinds), len(way_to(below))
    if kinds[-1] == LIST:
        for kind in (LIST, COMPOUND):
            head = way + bytes([kind])
            yield refused(head, 1, len(head))
            yield refused(head + bytes(3), 1, len(head))
            yield refused(head + b"\xFF" * 4, 5, len(head))
            yield refused(head + b"\x7F\xFF\xFF\xFF", 7, len(head) + 4)
            yield passed(head + bytes(4) + b"\0", DEPTH)  # of no containers; the byte ends the root
    else:
        for kind in (LIST, COMPOUND):
            tag = bytes([kind])
            yield refused(way + tag, 1, len(way) + 1)
            yield refused(way + tag + b"\0\2a", 1, len(way) + 3)
            yield refused(way + tag + b"\0\1\x80", 4, len(way) + 3)
            yield refused(way + tag + string(b"ab"), 7, len(way) + 5)
            twice = b"\1" + string(b"a") + b"\0" + tag + string(b"a")
            yield refused(way + twice, 6, len(way) + 5)
            once = b"\1" + string(b"a") + b"\0" + tag + string(b"b")
            yield refused(way + once, 7, len(way) + len(once))
    # bytes behind the root change nothing
    yield refused(nested(below) + bytes(9), 7, place)
    yield nested(kinds) + b"\x0A\0\0" * 3, passed(nested(kinds), DEPTH)[1]


def entry(kind, name, payload):
    return bytes([kind]) + string(name) + payload


def branches():
    """A depth that only a later branch reaches, and one that is left and reached again."""
    for first in (2, 300, DEPTH):
        for d in (DEPTH, DEPTH + 1):
            for shape in SHAPES[:2]:
                left = nested(SHAPES[0](first))
                right = nested(shape(d))  # three bytes of each are the root's, and three its entry's
                head = left[:3] + entry(LIST, b"a", left[6:-1])
                doc = head + entry(right[3], b"b", right[6:])
                place = len(head) + 1 + len(way_to(shape(DEPTH + 1))) - 3
                yield refused(doc, 7, place) if d > DEPTH else passed(doc, first - 1 + d)
    # the container 511 deep holds three that are 512 deep; in the other document the last of these holds one more
    way = way_to([COMPOUND] * (DEPTH - 1))
    three = b"".join(entry(COMPOUND, name, b"\0") for name in (b"a", b"b", b"c"))
    yield passed(way + three + bytes(DEPTH - 1), DEPTH - 1 + 3)
    yield refused(way + three[:-1] + b"\x0A\0\0", 7, len(way) + len(three) - 1 + 3)
    # the same in a list
    way = way_to([COMPOUND] + [LIST] * (DEPTH - 2))
    yield passed(way + b"\x09\0\0\0\3" + bytes(15) + b"\0", DEPTH - 1 + 3)
    yield refused(way + b"\x09\0\0\0\3" + bytes(10) + b"\x0A\0\0\0\1", 7, len(way) + 5 + 10 + 5)


def rooms():
    """The container 513 deep is the last record that has room, or the one after it, which has none: 8 comes before 7."""
    for before in (ROOM - DEPTH - 1, ROOM - DEPTH):
        leaves = b"".join(entry(1, b"%03d" % i, b"\0") for i in range(before))
        for kind in (LIST, COMPOUND):
            kinds = [COMPOUND] + [kind] * DEPTH
            way = way_to(kinds)
            doc = way[:3] + leaves + way[3:]
            number = 7 if DEPTH + before < ROOM else 8
            yield refused(doc, number, len(doc))
            yield refused(doc + bytes(5), number, len(doc))


def characters():
    """A broken character in the container that is 512 deep: 4 at that character (02, [3]), before the 7 of what is so named, but after the 7
    of what holds it."""
    some = list(listing.broken_strings())[5::97]
    way, below = way_to([COMPOUND] * DEPTH), way_to([COMPOUND] * (DEPTH + 1))
    for text, place in some:
        yield refused(way + bytes([COMPOUND]) + string(text), 4, len(way) + 3 + place)
        yield refused(below + bytes([COMPOUND]) + string(text), 7, len(below))
    way, below = way_to([COMPOUND] + [LIST] * (DEPTH - 1)), way_to([COMPOUND] + [LIST] * DEPTH)
    for text, place in some:
        yield refused(way + b"\x08\0\0\0\2" + string(b"ab") + string(text), 4, len(way) + 11 + place)
        yield refused(below + b"\x08\0\0\0\1" + string(text), 7, len(below))


def cases():
    for shape in SHAPES:
        for d in (DEPTH - 1, DEPTH, DEPTH + 1, DEPTH + 2):
            yield from deep(shape, d)
    for shape in SHAPES[:2]:
        yield from around(shape)
    yield from branches()
    yield from rooms()
    yield from characters()


def main(folder):
    lines, out, seen = [], [], {}
    for number, (doc, answer) in enumerate(cases(), 1):
        assert len(doc) <= BYTES, (number, len(doc))
        assert answer_to(doc) == answer, (number, answer_to(doc), answer)
        lines.append(doc.hex().upper())
        out.append(f"doc {number} {answer}")
        word = " ".join(answer.split()[:2]) if "refused" in answer else "ok"
        seen[word] = seen.get(word, 0) + 1
    open(folder + "/stdin", "w", newline="").write("\n".join(lines) + "\n")
    open(folder + "/stdout", "w", newline="").write("\n".join(out) + "\n")
    print(len(lines), "documents:", ", ".join(f"{k} {v}" for k, v in sorted(seen.items())))


if __name__ == "__main__":
    sys.setrecursionlimit(10000)
    main(sys.argv[1])
