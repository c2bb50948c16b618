#!/usr/bin/env python3
"""Writes the cases of crates/replay_queries: stdin has a document, a table's words, a query and the list's room a line, stdout what the
program must print.

    tests/replay/queries.py crates/replay_queries

The answers are worked out by a second reading of rule 9, below, that is written from document 01 alone: each tag has a path from the root,
and the rule's last sentence says which paths fit, asked once for each pair of steps and levels left. It is run on the marked queries first.
What words form a table is told by the second check of tables.py.
Refusal 9 can't occur here, for no line is that long; tests/ffi/query.c has it.
"""
import random
import sys
from functools import lru_cache

import listing
from forms import JAVA, POCKET
from listing import Refused, string
from tables import (CUT, END, KIND, LETTERS, NAME, NAME_LENGTH, PARENT, TREES, Reader, chain, flat, is_table, made_up, nudged, planted, rows_of,
                    some_records, with_parent, wrong_columns, wrong_parents)

UNTOUCHED = 0xAAAAAAAA


def spelt(query, form):
    """A query's steps, each its first byte with the name or the index; 14 at the first byte of what is none, and why. Names keep the rule of the
    document's form, while lengths and indices are big-endian in any (02, [2])."""
    steps, at = [], 0
    while at < len(query):
        kind, body = query[at], query[at + 1:]
        if len(steps) == 16:
            raise Refused(14, at, "seventeenth")
        if kind not in (1, 2, 3, 4):
            raise Refused(14, at, "unknown")
        head = {1: 2, 2: 4, 3: 0, 4: 0}[kind]
        length = int.from_bytes(body[:2], "big") if kind == 1 else 0
        if len(body) < head or len(body) < head + length:
            raise Refused(14, at, "cut")
        what = None
        if kind == 1:
            what = body[head:head + length]
            if not form.well_formed(what):
                raise Refused(14, at, "ill-formed")
        if kind == 2:
            what = int.from_bytes(body[:4], "big", signed=True)
            if what < 0:
                raise Refused(14, at, "negative")
        steps.append((kind, what))
        at += 1 + head + length
    return steps


def paths(doc, rows):
    """The path of each record: level by level the container's kind, and the child's name and number in it."""
    out = [()] * len(rows)
    for i, row in enumerate(rows):
        j, number = i + 1, 0
        while row[KIND] in (9, 10) and j < row[END]:
            name = doc[rows[j][NAME]:rows[j][NAME] + rows[j][NAME_LENGTH]]
            out[j] = out[i] + ((row[KIND], name, number),)
            j, number = rows[j][END], number + 1
    return out


def takes(step, level):
    kind, what = step
    container, name, number = level
    if kind == 1:
        return container == 10 and name == what
    if kind == 2:
        return container == 9 and number == what
    return True


def fits(steps, path):
    """Whether the first step fits and the rest fits what remains, 04 trying both."""
    @lru_cache(None)
    def fit(s, p):
        if s == len(steps):
            return p == len(path)
        if steps[s][0] == 4:
            return fit(s + 1, p) or p < len(path) and fit(s, p + 1)
        return p < len(path) and takes(steps[s], path[p]) and fit(s + 1, p + 1)

    return fit(0, 0)


def asked(doc, words, query, form=JAVA):
    """The matches, by 10, 7, 14 in turn; with the steps and the paths."""
    if not is_table(len(doc), words):
        raise Refused(10, 0)
    rows = rows_of(words)
    ways = paths(doc, rows)
    for i, way in enumerate(ways):
        if rows[i][KIND] in (9, 10) and len(way) + 1 > 512:
            raise Refused(7, i)
    steps = spelt(query, form)
    return [i for i, way in enumerate(ways) if fits(steps, way)], steps, ways


class Cases:
    def __init__(self, form=JAVA):
        self.form, self.lines, self.answers, self.seen, self.before = form, [], [], {}, set()

    def put(self, doc, words, query, room=None):
        """A case; there is just room where none is given, or what `room` makes of that."""
        found, steps, ways, no = [], None, [], None
        try:
            found, steps, ways = asked(doc, words, query, self.form)
        except Refused as e:
            no = e.args
        space = len(found) if room is None else max(0, room(len(found))) if callable(room) else room
        line = f"{doc.hex()} {''.join(f'{w:08x}' for w in words)} {query.hex()} {space}"
        if line in self.before:
            return
        self.before.add(line)
        left = [UNTOUCHED] * space
        if no:
            said = f"refused {no[0]} {no[1]} 0"
        elif len(found) > space:
            said, no = f"refused 24 0 {len(found)}", (24, 0)
        else:
            said = f"matches {len(found)}"
            left[:len(found)] = found
        self.lines.append(line)
        self.answers.append(said + ":" + "".join(f" {w}" for w in left))
        self.count(no, steps, found, ways, space)

    def no_table(self, doc, words, query):
        """A case of words of which it is known beforehand that they form no table."""
        self.put(doc, words, query, 1)
        assert self.answers[-1] == f"refused 10 0 0: {UNTOUCHED}", (doc, words)

    def count(self, no, steps, found, ways, space):
        """What this case is an instance of."""
        kinds = {f"refused {no[0]}" if no else "matches" if found else "nothing"}
        if no and no[0] == 14:
            kinds.add("14 " + no[2])
        if steps is not None:
            entries = [(ways[i][:-1], ways[i][-1][1]) for i in found if ways[i] and ways[i][-1][0] == 10]
            for key, holds in [(f"{len(steps)} steps", len(steps) in (0, 1, 16)), ("empty name found", found and (1, b"") in steps),
                               ("room exact", found and space == len(found)), ("room one short", space + 1 == len(found)),
                               ("two of one name found", len(set(entries)) < len(entries))]:
                if holds:
                    kinds.add(key)
        for key in kinds:
            self.seen[key] = self.seen.get(key, 0) + 1


def named(name):
    return b"\1" + string(name)


def indexed(number):
    return b"\2" + number.to_bytes(4, "big")


ANY, DEEP = b"\3", b"\4"


def towards(r, way, form):
    """Steps that fit a path: each level by its name or number, by 03, or in what an 04 passes over."""
    steps = []
    for container, name, number in way:
        how = r.randrange(10)
        if how < 5 and len(name) < 65536 and form.well_formed(name):
            steps.append(named(name) if container == 10 else indexed(number))
        elif how < 8:
            steps.append(ANY)
        elif not steps or steps[-1] != DEEP or r.randrange(2):
            steps.append(DEEP)
    for _ in range(r.choice([0, 0, 1, 2])):
        steps.insert(r.randrange(len(steps) + 1), DEEP)
    return steps


def at_random(r, form):
    some = [DEEP, DEEP, ANY, named(b""), named(b"a"), named(b"b"), named("ä".encode()), named(b"SceneId"), named(form.text("\0")), indexed(0), indexed(1), indexed(4)]
    return [r.choice(some) for _ in range(r.choice([0, 1, 1, 2, 2, 3, 4, 6]))]


ILL_FORMED = {JAVA: [b"\xFF", b"\0", b"\xED\xA0\xBD", b"\xF0\x9F\x98\x80", b"\xC1\x81"],
              POCKET: [b"\xFF", b"\xC0\x80", b"\xED\xA0\xBD", b"\xED\xA0\xBD\xED\xB8\x80", b"\xC1\x81"]}


def spoilt(r, steps, form):
    """A query that is mostly malformed, at any of its steps."""
    bad = [b"\0", b"\5", b"\xFF", b"\2\x80\0\0\0", b"\2\xFF\xFF\xFF\xFF", b"\2\0\0\0", b"\2", b"\1", b"\1\0", b"\1\0\2a", *map(named, ILL_FORMED[form]), b"\1\xFF\xFFa"]
    steps = list(steps)
    way = r.randrange(3)
    if way == 0:
        return b"".join(steps)[:-1]
    if way == 1:
        return b"".join(steps + [DEEP] * (17 - len(steps)) if len(steps) < 17 else steps)
    steps.insert(r.randrange(len(steps) + 1), r.choice(bad))
    return b"".join(steps)


def ask_about(r, cases, doc, words, many):
    """Queries of one table: towards its records, at random, spoilt, and with more or less room."""
    ways = paths(doc, rows_of(words))
    for _ in range(many):
        steps = towards(r, r.choice(ways), cases.form) if r.randrange(4) else at_random(r, cases.form)
        if r.randrange(12) == 0:
            steps = (steps + [DEEP] * 16)[:16]
        cases.put(doc, words, b"".join(steps), r.choice([None, None, lambda n: n + 2, lambda n: n - 1, 0]))
        if r.randrange(4) == 0:
            cases.put(doc, words, spoilt(r, steps, cases.form), 1)


def marked(cases):
    doc, words = bytes.fromhex("0A00016101000162FF00"), [10, 3, 1, 0, 0, 1, 0, 2, 0, 1, 7, 1, 8, 1, 0, 0, 2, 0]
    for query, matches in [("04", [0, 1]), ("0404", [0, 1]), ("03", [1])]:
        assert asked(doc, words, bytes.fromhex(query))[0] == matches, query
        cases.put(doc, words, bytes.fromhex(query))
    for query in ["", "0100016100", "01000162", "0100016101", "0200000000", "0303", "040303", "030404"]:
        for room in (None, 0, 2):
            cases.put(doc, words, bytes.fromhex(query), room)


def of_documents(r, cases):
    """Tables as they are read, and some that are damaged."""
    form, some = cases.form, 0
    while some < 260:
        doc = bytes([10]) + form.string(r.choice([b"", b"a", "Höhe".encode()])) + listing.random_entries(r, r.randrange(1, 4), form)
        reader = Reader(doc, form)
        reader.root()
        if not 2 <= len(reader.rows) <= 14:
            continue
        some += 1
        ask_about(r, cases, doc, flat(reader.rows), 8)
        cases.put(doc, nudged(r, reader.rows), b"".join(at_random(r, form)), 3)
        cases.put(doc, flat(reader.rows)[:-r.choice(CUT)], spoilt(r, at_random(r, form), form), 1)


def of_tables(r, cases):
    """Tables that no reader made: two entries of one name, names that are not well formed, mixed lists."""
    some = 0
    while some < 160:
        doc = bytes(r.choice(b"aabb" if r.randrange(20) else b"\0\x80\xC3\xA4") for _ in range(r.choice([1, 3, 20])))
        rows = made_up(r, doc)
        if not 3 <= len(rows) <= 14 or not is_table(len(doc), flat(rows)):
            continue
        some += 1
        ask_about(r, cases, doc, flat(rows), 5)
    twins = [[10, 0, 0, 0, 0, 3, 0, 4, 0], [1, 0, 1, 0, 1, 0, 0, 2, 0], [1, 1, 1, 0, 1, 0, 0, 3, 0], [1, 2, 1, 0, 1, 0, 0, 4, 0]]
    for query in (named(b"a"), named(b"b"), DEEP + named(b"a"), named(b"a") + named(b"a")):
        for room in (None, 0, 1, 5):
            cases.put(b"aab", flat(twins), query, room)


def of_chains(cases):
    """Containers in each other: 512 are asked to the last, 513 are 7 before 14."""
    for kind in (9, 10):
        for query in (DEEP, DEEP + ANY * 14 + named(b"x"), (DEEP + ANY) * 8):
            cases.put(b"", flat(chain(512, kind)), query)
    for deep in (513, 600):
        cases.put(b"", flat(chain(deep, 9)), b"\5", 3)
    cases.put(b"", flat(chain(513, 10)), DEEP, 3)
    rows = chain(512, 10)
    for row in rows[1:]:
        row[NAME_LENGTH] = 1
    for query in ((DEEP + named(b"x")) * 8, (DEEP + named(b"y")) * 8, DEEP + named(b"x") * 15):
        cases.put(b"x", flat(rows), query, 512)


def of_limits(r, cases):
    """Sixteen steps and seventeen, of every sort, on a small tree; indices from the first to the greatest."""
    rows = [[10, 0, 0, 0, 0, 1, 0, 7, 0], [9, 0, 1, 0, 0, 2, 9, 7, 0], [9, 0, 0, 0, 0, 2, 1, 5, 1], [1, 0, 0, 0, 1, 0, 0, 4, 2],
            [1, 0, 0, 0, 1, 0, 0, 5, 2], [9, 0, 0, 0, 0, 1, 3, 7, 1], [3, 0, 0, 0, 4, 0, 0, 7, 5]]
    doc, words = b"xyzu", flat(rows)
    assert is_table(len(doc), words)
    for number in (0, 1, 2, 3, 255, 256, 65536, 2**31 - 1):
        for before in (b"", DEEP, named(b"x"), named(b"x") + indexed(0)):
            cases.put(doc, words, before + indexed(number))
            cases.put(doc, words, before + b"\2" + (2**32 - 1 - number).to_bytes(4, "big"), 1)
    each = [DEEP, DEEP, ANY, named(b"x"), indexed(0), indexed(1)]
    for _ in range(120):
        steps = [r.choice(each) for _ in range(3)] + [DEEP] * 14
        r.shuffle(steps)
        cases.put(doc, words, b"".join(steps[:16]))
        cases.put(doc, words, b"".join(steps), 7)
    for a in each:
        for b in each:
            for c in each + [b""]:
                cases.put(doc, words, a + b + c)


def of_characters(cases):
    """A name with a broken character is 14 at its step's first byte, wherever that character is (02, [3])."""
    doc, words = bytes.fromhex("0A00016101000162FF00"), [10, 3, 1, 0, 0, 1, 0, 2, 0, 1, 7, 1, 8, 1, 0, 0, 2, 0]
    before = [b"", DEEP, named(b"b") + ANY, indexed(1) + named("€".encode())]
    for i, (text, _) in enumerate([*listing.broken_strings(cases.form), *listing.far_strings(cases.form)]):
        if i % 5 == 0:
            steps = before[i % len(before)]
            cases.put(doc, words, steps + named(text) + before[i % 3], 1)
            assert cases.answers[-1] == f"refused 14 {len(steps)} 0: {UNTOUCHED}", text.hex()


def of_parents(r, cases):
    """A wrong parent (02, [7]): 10, whatever is asked. The climb is no part of a query: its matches are by the tree."""
    some = [b"", DEEP, ANY, DEEP + ANY, named(b"b") + DEEP, DEEP + indexed(0), b"\5"]
    for rows in map(planted, TREES):
        for query in some:
            cases.put(LETTERS, flat(rows), query)
        bad = [with_parent(rows, i, wrong) for i in some_records(rows) for wrong in wrong_parents(rows, i)]
        bad += [flat(row[:PARENT] + [p] for row, p in zip(rows, column)) for column in wrong_columns(rows)]
        bad += [flat(row[:PARENT] for row in rows), flat(row + [0] for row in rows)]  # eight words a record, and ten
        for words in bad:
            cases.no_table(LETTERS, words, r.choice(some))
    for rows in (chain(9, 9), chain(9, 10), chain(18, 10)):  # of eight words each these are a multiple of 9
        cases.put(b"", flat(rows), DEEP)
        cases.no_table(b"", flat(row[:PARENT] for row in rows), DEEP)
    words = flat(planted(TREES[1]))
    for n in range(8, len(words), 8):
        cases.no_table(LETTERS, words[:n], DEEP)
    for deep, kind, i, wrong in [(512, 9, 511, 509), (512, 10, 256, 256), (513, 10, 512, 510)]:
        cases.no_table(b"", with_parent(chain(deep, kind), i, wrong), DEEP)


def main(folder):
    sys.setrecursionlimit(20000)
    r = random.Random(20261117)
    cases = Cases()
    marked(cases)
    of_limits(r, cases)
    of_chains(cases)
    of_documents(r, cases)
    of_tables(r, cases)
    of_parents(r, cases)
    of_characters(cases)
    wanted = ["matches", "nothing", "0 steps", "1 steps", "16 steps", "empty name found", "room exact", "room one short", "two of one name found"]
    wanted += [f"refused {n}" for n in (7, 10, 14, 24)] + ["14 " + why for why in ("seventeenth", "unknown", "cut", "ill-formed", "negative")]
    for key in wanted:
        assert cases.seen.get(key), key
    assert len(cases.lines) >= 3000, len(cases.lines)
    open(folder + "/stdin", "w", newline="").write("\n".join(cases.lines) + "\n")
    open(folder + "/stdout", "w", newline="").write("\n".join(cases.answers) + "\n")
    print(len(cases.lines), "queries:", ", ".join(f"{k} {v}" for k, v in sorted(cases.seen.items())))


if __name__ == "__main__":
    main(sys.argv[1])
