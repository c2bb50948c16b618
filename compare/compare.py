#!/usr/bin/env python3
"""Compares the proved library with quartz_nbt: documents, tokens and texts; and strings with the JDK. Run by compare/run; prints counts and seeds, and exits 1 on any
difference that docs/DIFFERENCES.md does not list.

Where the two agree nothing more is asked. Where they differ, the reading of document 01 in tests/replay must say what the library says, and
the same with the crate's ways switched on must say what the crate says: so every difference is one of those ways, and is counted under
its entry in docs/DIFFERENCES.md.
"""
import argparse
import collections
import itertools
import multiprocessing
import os
import random
import subprocess
import sys

ROOT = os.path.dirname(os.path.dirname(os.path.abspath(__file__)))
sys.path.insert(0, os.path.join(ROOT, "tests", "replay"))
import crate  # noqa: E402
import listing  # noqa: E402
import snbt  # noqa: E402
import texts as made  # noqa: E402
from library import Library  # noqa: E402
from listing import Refused  # noqa: E402

STOPS = list(snbt.STOPS)
DOCUMENT = {"StdIo": 1, "TagTypeMismatch": 2, "InvalidTagId": 3, "InvalidCesu8String": 4}
TEXT = {
    "UnmatchedQuote": 16, "UnknownEscapeSequence": 17, "InvalidNumber": 18, "UnexpectedToken": 19, "UnexpectedEOS": 20, "TrailingComma": 21,
    "UnmatchedBrace": 22, "NonHomogenousList": 11,
}


# ---- documents

# The records that library.py lends, and a count for which the crate may ask for more memory than there is.
ROOM, HUGE = 4096, 1 << 24


class CrateReader(listing.Reader):
    """The crate's way with documents: no limits, repeated names pass, a negative count panics, and room for a whole list is asked for before
    its elements are read."""

    largest, room, depth = 0, 1 << 60, 1 << 60

    def count(self, at):
        n = int.from_bytes(self.field(at, 4), "big", signed=True)
        self.largest = max(n, self.largest)
        if n < 0:
            raise Refused("panic", 0)
        return n

    def take_name(self, names, word, at):
        pass


class Reader(listing.Reader):
    """Document 01's way, with the room that library.py lends."""

    room = ROOM


def read_by(reader):
    """The bytes consumed, or the refusal."""
    try:
        return reader.root()
    except Refused as e:
        return f"refused {e.args[0]} {e.args[1]}"


def document_line(doc):
    return f"rewrite {doc.hex() or '-'}"


def crate_document(line):
    word, *rest = line.split(" ")
    if word == "err":
        return f"refused {DOCUMENT[rest[0]]} {rest[2]}"
    return line


def document_entry(doc, ours, theirs):
    """The entry of docs/DIFFERENCES.md that explains a difference, or None."""
    if (read_by(Reader(doc)) if len(doc) <= 1 << 24 else "refused 9 0") != ours:
        return None
    reader = CrateReader(doc)
    way, (said, *rest) = read_by(reader), theirs.split(" ")
    if said == "abort":
        return "huge count" if reader.largest >= HUGE else None
    if said == "ok" and rest[0] != str(way) or said == "panic" and way != "refused panic 0" or said == "refused" and theirs != way:
        return None
    return {"5": "negative count", "6": "repeated name", "7": "depth", "8": "records", "9": "size"}.get(ours.split(" ")[1])


def large_documents():
    """Beyond each limit, and as far as it goes."""
    for deep in (511, 512):
        yield bytes.fromhex("0A0000090000") + b"\x09\0\0\0\1" * (deep - 1) + bytes(5) + b"\0"
    for n in (ROOM - 2, ROOM - 1):
        yield bytes.fromhex("0A0000090000") + b"\1" + n.to_bytes(4, "big") + bytes(n) + b"\0"
    yield b"\x0A\0\0\0" + bytes((1 << 24) - 3)


def documents(r, quick):
    yield from large_documents()
    yield from (doc for doc, _ in listing.broken_documents())
    alphabet = bytes.fromhex("000102030708090A0B0C0DFF61")
    for n in range(4 if quick else 6):
        for body in itertools.product(alphabet, repeat=n):
            yield b"\x0A\0\0" + bytes(body)
    for n in range(4):
        for body in itertools.product(bytes.fromhex("00010A0BFF61C080"), repeat=n):
            yield bytes(body)
    for _ in range(4000 if quick else 330000):
        d = bytes([10]) + listing.string(r.choice([b"", b"root", "Höhe".encode()])) + listing.random_entries(r, r.randrange(4))
        yield d
        for _ in range(4):
            yield listing.damaged(r, d)


# ---- tokens

def token_line(case):
    stops, start, text = case
    return f"lex {STOPS[stops]} {start} {text.hex() or '-'}"


def modified(hexed):
    data = bytes.fromhex("" if hexed == "-" else hexed)
    return (data if data.isascii() and 0 not in data else snbt.modified(data.decode())).hex().upper()


def crate_token(line):
    word, *rest = line.split(" ")
    if word == "err":
        return f"refused {TEXT[rest[0]]} {rest[1]}"
    if word != "tok":
        return line
    kind, value, (index, width, next) = rest[0], rest[1], rest[-3:]
    if kind == "punct":
        return f"{value} {index} {width} {next}"
    if kind in ("string", "quoted"):
        value = modified(value)
    elif kind not in ("float", "double"):
        value = f"{int(value) % 2**64:016X}"
    return f"{kind} {index} {width} {next} {value}"


def same_but_place(ours, theirs):
    """The crate keeps no place for 18 and 20."""
    return theirs.endswith(" -") and ours.split(" ")[:2] == theirs.split(" ")[:2]


def token_entry(case, ours, theirs):
    stops, start, text = case
    try:
        snbt.token(snbt.Text(text), start, STOPS[stops])
        return None
    except Refused as e:
        if f"refused {e.args[0]} {e.args[1]}" != ours:
            return None
    if ours == "refused 15 0":
        return "size, text not UTF-8, start" if theirs in ("bad utf8", "bad start") else None
    if ours.startswith("refused 23 "):
        return "decimals" if theirs.startswith(("double", "float")) else None
    return "escape before a long character" if ours.startswith("refused 17 ") and theirs.startswith("panic") else None


def tokens(r, quick):
    for alphabet, longest, sets in (("a1\\'\"{}[],:; é", 3 if quick else 5, range(5)), ("\"'\\u0aéD€", 4 if quick else 6, (0, 1)), ("-.019eEfdbsL+", 3 if quick else 5, (0,))):
        for n in range(longest + 1):
            for chars in itertools.product(alphabet, repeat=n):
                text = "".join(chars).encode()
                for stops in sets:
                    yield stops, 0, text
    pieces = list("abz019-._+\\'\"{}[],:; \t\n\0é€😀") + ["\\u0041", "\\n", "\\ud800", "1.5", "e10", "99999999999", "0.000001"]
    for _ in range(20000 if quick else 700000):
        text = "".join(r.choice(pieces) for _ in range(r.randrange(1, 20))).encode()
        yield r.randrange(5), r.choice([0, 0, r.randrange(len(text) + 2)]), text


# ---- texts

def text_line(text):
    return f"snbt {text.hex() or '-'}"


def crate_text(line):
    word, *rest = line.split(" ")
    return f"refused {TEXT[rest[0]]} {rest[1]}" if word == "err" else line


def text_entry(text, ours, theirs):
    if made.answer(snbt.parse, text, 1 << 18) != ours:
        return None
    if ours == "refused 15 0":
        return "size, text not UTF-8, start" if theirs == "bad utf8" else None
    if ours == "refused 9 0":
        return "size, text not UTF-8, start" if len(text) > 1 << 20 and theirs.startswith("ok") else None
    way = made.answer(crate.parse, text)
    if theirs.startswith("panic") and way.startswith("refused 17 "):
        return "escape before a long character"
    if way != theirs and not same_but_place(way, theirs):
        return None
    _, number, place = ours.split(" ")
    at = text[int(place):int(place) + 1]
    if number == "19":
        return {b",": "commas in a compound", b";": "array letters"}.get(at, "stop sets" if theirs.startswith("refused 18") or at not in b"-0123456789" else "range of a value")
    if number == "22":
        return "end of text"
    return {"6": "repeated key", "7": "depth", "11": "array elements", "12": "long string", "18": "stop sets", "23": "decimals", "21": "commas in a compound"}.get(number, "refused earlier")


def large_texts():
    """Beyond each limit, and as far as it goes."""
    for deep in (511, 512):
        yield ("{a:" + "[" * deep + "]" * deep + "}").encode()
    for n in (65535, 65536):
        yield ("{a:'" + "x" * n + "'}").encode()
        yield ("{" + "x" * n + ":1}").encode()
    for n in ((1 << 20) - 2, (1 << 20) - 1):
        yield b"{}" + b" " * n
    yield b"{a:'\xFF'}"


def texts(r, quick):
    yield from large_texts()
    pieces = ["{", "}", "[", "]", ",", ":", ";", "a", "1", "1b", "B", "'x'", "I;", "\\"]
    for front in ("{", "{a:[", "{a:1,", "{a:"):
        for n in range(4 if quick else 6):
            for body in itertools.product(pieces, repeat=n):
                yield (front + "".join(body)).encode()
    for _ in range(3000 if quick else 300000):
        s = made.compound(r, 3)
        yield s.encode()
        yield made.damaged(r, s).encode()
        yield made.damaged(r, s).encode()


# ---- strings, by the JDK

def strings(r, quick):
    yield from (text for text, _ in [*listing.broken_strings(), *listing.far_strings()])
    edges = bytes.fromhex("00017F808F909FA0AFB0BFC0C1C2DFE0EDEFF0F4F8FF")
    for n in range(3 if quick else 5):
        for body in itertools.product(edges, repeat=n):
            yield bytes(body)
    pieces = [b"a", b"\xC0\x80", b"\xC3\xA9", b"\xE2\x82\xAC", b"\xED\xA0\xBD", b"\xED\xB8\x80", b"\xED\xA0\xBD\xED\xB8\x80", b"\xF0\x9F\x98\x80", b"\0", b"\xC1", b"\x80"]
    for _ in range(10000 if quick else 400000):
        weights = [40] + [8] * 3 + [2, 2, 8] + [1] * 4
        yield b"".join(r.choices(pieces, weights, k=r.randrange(1, 60)))


PARTS = {
    "strings": (strings, bytes.hex, lambda line: line, lambda lib, s: lib.string(s), lambda case, ours, theirs: None),
    "documents": (documents, document_line, crate_document, lambda lib, d: lib.rewrite(d), document_entry),
    "tokens": (tokens, token_line, crate_token, lambda lib, c: lib.token(c[2], c[1], c[0]), token_entry),
    "texts": (texts, text_line, crate_text, lambda lib, t: lib.parse(t), text_entry),
}


def chunk(job):
    """Compares some cases: how many, refusals by number, differences by entry, and what is unexplained."""
    part, cases, options = job
    _, line_of, theirs_of, ours_of, entry_of = PARTS[part]
    sys.setrecursionlimit(20000)
    lib = Library(options.lib)
    asked = "\n".join(map(line_of, cases)) + "\n"
    judge = ["java", "-cp", options.judge, "Mutf8"] if part == "strings" else [options.oracle]
    lines = subprocess.run(judge, input=asked, capture_output=True, text=True, check=True).stdout.splitlines()
    assert len(lines) == len(cases)
    refusals, entries, wrong = collections.Counter(), collections.Counter(), []
    for case, line in zip(cases, lines):
        ours, theirs = ours_of(lib, case), theirs_of(line)
        refusals[int(ours.split(" ")[1]) if ours[0] == "r" else "refused" if ours.startswith("bad") else "accepted"] += 1
        if ours == theirs or same_but_place(ours, theirs):
            continue
        entry = entry_of(case, ours, theirs)
        if entry is None:
            wrong.append((part, case, ours, theirs))
        else:
            entries[entry] += 1
    return part, len(cases), refusals, entries, wrong[:5]


def jobs(options):
    for part in options.parts:
        cases = PARTS[part][0](random.Random(options.seed), options.quick)
        while group := list(itertools.islice(cases, 40000)):
            yield part, group, options


# The recorded answers of each function, for the table of refusals.
REPLAYED = {"read": ["listing", "replay_depths"], "write": ["replay_tables"], "query": ["replay_queries"], "token": ["replay_tokens"], "parse": ["replay_texts"]}
COMPARED = {"documents": "read", "tokens": "token", "texts": "parse"}


def replayed(name):
    counts = collections.Counter()
    for program in REPLAYED[name]:
        with open(os.path.join(ROOT, "crates", program, "stdout")) as lines:
            words = (line.split(" ") for line in lines)
            counts.update(int(w[w.index("refused") + 1]) for w in words if "refused" in w)
    return counts


def print_refusals(refusals):
    """How often each function gave each refusal: compared with the crate, and replayed from recorded answers."""
    print("\nrefusals, compared + replayed:")
    for name in REPLAYED:
        part = next((p for p, f in COMPARED.items() if f == name), None)
        compared, recorded = refusals.get(part, {}), replayed(name)
        numbers = sorted(n for n in {*compared, *recorded} if n != "accepted")
        print(f"  {name}: " + ", ".join(f"{n}: {compared.get(n, 0)} + {recorded.get(n, 0)}" for n in numbers))


def main():
    ask = argparse.ArgumentParser()
    ask.add_argument("--quick", action="store_true")
    ask.add_argument("--seed", type=int, default=20261115)
    ask.add_argument("--lib", required=True)
    ask.add_argument("--oracle", required=True)
    ask.add_argument("--judge", required=True)
    ask.add_argument("parts", nargs="*", default=list(PARTS))
    options = ask.parse_args()
    count, refusals, entries, wrong = collections.Counter(), collections.defaultdict(collections.Counter), collections.defaultdict(collections.Counter), []
    with multiprocessing.Pool(os.cpu_count()) as pool:
        for part, n, r, e, w in pool.imap_unordered(chunk, jobs(options)):
            count[part] += n
            refusals[part] += r
            entries[part] += e
            wrong += w
    print(f"seed {options.seed}")
    for part in options.parts:
        print(f"\n{part}: {count[part]} compared, {sum(entries[part].values())} differ as listed")
        print("  answers: " + ", ".join(f"{k} {v}" for k, v in sorted(refusals[part].items(), key=str)))
        for entry, n in sorted(entries[part].items()):
            print(f"  {entry}: {n}")
    print_refusals(refusals)
    for w in wrong[:20]:
        print("NOT LISTED", *w)
    print(f"\n{'no difference that is not listed' if not wrong else f'differences that are not listed: {len(wrong)}+'}")
    sys.exit(1 if wrong else 0)


if __name__ == "__main__":
    main()
