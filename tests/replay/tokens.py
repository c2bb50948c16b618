#!/usr/bin/env python3
"""Writes the cases of crates/replay_tokens: stdin has a stop set, a start and a text a line, stdout what the program must print.

    tests/replay/tokens.py crates/replay_tokens

The answers are recorded from quartz_nbt's own lexer (compare/ask). snbt.py, which is written from document 01, must say the same of every
text: where the crate keeps no place (18, 20) its place is taken, and where 01 and the crate differ its answer is: 15, 23, and 17 where
the crate panics. What differs otherwise stops this program.
"""
import collections
import random
import subprocess
import sys

import snbt
from listing import Refused

NAMES = list(snbt.STOPS)
KINDS = ["{", "}", "[", "]", ",", ":", ";", "string", "quoted", "byte", "short", "int", "long", "float", "double"]
NUMBER = {"UnmatchedQuote": 16, "UnknownEscapeSequence": 17, "InvalidNumber": 18, "UnexpectedToken": 19, "UnexpectedEOS": 20}
PICKED = [
    "a\\,b", '"\\u0041"', "+5", "1e5", "-", "1.", "1.f", "a\\b", 'a"b"', "12''", "a'b,c'd,e", "a\\'b,c", "a\\\\'b,c'", "a'\"b,'c,", "\\,a", "'a", '"a',
    "a{,},", "a[,],", "a{[},],", "a}],b", "a{]},b", "{a", "a b \t,", "a \x0b b,", "\x0ba", "\u00a0a ", "\ufeff{", "a\0b", "", " ", "\t\n\f\r ", "é", "aé,b",
    "'é\\u20ac'", "\"\\u", "\"\\u1", '"\\u1"', '"\\u12g4"', "'\\ud800'", "'\\ud83d\\ude00'", "'\\x'", "'\\", '"\\', "'\\é'", "'\\€'", "'\\😀'", "'\\''", "'\\\"'",
    '"\'"', "'\"'", "''", '""x', "'a'b", "'\\n\\r\\t\\\\'", "'\\u0000'", "'\\uFFFF'", "'\\udfff'", "'\\ue000'", "'\\u00e9😀'", "😀", "a😀b,",
    "0.1", "-0d", "-0.0", "9007199254740993d", "9007199254740993.0", "1.0e23", "1.e23", "-.5", ".5", "inf.", "NaN", "true", "-inf", "0x1F", "5L", "5i", "007",
    "1.5E+3", "1.5b", "1.2.3", "--5", "5 5", "-9223372036854775808L", "9223372036854775808", "300b", "-129B", "70000s", "1_0.0", "1.0ef", "1\\", "1\"", "-a",
]
# Starts and stop sets that the texts above do not get by chance.
EXAMPLES = [
    ("default", 0, "1e5"), ("default", 0, " a b ,"), ("value", 0, "a',',"), ("default", 1, "a \t"), ("default", 0, '"\\u'), ("default", 0, '"a\\ud800"'),
    ("default", 0, " '\\"), ("default", 0, "'\\'\\n\\\\'"),
]
ALPHABET = list("a1-.b\\'\"{}[],:; é")


def texts(r):
    yield from PICKED
    for a in ALPHABET:
        yield a
        for b in ALPHABET:
            yield a + b
    for _ in range(2600):
        yield "".join(r.choice(ALPHABET + list("xyz_\t\n€😀\0")) for _ in range(r.randrange(3, 14)))
    for _ in range(500):
        digits = "".join(r.choice("0123456789") for _ in range(r.randrange(1, 21)))
        yield r.choice(["", "-"]) + digits + r.choice(["", "", "." + digits[:r.randrange(4)]]) + r.choice(["", "", "e5", "E-3", "e"]) + r.choice(["", "b", "s", "L", "f", "D", " "])
    for _ in range(900):
        body = [r.choice(["a", "é", "😀", "\0", "\\n", "\\'", '\\"', "\\\\", "\\u00E9", "\\u20ac", "\\u0000", "'", '"', " ", ",", "\\ud812", "\\q", "\\u12"]) for _ in range(r.randrange(0, 7))]
        quote = r.choice("'\"")
        yield r.choice(["", " "]) + quote + "".join(body) + r.choice([quote, quote, quote, ""]) + r.choice(["", ",", "x"])


def cases():
    r, seen = random.Random(11), set()
    picked = set(PICKED)
    for text in texts(r):
        data = text.encode()
        for stops in NAMES if text in picked or len(text) < 3 else r.sample(NAMES, 2):
            start = 0 if r.randrange(5) else r.randrange(len(data) + 2)
            if (stops, start, data) not in seen:
                seen.add((stops, start, data))
                yield stops, start, data
    for data in (b"\x80", b"a\xff,b", b"\xc0\x80", b"\xed\xa0\x80", b"\xf4\x90\x80\x80", b"\xe2\x82", "€".encode()):
        for start in range(len(data) + 2):
            yield "default", start, data
    for stops, start, text in EXAMPLES:
        yield stops, start, text.encode()


def said(kind, value, index, width, next):
    """An answer as the program prints it: a number by its bits, a string by its content in rule 2's form."""
    if kind in ("string", "quoted"):
        value = snbt.modified(value).hex().upper()
    elif kind in ("float", "double"):
        value = f"{value:016x}"
    elif kind in snbt.WIDTH:
        value = f"{value % 2**64:016x}"
    else:
        value = ""
    return f"{KINDS.index(kind) + 1} {index} {width} {next} {value}".rstrip()


def ours(stops, start, data):
    try:
        tok = snbt.token(snbt.Text(data), start, stops)
    except Refused as e:
        return f"refused {e.args[0]} {e.args[1]}"
    if tok is None:
        return f"end {len(data)}"
    value = snbt.bits(tok.value) if tok.kind in ("float", "double") else tok.value
    return said(tok.kind, value, tok.index, tok.width, tok.next)


def theirs(line, mine):
    """The crate's answer; what it keeps no place for has ours."""
    word, *rest = line.split(" ")
    if word == "end":
        return f"end {rest[0]}"
    if word == "err":
        number, place = NUMBER[rest[0]], rest[1]
        return f"refused {number} {mine.split(' ')[-1] if place == '-' else place}"
    if word != "tok":
        return line
    kind, value, index, width, next = rest[0], rest[1], *rest[-3:]
    if kind in ("string", "quoted"):
        value = bytes.fromhex("" if value == "-" else value).decode()
    elif kind in ("float", "double"):
        value = int(value, 16)
    elif kind != "punct":
        value = int(value)
    return said(value if kind == "punct" else kind, value, index, width, next)


def intended(mine, line):
    """A difference that 01 asks for: 15 and 23 are added, and the crate panics on an escape before a long character."""
    return mine == "refused 15 0" or mine.startswith("refused 23 ") or (mine.startswith("refused 17 ") and line.startswith("panic"))


def main(folder):
    todo = list(cases())
    asked = "".join(f"lex {stops} {start} {data.hex() or '-'}\n" for stops, start, data in todo)
    answers = subprocess.run(["compare/ask"], input=asked, capture_output=True, text=True, check=True).stdout.splitlines()
    assert len(answers) == len(todo)
    count, differ = collections.Counter(), 0
    with open(f"{folder}/stdin", "w") as lines, open(f"{folder}/stdout", "w") as out:
        for (stops, start, data), line in zip(todo, answers):
            mine = ours(stops, start, data)
            if intended(mine, line):
                differ += 1
            elif theirs(line, mine) != mine:
                sys.exit(f"{stops} {start} {data!r}: 01 {mine}, the crate {line}")
            count[" ".join(mine.split(" ")[:2]) if mine[0] == "r" else mine.split(" ")[0]] += 1
            lines.write(f"{NAMES.index(stops)} {start} {data.hex()}\n")
            out.write(mine + "\n")
    print(len(todo), "texts,", differ, "of them differ as 01 asks;", dict(count))


if __name__ == "__main__":
    main(sys.argv[1])
