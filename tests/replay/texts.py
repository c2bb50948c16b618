#!/usr/bin/env python3
"""Writes the cases of crates/replay_texts: stdin has a text and the output's length a line, stdout what the program must print.

A line is the output's length, a number of letters x, and what stands before and behind these, in hexadecimal digits. The answer is
the bytes consumed and the whole output, which is filled with AA before; or the refusal and whether the output is zero.

    tests/replay/texts.py crates/replay_texts

The answers are quartz_nbt's own (compare/ask) where document 01 and the crate agree, and worked out from 01 (snbt.py) where they differ or
where the output's length decides. Every text is also read in the crate's way (crate.py): what differs from the crate then stops this
program, so that no difference goes unlisted.
"""
import collections
import random
import string
import subprocess
import sys

import crate
import snbt
from listing import Refused

NUMBER = {
    "UnmatchedQuote": 16, "UnknownEscapeSequence": 17, "InvalidNumber": 18, "UnexpectedToken": 19, "UnexpectedEOS": 20, "TrailingComma": 21,
    "UnmatchedBrace": 22, "NonHomogenousList": 11,
}
PICKED = r"""
{} { } {a:1} {"a":'b'} {a:[1b,2b]} {a:true,b:false} {}x {}{} [] x 5 {,} {,a:1} {a:1,,b:1} {a:1,} {a:1,,} {a:1,b:2} {a:1;b:2} {a:1 b:2}
{a {a} {a: {a:1 {a:1, { {" {"a {'a\ {"\u {"\u1 {"\u1"} {"\ud800":1} {"\x":1} {a:"\€"} {a} {a,b:1} {a}b:1} {:1} {5:1} {5x:1} {-:1} {1.0e99:1} {"5":1}
{"":1} {a:1,a:2} {a:1,"\u0061":2} {a:1,b:2,a:3} {a:{b:1},b:2,a:1} {a:1,a {a:1,a:} {a:1,a;1} {a::1} {a:,} {a:}} {a:]} {a:;}
{a:[]} {a:[ ]} {a:[1,2]} {a:[1,]} {a:[,1]} {a:[1,,2]} {a:[,]} {a:[1 {a:[1, {a:[ {a:[: {a:[, {a:[; {a:[} {a:[:]} {a:[;]} {a:[}]} {a:[1;2]} {a:[1b,2]}
{a:[1,2b]} {a:[1,300b]} {a:[1,'x']} {a:['x','y']} {a:[x,y]} {a:[[],[1]]} {a:[[1],[B;1b]]} {a:[{},{b:1}]} {a:[{},[]]} {a:[[1],2]} {a:[2,[1]]}
{a:[B;]} {a:[I;]} {a:[L;]} {a:[B;1b]} {a:[B;1b,2b]} {a:[B;1b,]} {a:[B;,]} {a:[B;,1b]} {a:[B;1b,,2b]} {a:[B;1b,,]} {a:[B;1]} {a:[B;1s]} {a:[I;1]} {a:[I;1b]}
{a:[L;1]} {a:[L;1L]} {a:[L;1l,-1L]} {a:[B;128b]} {a:[B;-128b]} {a:[I;2147483648]} {a:[I;-2147483648]} {a:[I;x]} {a:[I;"1"]} {a:[I;{}]} {a:[I;[]]} {a:[I;:]}
{a:[I;1.0]} {a:[B {a:[B; {a:[B;1b {a:[B;1b, {a:[B] {a:[B]} {a:[B,I;1]} {a:[B\;1b]} {a:[B'';1b]} {a:[b;1b]} {a:[i;1]} {a:[X;1]} {a:["B";1b]} {a:[BB;1b]}
{a:[""1]} {a:[""1[]} {a:""1} {a:""1:} {a:[I;1;2]} {a:[I} {a:[I:1]} {a:[B,1b]} {a:[B {a:[B'} {a:[B"} {a:[I;1 2]} {a:[I;1}
{a:128b} {a:-128b} {a:-129b} {a:32767s} {a:32768s} {a:2147483647} {a:2147483648} {a:-2147483648} {a:9223372036854775807L} {a:9223372036854775808L}
{a:1.5} {a:1.5f} {a:1.5d} {a:1f} {a:1d} {a:-0d} {a:-0.0} {a:1.e23} {a:0.1f} {a:16777217f} {a:3.4028235e22f} {a:1e5} {a:-} {a:1.} {a:1.f} {a:+5}
{a:x y} {a:x\} {a:1\} {a:1"} {a:x"y}"z} {a:{b:{c:{}}}} {a:{b:1,}} {a:{b:1} {a:{b {a:{b: {a:{b:[ {a:{b:[1 {a:x{,}y} {a:x[,]y,b:1}
""".split("\n")

# Texts with the output's length that each is tried with: room that ends at a token, commas in an array, keys that begin like others.
EXAMPLES = [
    ("{}", 2), ("{a:[", 12), ("{a:[", 8), ("{a:[B;,1b,,2b]}", 100), ("{a,b:'c'}", 100), ("{a:300b}", 100), ("{a:0.5f}", 100), ("{b:7b,ab:7b}", 100),
    ("{b:7b,ab:7b,a:7b}", 100), ("{b:7b,ab:7b,b:7b}", 100), ("{b:7b,ab:7b,ab:7b}", 100),
]


def picked():
    for line in PICKED:
        # A text ends where a blank and an opening brace stand.
        yield from filter(None, line.replace(" {", "\n{").split("\n"))
    yield from ("", " ", "\t{}", "\ufeff{}", "{a:1} ", " { a : 1 , b : [ B ; 1b , 2b ] } ", "{ a : [ 1 , 2 ] }", "[]", "x", "5", "'a'", "\x0b{}", "{\0:1}", "{é:'€😀'}",
                "{a:'\\u0000'}", "{a:'\0'}", "{'\\n':'\\''}", "{a:\"it's\"}", "{a:1\n}", "{a:[\n1\n,\n2\n]\n}", "{a:[B;1b]\0}")


def value(r, deep):
    n = r.randrange(20 if deep else 13)
    if n < 5:
        w = r.choice([7, 15, 31, 63, r.randrange(64)])
        return str(r.choice([-1, 1]) * r.randrange(2**w)) + r.choice(["", "", "b", "s", "L", "B", "l"])
    if n < 7:
        return r.choice(["", "-"]) + str(r.randrange(10**r.randrange(1, 9))) + "." + str(r.randrange(1000)) + r.choice(["", "f", "d", "F", "e3", "e-3"])
    if n < 9:
        return str(r.randrange(10**6)) + r.choice("fd")
    if n < 11:
        return key(r)
    if n < 13:
        letter, suffix, width = r.choice([("B", "b", 7), ("I", "", 31), ("L", "L", 63)])
        return "[" + letter + ";" + blank(r) + ",".join(str(r.randrange(-2**width, 2**width)) + suffix for _ in range(r.randrange(4))) + "]"
    if n < 17:
        return compound(r, deep - 1)
    first = r.randrange(5)
    make = [lambda: str(r.randrange(100)), lambda: key(r), lambda: compound(r, deep - 1), lambda: f"{r.randrange(9)}.5", lambda: "[" + str(r.randrange(9)) + "]"][first]
    return "[" + blank(r) + (blank(r) + "," + blank(r)).join(make() for _ in range(r.randrange(4))) + "]"


def blank(r):
    return r.choice(["", "", "", " ", "\n", "\t "])


def key(r):
    if r.randrange(3):
        return "".join(r.choice("abcXYZ_") for _ in range(r.randrange(1, 5)))
    return r.choice("'\"").join(["", "".join(r.choice(["a", "b", " ", "é", "€", "😀", "\\n", "\\u0061", "\\\\", ",", "}", "\0"]) for _ in range(r.randrange(5))), ""])


def compound(r, deep):
    return "{" + (blank(r) + "," + blank(r)).join(blank(r) + key(r) + blank(r) + ":" + blank(r) + value(r, deep) for _ in range(r.randrange(5))) + blank(r) + "}"


def damaged(r, s):
    for _ in range(r.randrange(1, 3)):
        i = r.randrange(len(s) + 1)
        cut = r.choice([0, 0, 1, 1, 2, len(s)])
        s = s[:i] + r.choice(["", "", "{", "}", "[", "]", ",", ":", ";", "'", '"', "\\", " ", "B;", "5", "b", ".", "é", "\\u00"]) + s[i + cut:]
    return s


def texts():
    r = random.Random(14)
    for s in picked():
        yield s
    for n in (511, 512):
        yield "{a:" * n + "{}" + "}" * n
        yield "{a:" + "[" * (n - 1) + "[]" + "]" * (n - 1) + "}"
        yield "{a:" + "[" * (n - 1) + "[B;1b]" + "]" * (n - 1) + "}"
        yield "{a:" + "[" * n + "x"
    for n in (65534, 65535, 65536):
        for tail in ("", "\0"):
            yield "{a:'" + "x" * n + tail + "'}"
            yield "{" + "x" * n + tail + ":1}"
    for n in range(2200):
        s = compound(r, 3)
        yield s
        yield damaged(r, s)
    for n in range(1200):
        yield "".join(r.choice(["{", "}", "[", "]", ",", ":", ";", "a", "b", "1", "1b", "B;", "'x'", '""', " ", "\\", "I;", "{a:", "[1,"]) for _ in range(r.randrange(2, 10)))


def many_keys():
    """Compounds of so many keys, falling and in any order; and rising, with one of them once more at the end."""
    r = random.Random(512)
    letters = string.ascii_uppercase + string.ascii_lowercase
    for n in (511, 512, 513, 1300):
        rising = [a + b for a in letters for b in letters][:n]
        for keys in (rising[::-1], r.sample(rising, n), rising + rising[:1], rising + rising[n // 2:n // 2 + 1], rising + rising[-1:]):
            yield "{" + ",".join(k + ":1b" for k in keys) + "}", 4 + 6 * len(keys)


def answer(parse, *args):
    try:
        place, out = parse(*args)
        return f"ok {place} {out.hex().upper()}"
    except Refused as e:
        return f"refused {e.args[0]} {e.args[1]}"


def theirs(line, mine):
    """The crate's answer; what it keeps no place for has ours."""
    word, *rest = line.split(" ")
    if word == "ok":
        return f"ok {rest[0]} {rest[1]}"
    if word == "err":
        return f"refused {NUMBER[rest[0]]} {mine.split(' ')[-1] if rest[1] == '-' else rest[1]}"
    return line


def rooms(r, mine):
    """The output's lengths to try: more than enough, just enough, one short, any."""
    if not mine.startswith("ok"):
        return [70000, r.randrange(60)][:1 + (r.randrange(3) == 0)]
    n = len(mine.split(" ")[2]) // 2
    return [n + r.randrange(3) * (n < 1000), n - 1] + ([r.randrange(n)] if r.randrange(2) else [])


def line_of(room, data):
    """A case's line: a long run of x as its length."""
    before, x, behind = data.partition(b"x" * 1000)
    run = len(x) + len(behind) - len(behind.lstrip(b"x")) if x else 0
    return f"{room} {run} {before.hex()} {behind.lstrip(b'x').hex() if x else ''}"


def printed(said, room):
    """An answer as the program prints it."""
    if said[0] == "r":
        return said + " zero"
    _, place, out = said.split(" ")
    return f"ok {place} {out}{'AA' * (room - len(out) // 2)}"


def main(folder):
    todo = [(t.encode(), None) for t in dict.fromkeys(texts())] + [(t.encode(), room) for t, room in (*EXAMPLES, *many_keys())]
    asked = "".join(f"snbt {data.hex() or '-'}\n" for data, _ in todo)
    answers = subprocess.run(["compare/ask"], input=asked, capture_output=True, text=True, check=True).stdout.splitlines()
    assert len(answers) == len(todo)
    r, count, differ, cases = random.Random(15), collections.Counter(), 0, 0
    with open(f"{folder}/stdin", "w") as lines, open(f"{folder}/stdout", "w") as out:
        for (data, own), line in zip(todo, answers):
            way = answer(crate.parse, data)
            if theirs(line, way) != way and not (line.startswith("panic") and way.startswith("refused 17 ")):
                sys.exit(f"{data!r}: in the crate's way {way}, the crate {line}")
            mine = answer(snbt.parse, data, 1 << 60)
            differ += mine != way
            for room in rooms(r, mine) if own is None else [own]:
                said = answer(snbt.parse, data, room)
                count[" ".join(said.split(" ")[:2]) if said[0] == "r" else "ok"] += 1
                cases += 1
                lines.write(line_of(room, data) + "\n")
                out.write(printed(said, room) + "\n")
    print(len(todo), "texts,", differ, "of them differ from the crate as 01 asks;", cases, "cases:", dict(count))


if __name__ == "__main__":
    sys.setrecursionlimit(10000)
    main(sys.argv[1])
