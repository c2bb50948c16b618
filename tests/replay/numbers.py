#!/usr/bin/env python3
"""Makes crates/replay_numbers/stdin and stdout: numbers of the text, and doubles to be rounded to singles.

The answers are Python's own, not this project's: int() and float() of a text, float() of a whole number, and struct's
conversion of a double to a C float (which refuses to overflow: that is infinity). Rule 13's grammar and limits are
written here once more, with regular expressions. The cases are fixed: running it again makes the same files.
  python3 tests/replay/numbers.py"""
import os, random, re, struct

rng = random.Random(13)
lines = []
PLACE = 2


def token(text):
    lines.append("t " + text)


def single(bits):
    lines.append("s %016x" % bits)


# ---- the answers

def double_bits(x):
    return struct.unpack(">Q", struct.pack(">d", x))[0]


def single_bits(x):
    try:
        return struct.unpack(">I", struct.pack(">f", x))[0]
    except OverflowError:
        return 0x7F800000 if x > 0 else 0xFF800000


def carried(kind, x):
    if kind == "f":
        return "5 %016x %08x" % (double_bits(x), single_bits(x))
    return "6 %016x" % double_bits(x)


def refused(number):
    return "refused %d %d" % (number, PLACE)


def whole(text):
    kind = text[-1:].lower()
    rest = text[:-1] if kind in ("b", "s", "l", "f", "d") else text
    if not re.fullmatch("-?[0-9]+", rest):
        return refused(18)
    n = int(rest)
    if not -2**63 <= n < 2**63:
        return refused(18)
    if kind in ("f", "d"):
        return carried(kind, float(n))
    return "%d %016x" % ({"b": 1, "s": 2, "l": 4}.get(kind, 3), n % 2**64)


def decimal(text):
    kind = text[-1].lower()
    if kind in ("f", "d"):
        rest = text[:-1]
    elif re.fullmatch("[0-9]", kind):
        rest = text
    else:
        return refused(18)
    parts = re.fullmatch(r"(-?)([0-9]*)\.([0-9]*)(?:[eE]([+-]?[0-9]+))?", rest)
    if not parts or not parts[2] + parts[3]:
        return refused(18)
    w, p = int(parts[2] + parts[3]), int(parts[4] or "0") - len(parts[3])
    if w == 0:
        return carried(kind, -0.0 if parts[1] else 0.0)
    if w > 2**53 or not -22 <= p <= 22:
        return refused(23)
    return carried(kind, float(rest))


def answer(line):
    if line[0] == "s":
        return "%08x" % single_bits(struct.unpack(">d", bytes.fromhex(line[2:]))[0])
    return decimal(line[2:]) if "." in line else whole(line[2:])


# ---- whole numbers: around every power of two and ten, and halfway between two doubles

def wholes():
    near = set()
    for k in range(65):
        near.update(2**k + d for d in (-2, -1, 0, 1, 2))
    for k in range(20):
        near.update(10**k + d for d in (-1, 0, 1))
    for n in sorted(near):
        if n < 0:
            continue
        for suffix in ("", rng.choice("bBsSlL"), rng.choice("dD"), rng.choice("fF")):
            token(str(n) + suffix)
            token("-" + str(n) + suffix)
    for k in range(54, 64):
        unit = 2**(k - 53)
        for _ in range(12):
            tie = 2**k + rng.randrange(2**52) * unit + unit // 2
            for n in (tie - 1, tie, tie + 1):
                if n < 2**63:
                    token(rng.choice(["", "-"]) + str(n) + rng.choice("dDfF"))
    for k in range(25, 64):
        unit = 2**(k - 24)
        for _ in range(4):
            tie = 2**k + rng.randrange(2**23) * unit + unit // 2
            for n in (tie - 1, tie, tie + 1):
                if n < 2**63:
                    token(rng.choice(["", "-"]) + str(n) + rng.choice("fF"))


# ---- decimals: every power from -22 to 22 and those next to them, digits up to 2^53 and just beyond

def written(w, p):
    """w x 10^p with some of the digits behind the point, chosen so that the power comes out as asked."""
    digits = str(w)
    cut = rng.randrange(len(digits) + 1)
    e = p + len(digits) - cut
    text = digits[:cut] + "." + digits[cut:]
    if e or rng.random() < 0.2:
        text += rng.choice("eE") + (rng.choice(["", "+"]) if e >= 0 else "-") + "0" * rng.choice([0, 0, 0, 1, 25]) + str(abs(e))
    if rng.random() < 0.1:
        text = "0" * rng.randrange(1, 30) + text
    if text[0] == "." or rng.random() < 0.3:
        text = "-" + text
    end = rng.choice(["", "d", "D", "f", "F"])
    return text + (end if end or text[-1] != "." else "d")


def decimals():
    for p in range(-25, 26):
        for w in (1, 2, 5, 9, 2**53 - 1, 2**53, 2**53 + 1, 2**53 - 2, 2**52 + 1, 8999999999999999, 9007199254740900):
            token(written(w, p))
        for _ in range(24):
            token(written(rng.randrange(1, 2**rng.randrange(2, 54)), p))
        for k in range(0, 16, 3):
            token(written(10**k + rng.choice([-1, 0, 1]) if k else 1, p))
    for p in (22, 23, -22, -23, 24, -24, 10**18, -10**18, 2**63, -2**63, 10**19, -10**19, 10**30, -10**30):
        for w in ("0", "1", "00", "7"):
            token("%s.e%dd" % (w, p))
            token("-%s.e%df" % (w, p))
    for n in (16777215, 16777216, 16777217, 16777218, 16777219, 33554431, 33554433, 33554434, 33554435):
        for text in (str(n) + ".", str(n) + ".0", str(n // 10) + "." + str(n % 10) + "e1"):
            token(text + "f")
            token("-" + text + "F")
    for text in ("3.4028234663852886e38", "3.4028235677973366e38", "340282346638528859.e21", "340282356779733661.e21", "3402823567797337.e22", "34028235677973.e22"):
        token(text + "f")


# ---- tokens that are none, and those that nearly are

def refusals():
    named = """- . -. -.f -.d 1. 1.f 1.F 1.d .5 -.5 -.5f 1.e5 1.5e3f 1.0ef 1.0e 1.0e+ 1.0e- 1.0e+5 1.0e-5d 1e5 1e5.0 1e5.0f 1.2.3 1..2 1.5b
    1.5B 1.5s 1.5l 1.5x 1_0.0 1_0 5e 5e5d 0x10 0x1.0 --5 --5.0 -+5 -+5.0 5-5 5- 5-.0 -b -d -f -l 1bb 1bd 1fd 1.0fd 1.0df 1.0ff -inf.f
    -nan.0 -infinity.0 inf. 1.0inf 1.0e1.0 1.0e1e1 1.0ee1 1.0e++1 1.0e+-1 00 -00 007b -007.0 0.0 -0.0 -0 -0d -0f -0.0f -.0 0.d 0.f
    9007199254740992.d 9007199254740993.d 9007199254740993.0 1.0000000000000000 1.000000000000000 99999999999999999999.0
    9223372036854775807 9223372036854775808 -9223372036854775808 -9223372036854775809 9223372036854775808d -9223372036854775809f
    18446744073709551616 9999999999999999999 10000000000000000000 99999999999999999999999999 -99999999999999999999999999l
    5/ 5: /5.0 :5.0 5.: 5./ 5.0: 5.0/ 1.0e/ 1.0e: 5@ 5` 5g 5c 5e. 5c.0 5g.0 9.9E9D 9.9E9F 9.9E9E""".split()
    for text in named:
        token(text)
    for text in ("5 5", "5 .0", "5. 0", "5 d", "-5 ", "1.0e 5"):
        token(text)
    pieces = ["-", "+", ".", "e", "E", "f", "d", "b", "l", "x", "_", "0", "1", "7", "9", "00", "25", "9007199254740992"]
    for _ in range(1500):
        token(rng.choice(["-", "0", "1", "5", "12"]) + "".join(rng.choice(pieces) for _ in range(rng.randrange(0, 6))))


# ---- doubles to singles: ties, carries, overflow, subnormal singles, zeros and infinities

def singles():
    for sign in (0, 2**63):
        for bits in (0, 1, 2**52 - 1, 2**52, 0x7FF0000000000000, 0x7FEFFFFFFFFFFFFF, 0x47EFFFFFE0000000, 0x47EFFFFFEFFFFFFF,
                     0x47EFFFFFF0000000, 0x47EFFFFFF0000001, 0x47F0000000000000, 0x3690000000000000, 0x3690000000000001,
                     0x368FFFFFFFFFFFFF, 0x36A0000000000000, 0x380FFFFFC0000000, 0x380FFFFFE0000000, 0x3810000000000000):
            single(sign + bits)
    for field in range(868, 1156):
        bits = field * 2**52
        dropped = 29 if field >= 897 else min(926 - field, 52)
        for _ in range(3):
            kept = rng.randrange(2**(52 - dropped)) if dropped < 52 else 0
            tie = bits + kept * 2**dropped + 2**(dropped - 1)
            for b in (tie - 1, tie, tie + 1):
                single(rng.choice([0, 2**63]) + b)
        single(bits + 2**52 - 1)
        single(bits + rng.randrange(2**52))
    for _ in range(300):
        b = rng.randrange(2**64)
        if b % 2**63 <= 0x7FF0000000000000:
            single(b)


# ---- each limit of rule 13 by name

def examples():
    named = """-128b 300B -1s -9223372036854775808l 9223372036854775807f 00000000000000000000000000012 9007199254740993d 00b1 1b2
    0.1 1.5E-3D 1.0e23 1.0e24 1.e22 1.e23 1.0e-21 1.0e-22 -3.e-22 9007199254740992. 900719925474099.3 0000000000000000000000001.0
    0.0e99999999999999999999999999 -0.0e-99999999999999999999999999f -00.000000000000000000000000000000000
    1.0e99999999999999999999999999 1.0e99999999999999999999999999e 99999999999999999999999999.0x 1.5e 1.5e+ 1.5e-d""".split()
    for text in named:
        token(text)


wholes()
decimals()
refusals()
singles()
examples()
assert all(len(l) <= 256 for l in lines)
folder = os.path.join(os.path.dirname(os.path.abspath(__file__)), "..", "..", "crates", "replay_numbers")
answers = [answer(l) for l in lines]
open(os.path.join(folder, "stdin"), "w").write("".join(l + "\n" for l in lines))
open(os.path.join(folder, "stdout"), "w").write("".join(a + "\n" for a in answers))
print("%d cases: %d of 18, %d of 23" % (len(lines), answers.count(refused(18)), answers.count(refused(23))))
