"""Rules 10 to 15 of document 01 once more, in Python, for the makers of recorded answers: the lexer, a string's content and the parser.

Written from 01 alone, over characters and not over bytes: a text is a list of characters with their places. Refusals are exceptions.
"""
import re
import struct

from forms import modified
from listing import Refused, string

BLANK = set("\t\n\f\r ")
SIGNS = set("{}[],:;")
STOPS = {"default": set("{}[],;"), "key": set(":"), "value": set(",}"), "first": set(",];"), "later": set(",]")}
SIMPLE = {"'": "'", '"': '"', "\\": "\\", "n": "\n", "r": "\r", "t": "\t"}


class Text:
    """A text's characters, and the place in bytes of each and of the end."""

    def __init__(self, data):
        if len(data) > 1048576:
            raise Refused(9, 0)
        try:
            self.chars = data.decode()
        except UnicodeDecodeError:
            raise Refused(15, 0)
        self.size, self.places, at = len(data), [], 0
        for c in self.chars:
            self.places.append(at)
            at += len(c.encode())
        self.places.append(at)
        self.number = {p: i for i, p in enumerate(self.places)}

    def at(self, place):
        """The number of the character at a place."""
        if place not in self.number:
            raise Refused(15, 0)
        return self.number[place]


# ---- rule 13

def bits(x):
    return struct.unpack(">Q", struct.pack(">d", x))[0]


def single(x):
    """The single nearest to a double; struct refuses to overflow, which is infinity."""
    try:
        return struct.pack(">f", x)
    except OverflowError:
        return struct.pack(">f", float("inf") if x > 0 else float("-inf"))


def whole(s, place):
    kind = {"b": "byte", "s": "short", "l": "long", "f": "float", "d": "double"}.get(s[-1:].lower())
    rest = s[:-1] if kind else s
    if not re.fullmatch("-?[0-9]+", rest) or not -2**63 <= int(rest) < 2**63:
        raise Refused(18, place)
    return (kind or "int", float(int(rest)) if kind in ("float", "double") else int(rest))


def decimal(s, place):
    kind = {"f": "float", "d": "double"}.get(s[-1].lower())
    if not kind and not re.fullmatch("[0-9]", s[-1]):
        raise Refused(18, place)
    m = re.fullmatch(r"(-?)([0-9]*)\.([0-9]*)(?:[eE]([+-]?[0-9]+))?", s[:-1] if kind else s)
    if not m or not m[2] + m[3]:
        raise Refused(18, place)
    w, p = int(m[2] + m[3]), int(m[4] or "0") - len(m[3])
    if w == 0:
        return (kind or "double", -0.0 if m[1] else 0.0)
    if w > 2**53 or not -22 <= p <= 22:
        raise Refused(23, place)
    return (kind or "double", float(m[0]))


# ---- rules 10 to 12

class Token:
    """kind: a sign, `string`, `quoted` or a number's; value: the characters or the number; span: of a string's content, in bytes."""

    def __init__(self, kind, value, index, width, next, span=None):
        self.kind, self.value, self.index, self.width, self.next, self.span = kind, value, index, width, next, span


def escape(t, i, opened):
    """The escape whose backslash is character i of the token at `opened`: its character and how many it takes."""
    chars = t.chars
    if i + 1 == len(chars):
        raise Refused(16, opened)
    if chars[i + 1] != "u":
        if chars[i + 1] not in SIMPLE:
            raise Refused(17, t.places[i])
        return SIMPLE[chars[i + 1]], 2
    for j in range(i + 2, i + 6):
        if j == len(chars):
            raise Refused(20, t.size)
        if chars[j] not in "0123456789abcdefABCDEF":
            raise Refused(19, t.places[j])
    value = int(chars[i + 2:i + 6], 16)
    if 0xD800 <= value < 0xE000:
        raise Refused(17, t.places[i])
    return chr(value), 6


def quoted(t, i):
    chars, j, content = t.chars, i + 1, ""
    while j < len(chars):
        if chars[j] == chars[i]:
            return Token("quoted", content, t.places[i], j + 1 - i, t.places[j + 1], (t.places[i + 1], t.places[j]))
        c, n = escape(t, j, t.places[i]) if chars[j] == "\\" else (chars[j], 1)
        content, j = content + c, j + n
    raise Refused(16, t.places[i])


def unquoted(t, i, stops):
    chars, end, width = t.chars, i + 1, 1
    levels, opened, slash, j = {"{": 0, "[": 0}, None, False, i + 1
    while j < len(chars):
        c = chars[j]
        if c == "\\":
            slash, j = True, j + 1
            continue
        if c in "'\"":
            if not slash and opened in (None, c):
                opened = None if opened else c
        else:
            if opened is None:
                if not any(levels.values()) and c in stops:
                    break
                if c in "{[":
                    levels[c] += 1
                elif c in "}]":
                    own = "{" if c == "}" else "["
                    levels[own] = max(0, levels[own] - 1)
            if c not in BLANK:
                end, width = j + 1, width + 1
        slash, j = False, j + 1
    word, place = chars[i:end], t.places[i]
    kind, value = "string", word
    if word[0] == "-" or word[0] in "0123456789":
        kind, value = (decimal if "." in word else whole)(word, place)
    return Token(kind, value, place, width, t.places[j], (place, t.places[end]))


def token(t, place, stops):
    """The token at a place of a text; None at its end."""
    i = t.at(place)
    while i < len(t.chars) and t.chars[i] in BLANK:
        i += 1
    if i == len(t.chars):
        return None
    c = t.chars[i]
    if c in SIGNS:
        return Token(c, c, t.places[i], 1, t.places[i] + 1)
    return quoted(t, i) if c in "'\"" else unquoted(t, i, STOPS[stops])


def content(data, start, end, in_quotes, room):
    """A string token's content; a backslash that the span's end cuts off is 17."""
    t = Text(data)
    i, e = t.at(start), t.at(end)
    if e < i:
        raise Refused(15, 0)
    part, out = Text(data[start:end]), ""
    j = 0
    while j < len(part.chars):
        c, n = part.chars[j], 1
        if in_quotes and c == "\\":
            try:
                c, n = escape(part, j, None)
            except Refused as r:
                raise Refused(17, start + part.places[j]) if r.args[0] == 16 else Refused(r.args[0], r.args[1] + start)
        out, j = out + c, j + n
    if len(modified(out)) > room:
        raise Refused(13, 0)
    return modified(out)


# ---- rules 14 and 15

WIDTH = {"byte": 1, "short": 2, "int": 4, "long": 8}
KIND = {"byte": 1, "short": 2, "int": 3, "long": 4, "float": 5, "double": 6, "string": 8, "quoted": 8}
LETTER = {"B": ("byte", 7), "I": ("int", 11), "L": ("long", 12)}


class Parser:
    """Reads a text into a document; `used` counts the output's bytes as the tokens bring them."""

    def __init__(self, data, room):
        self.t, self.room, self.used = Text(data), room, 0

    def take(self, place, stops, number=20, where=None):
        """The token at a place; at the end of the text a refusal."""
        tok = token(self.t, place, stops)
        if tok is None:
            raise Refused(number, self.t.size if where is None else where)
        return tok

    def count(self, n, tok):
        self.used += n
        if self.used > self.room:
            raise Refused(13, tok.index)

    def scalar(self, tok, want, front):
        if tok.kind not in KIND:
            raise Refused(19, tok.index)
        if tok.kind in WIDTH:
            w = WIDTH[tok.kind]
            if not -2**(8 * w - 1) <= tok.value < 2**(8 * w - 1):
                raise Refused(19, tok.index)
            out = tok.value.to_bytes(w, "big", signed=True)
        elif tok.kind in ("float", "double"):
            out = single(tok.value) if tok.kind == "float" else struct.pack(">d", tok.value)
        else:
            body = modified(tok.value)
            if len(body) > 65535:
                raise Refused(12, tok.index)
            out = string(body)
        if want not in (0, KIND[tok.kind]):
            raise Refused(11, tok.index)
        self.count(front + len(out), tok)
        return KIND[tok.kind], out, tok.next

    def belongs(self, tok, sort):
        """Whether a token may stand in an array of a sort (rule 15)."""
        w = WIDTH[sort]
        return tok.kind == sort and -2**(8 * w - 1) <= tok.value < 2**(8 * w - 1)

    def array(self, letter, opening, place, front):
        sort, kind = LETTER[letter]
        self.count(front + 4, opening)
        w, values, comma = WIDTH[sort], [], None
        while True:
            tok = self.take(place, "later", 22, opening.index)
            place = tok.next
            if tok.kind == "]":
                if comma is not None:
                    raise Refused(21, comma)
                return kind, len(values).to_bytes(4, "big") + b"".join((v % 2**(8 * w)).to_bytes(w, "big") for v in values), place
            if tok.kind == ",":
                comma = tok.index
                continue
            if not self.belongs(tok, sort):
                raise Refused(11, tok.index)
            self.count(w, tok)
            values, comma = values + [tok.value], None

    def bracket(self, opening, left, front):
        tok = token(self.t, opening.next, "first")
        if tok and tok.kind == "string" and tok.value in LETTER:
            second = token(self.t, tok.next, "default")
            if second and second.kind == ";":
                return self.array(tok.value, opening, second.next, front)
        if left == 0:
            raise Refused(7, opening.index)
        self.count(front + 5, opening)
        if tok is None:
            raise Refused(22, opening.index)
        if tok.kind == "]":
            return 9, bytes(5), tok.next
        kind, out, place = self.value(tok, 0, left - 1, 0)
        number = 1
        while True:
            tok = self.take(place, "default")
            if tok.kind == "]":
                return 9, bytes([kind]) + number.to_bytes(4, "big") + out, tok.next
            if tok.kind != ",":
                raise Refused(19, tok.index)
            _, more, place = self.value(self.take(tok.next, "later"), kind, left - 1, 0)
            out, number = out + more, number + 1

    def compound(self, opening, left, front):
        if left == 0:
            raise Refused(7, opening.index)
        self.count(front, opening)
        out, names, comma, place = [], set(), None, opening.next
        while True:
            tok = self.take(place, "key", 22, opening.index)
            if tok.kind == "}":
                if comma is not None:
                    raise Refused(21, comma)
                break
            if tok.kind not in ("string", "quoted"):
                raise Refused(19, tok.index)
            name = modified(tok.value)
            if len(name) > 65535:
                raise Refused(12, tok.index)
            if name in names:
                raise Refused(6, tok.index)
            names.add(name)
            colon = self.take(tok.next, "default", 22, opening.index)
            if colon.kind != ":":
                raise Refused(19, colon.index)
            kind, body, place = self.value(self.take(colon.next, "value"), 0, left - 1, 3 + len(name))
            out.append(bytes([kind]) + string(name) + body)
            tok = self.take(place, "default", 22, opening.index)
            if tok.kind == "}":
                break
            if tok.kind != ",":
                raise Refused(19, tok.index)
            comma, place = tok.index, tok.next
        self.count(1, tok)
        return 10, b"".join(out) + b"\0", tok.next

    def value(self, tok, want, left, front):
        """A value by its first token: its kind, its payload and the next place; `front` bytes of id and name are counted with it."""
        if tok.kind not in "{[":
            return self.scalar(tok, want, front)
        kind, out, place = (self.compound if tok.kind == "{" else self.bracket)(tok, left, front)
        if want not in (0, kind):
            raise Refused(11, tok.index)
        return kind, out, place


def parse(data, room):
    """The bytes of the text consumed and the document."""
    p = Parser(data, room)
    tok = p.take(0, "default")
    if tok.kind != "{":
        raise Refused(19, tok.index)
    _, out, place = p.compound(tok, 512, 3)
    return place, b"\x0A\0\0" + out
