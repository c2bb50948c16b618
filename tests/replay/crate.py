"""quartz_nbt's way with texts where it parts from document 01 (docs/DIFFERENCES.md), as changes to the parser of snbt.py.

With these switched the two must agree on every text, so that no difference goes unlisted. Repeated keys aside, each is one method or line.
"""
import snbt
from listing import Refused, string


class Crate(snbt.Parser):
    def __init__(self, data):
        super().__init__(data, 1 << 60)

    def take(self, place, stops, number=20, where=None):
        tok = self.lex(place, stops)
        if tok is None:
            raise Refused(number, self.t.size if where is None else where)
        return tok

    def lex(self, place, stops):
        """Every decimal is taken, as the nearest double."""
        kept, snbt.decimal = snbt.decimal, any_decimal
        try:
            return snbt.token(self.t, place, stops)
        finally:
            snbt.decimal = kept

    def scalar(self, tok, want, front):
        """Whole numbers keep their low bits; a string's length keeps its low sixteen."""
        if tok.kind in snbt.WIDTH:
            bits = 8 * snbt.WIDTH[tok.kind]
            tok.value = (tok.value + 2**(bits - 1)) % 2**bits - 2**(bits - 1)
        if tok.kind in ("string", "quoted") and want in (0, 8) and len(snbt.modified(tok.value)) > 65535:
            body = snbt.modified(tok.value)
            return 8, string(body[:len(body) % 65536]) + body[len(body) % 65536:], tok.next
        return super().scalar(tok, want, front)

    def belongs(self, tok, sort):
        """Any whole number stands in any array, by its low bits."""
        return tok.kind in snbt.WIDTH

    def bracket(self, opening, left, front):
        """Small letters open arrays; another string before `;` is refused itself; its next token stops as a first element does."""
        tok = self.lex(opening.next, "first")
        if tok is None:
            raise Refused(20, self.t.size)
        if tok.kind == "]":
            return 9, bytes(5), tok.next
        follows = "default"
        if tok.kind in ("string", "quoted"):
            follows = "first"
            try:
                second = self.lex(tok.next, "first")
            except Refused:
                second = None
            if second and second.kind == ";":
                if tok.kind == "quoted" or tok.value.upper() not in snbt.LETTER or len(tok.value) != 1:
                    raise Refused(19, tok.index)
                return self.array(tok.value.upper(), opening, second.next, front)
        kind, out, place = self.value(tok, 0, 1, 0)
        number = 1
        while True:
            tok = self.take(place, follows)
            follows = "default"
            if tok.kind == "]":
                return 9, bytes([kind]) + number.to_bytes(4, "big") + out, tok.next
            if tok.kind != ",":
                raise Refused(19, tok.index)
            _, more, place = self.value(self.take(tok.next, "later"), kind, 1, 0)
            out, number = out + more, number + 1

    def compound(self, opening, left, front):
        """Commas may lead and be doubled; what follows a value is read as a key; a repeated key's last value stands at its first place."""
        out, comma, place = {}, -1, opening.next
        while True:
            tok = self.take(place, "key", 22, opening.index)
            place = tok.next
            if tok.kind == "}":
                if comma is not None and comma >= 0:
                    raise Refused(21, comma)
                return 10, b"".join(out.values()) + b"\0", place
            if tok.kind == ",":
                comma = tok.index
                continue
            if tok.kind not in ("string", "quoted") or comma is None:
                raise Refused(19, tok.index)
            colon = self.take(place, "default")
            if colon.kind != ":":
                raise Refused(19, colon.index)
            kind, body, place = self.value(self.take(colon.next, "value"), 0, 1, 0)
            name = snbt.modified(tok.value)
            size = len(name) % 65536
            out[name], comma = bytes([kind]) + string(name[:size]) + name[size:] + body, None


def any_decimal(s, place):
    """Rule 13 without 23."""
    try:
        return real_decimal(s, place)
    except Refused as e:
        if e.args[0] != 23:
            raise
    kind = {"f": "float", "d": "double"}.get(s[-1].lower())
    return (kind or "double", float(s[:-1] if kind else s))


real_decimal = snbt.decimal


def parse(data):
    """The bytes consumed and the document, as the crate has them."""
    p = Crate(data)
    tok = p.take(0, "default")
    if tok.kind != "{":
        raise Refused(19, tok.index)
    _, out, place = p.compound(tok, 1, 0)
    return place, b"\x0A\0\0" + out
