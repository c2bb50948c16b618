"""The forms of a document (02, [2]), for the makers of recorded answers: the order of a number's bytes, and the rule that strings keep.

Written from documents 01 and 02 alone. Everything else of documents, tables and queries is the same in each form.
"""


def units(b):
    """The 16-bit units of modified UTF-8, or None."""
    out, i = [], 0
    while i < len(b):
        a = b[i]
        rest = b[i + 1:i + 3]
        if 1 <= a < 0x80:
            u, n = a, 1
        elif 0xC0 <= a < 0xE0 and len(rest) >= 1:
            u, n = (a & 31) << 6 | rest[0] & 63, 2
        elif 0xE0 <= a < 0xF0 and len(rest) >= 2:
            u, n = (a & 15) << 12 | (rest[0] & 63) << 6 | rest[1] & 63, 3
        else:
            return None
        if any(c >> 6 != 2 for c in b[i + 1:i + n]):
            return None
        if n != (1 if 1 <= u < 0x80 else 2 if u < 0x800 else 3):
            return None
        out.append(u)
        i += n
    return out


def is_modified(b):
    """Whether bytes are modified UTF-8, of whole characters only."""
    us = units(b)
    if us is None:
        return False
    i = 0
    while i < len(us):
        if 0xD800 <= us[i] < 0xDC00:
            if i + 1 == len(us) or not 0xDC00 <= us[i + 1] < 0xE000:
                return False
            i += 1
        elif 0xDC00 <= us[i] < 0xE000:
            return False
        i += 1
    return True


def modified(s):
    """A string in rule 2's form."""
    out = b""
    for c in s:
        u = ord(c)
        if u == 0:
            out += b"\xC0\x80"
        elif u < 0x10000:
            out += c.encode()
        else:
            for half in (0xD800 + (u - 0x10000 >> 10), 0xDC00 + (u & 0x3FF)):
                out += bytes([0xE0 | half >> 12, 0x80 | half >> 6 & 63, 0x80 | half & 63])
    return out


def is_utf8(b):
    """Whether bytes are UTF-8, by Python's own decoder, which is strict."""
    try:
        b.decode("utf-8")
    except UnicodeDecodeError:
        return False
    return True


class Form:
    """`well_formed` is the rule that strings keep, `text` gives characters in it. `faults` are bytes that can't be read, each with the offset in
    it at which the first such sequence begins, by 02, [3]: whatever good characters stand before it and behind it, or none. The first of
    them is a single byte."""

    def __init__(self, order, well_formed, text, faults):
        self.order, self.well_formed, self.text = order, well_formed, text
        self.faults = [(bytes.fromhex(fault), offset) for fault, offset in faults]

    def number(self, b, signed=False):
        return int.from_bytes(b, self.order, signed=signed)

    def bytes(self, n, width):
        return n.to_bytes(width, self.order)

    def string(self, b):
        return self.bytes(len(b), 2) + b

    def readable(self, b):
        """How many bytes the longest well-formed start of a string has: where the first sequence that can't be read begins (02, [3])."""
        return next(n for n in range(len(b), -1, -1) if self.well_formed(b[:n]))


JAVA = Form("big", is_modified, modified, [
    ("00", 0), ("80", 0), ("BF", 0), ("F8", 0), ("FF", 0), ("C080 00", 2), ("E282AC 82", 3),  # at their own offsets
    ("C3", 0), ("E2", 0), ("E282", 0), ("E28261", 0), ("E26182", 0), ("C2 C3A9", 0), ("E2 E282AC", 0), ("C300", 0), ("E282FF", 0),  # at the lead
    ("C1BF", 0), ("C081", 0), ("E09FBF", 0), ("E08080", 0),  # overlong
    ("F09F9880", 0), ("F48FBFBF", 0), ("F09F98", 0),  # four bytes
    ("EDA0BD", 0), ("EDA0BD EDB8", 0), ("EDA0BD ED", 0), ("EDA0BD 61", 0), ("EDA0BD C080", 0), ("EDAFBF EE8080", 0),  # a high half alone
    ("EDA0BD 00", 0), ("EDA0BD 80", 0), ("EDA0BD FF", 0), ("EDA0BD EDB861", 0), ("EDA0BD C1BF", 0), ("EDA0BD EDA0BD", 0), ("EDA0BD EDA0BDEDB880", 0),
    ("EDB880", 0), ("EDBFBF", 0), ("EDB880 EDA0BD", 0), ("EDA0BDEDB880 EDB880", 6), ("EDA0BDEDB880 EDA0BD", 6),  # a low half, and behind a pair
])

POCKET = Form("little", is_utf8, str.encode, [
    ("80", 0), ("BF", 0), ("F8", 0), ("FE", 0), ("FF", 0), ("00 80", 1), ("E282AC 82", 3), ("F09F9880 BF", 4),  # at their own offsets
    ("C3", 0), ("E2", 0), ("E282", 0), ("F0", 0), ("F09F", 0), ("F09F98", 0), ("ED", 0), ("F4", 0),  # cut, at the lead
    ("C300", 0), ("C361", 0), ("E28261", 0), ("E26182", 0), ("F09F9861", 0), ("F09F6180", 0), ("F0619880", 0), ("F09F9800", 0),  # wrongly continued
    ("C2 C3A9", 0), ("E2 E282AC", 0), ("E282 F09F9880", 0), ("F09F98 F09F9880", 0), ("F09F98FF", 0), ("E282C0", 0), ("F0 00", 0),
    ("C080", 0), ("C081", 0), ("C1BF", 0), ("E08080", 0), ("E09FBF", 0), ("F0808080", 0), ("F08FBFBF", 0), ("00 C080", 1),  # overlong
    ("EDA080", 0), ("EDA0BD", 0), ("EDAFBF", 0), ("EDB080", 0), ("EDBFBF", 0), ("EDA0BDEDB880", 0), ("F09F9880 EDB880", 4), ("EDA0", 0),  # halves
    ("F4908080", 0), ("F4BFBFBF", 0), ("F5808080", 0), ("F7BFBFBF", 0), ("F48FBFBF F4908080", 4),  # beyond U+10FFFF
    ("F888808080", 0), ("FC8480808080", 0),  # five bytes and six
])
