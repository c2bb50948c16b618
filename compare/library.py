"""The proved library by way of ctypes: each function answers as compare.py prints and compares it."""
import ctypes

# The words of a record.
WORDS = 9
KINDS = ["end", "{", "}", "[", "]", ",", ":", ";", "string", "quoted", "byte", "short", "int", "long", "float", "double"]


class Library:
    def __init__(self, path, records=4096, room=1 << 18):
        self.lib = ctypes.CDLL(path)
        self.answer = (ctypes.c_uint64 * 8)()
        self.table = (ctypes.c_uint32 * (WORDS * records))()
        self.out = (ctypes.c_uint8 * room)()
        self.room = room
        size, data, words = ctypes.c_size_t, ctypes.c_char_p, ctypes.c_void_p
        self.lib.tikfazrul_read.argtypes = [data, size, words, size, words]
        self.lib.tikfazrul_check_mutf8.argtypes = [data, size, words]
        self.lib.tikfazrul_write.argtypes = [data, size, words, size, words, size, words]
        self.lib.tikfazrul_token.argtypes = [data, size, size, ctypes.c_uint32, words]
        self.lib.tikfazrul_content.argtypes = [data, size, size, size, ctypes.c_uint8, words, size, words]
        self.lib.tikfazrul_parse.argtypes = [data, size, words, size, words]

    def refused(self):
        return f"refused {self.answer[0]} {self.answer[1]}"

    def string(self, s):
        """Whether a string's content is modified UTF-8, or where it is not."""
        self.lib.tikfazrul_check_mutf8(s, len(s), self.answer)
        return f"bad {self.answer[1]}" if self.answer[0] else "ok"

    def rewrite(self, doc):
        """Reads a document and writes it: the bytes consumed and what is written."""
        a = self.answer
        self.lib.tikfazrul_read(doc, len(doc), self.table, len(self.table), a)
        if a[0]:
            return self.refused()
        consumed, records = a[2], a[3]
        self.lib.tikfazrul_write(doc, len(doc), self.table, WORDS * records, self.out, self.room, a)
        if a[0]:
            return "write " + self.refused()
        return f"ok {consumed} {bytes(self.out[:a[2]]).hex().upper()}"

    def token(self, text, start, stops):
        """The token's kind, index, width, next place, and the bits of a number or the content of a string."""
        a = self.answer
        self.lib.tikfazrul_token(text, len(text), start, stops, a)
        if a[0]:
            return self.refused()
        kind = a[2]
        if kind == 0:
            return f"end {a[5]}"
        head = f"{KINDS[kind]} {a[3]} {a[4]} {a[5]}"
        if kind < 8:
            return head
        if kind > 9:
            return f"{head} {a[6]:016X}"
        self.lib.tikfazrul_content(text, len(text), a[6], a[7], kind - 8, self.out, self.room, a)
        return f"{head} {bytes(self.out[:a[2]]).hex().upper()}" if not a[0] else f"{head} content {self.refused()}"

    def parse(self, text):
        """The bytes consumed and the document."""
        a = self.answer
        self.lib.tikfazrul_parse(text, len(text), self.out, self.room, a)
        return self.refused() if a[0] else f"ok {a[2]} {bytes(self.out[:a[3]]).hex().upper()}"
