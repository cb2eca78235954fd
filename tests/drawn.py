"""Bytes and numbers that are always the same, and how a case is put on a line."""
import hashlib


class Draw:
    def __init__(self, label):
        self.label, self.turn, self.pool = label.encode(), 0, b""

    def bytes(self, n):
        while len(self.pool) < n:
            self.turn += 1
            self.pool += hashlib.shake_256(self.label + b" %d" % self.turn).digest(4096)
        out, self.pool = self.pool[:n], self.pool[n:]
        return out

    def below(self, n):
        return int.from_bytes(self.bytes(6), "big") % n

    def one(self, many):
        return many[self.below(len(many))]

    def flipped(self, text, at=None):
        """The same bytes with one of them changed."""
        at = self.below(len(text)) if at is None else at
        return text[:at] + bytes([text[at] ^ (1 + self.below(255))]) + text[at + 1:]


class Word(int):
    """A number that is shown as eight hex digits."""


def field(value):
    if isinstance(value, bytes):
        return value.hex() or "-"
    if isinstance(value, Word):
        return "%08x" % value
    return "none" if value is None else str(int(value) if isinstance(value, bool) else value)


def line(*fields):
    return " ".join(field(f) for f in fields)
