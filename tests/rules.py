"""The rules of docs/RULES.md a second time, in Python: hash, keys, frame, arrivals, messages and steps. It is written from the rules
alone and shares nothing with the proved code. What is refused raises `Refused`."""
import hmac as hmaclib
from functools import lru_cache

import aes

LIMIT, CEILING = 1048576, 65816
OUTER = bytes.fromhex("0600ff07")
TYPES = (0, 1, 16, 17, 18, 19, 20, 21)
COMMON = {0x01, 0x02, 0x12}
NAMED_OPEN = COMMON | {3, 4, 5, 6, 7, 9, 0x10, 0x11}
NAMED_M2 = COMMON | {8, 9, 0x0A, 0x0B, 0x0C, 0x0D}
NAMED_M4 = COMMON | {8, 0x0F}
STATUS_AT_M2 = 1        # tests/compare sets it, and NAMED_M2, to what the Rust has


class Refused(Exception):
    def __init__(self, number, value=None, wrote=None):
        self.number, self.value, self.wrote = number, value, wrote

    def __str__(self):
        return "refused %d" % self.number if self.value is None else "refused %d %d" % (self.number, self.value)


def need(holds, number, value=None):
    if not holds:
        raise Refused(number, value)


# Hash, cipher, keys (rules 3 to 5)

def sha1_blocks(n):
    return (n + 9 + 63) // 64


def hmac_blocks(key, n):
    return (n + 73 + 63) // 64 + 2 + (sha1_blocks(key) if key > 64 else 0)


def hmac(key, text):
    return hmaclib.digest(key, text, "sha1")


@lru_cache(maxsize=4096)
def session_keys(sik):
    return hmac(sik, b"\x01" * 20), hmac(sik, b"\x02" * 20)[:16]


# The frame (rule 6)

def read(conf, integ, sik, packet):
    """Type, id, sequence number, payload, the packet afterwards; the blocks are told in `counted` at any rate."""
    counted = [0]
    try:
        return opened(conf, integ, session_keys(sik), packet, counted), counted[0]
    except Refused as r:
        return r, counted[0]


def opened(conf, integ, keys, packet, counted):
    k1, aes_key = keys
    need(len(packet) >= 10, 1)
    need(packet[0] == 6, 2)
    kind = packet[1] & 0x3F
    need(kind in TYPES, 3, kind)
    need((packet[1] & 0x80 != 0) == conf, 4)
    need((packet[1] & 0x40 != 0) == integ, 5)
    need(len(packet) <= CEILING, 9)
    left = packet
    if integ:
        need(len(packet) >= 12, 6)
        covered, code = packet[:-12], packet[-12:]
        counted[0] = hmac_blocks(20, len(covered))
        need(hmac(k1, covered)[:12] == code, 7)
        need(len(packet) >= 14, 6)
        q, following = covered[-2], covered[-1]
        need(following == 7, 8, following)
        left = covered[:-2]
        left = left[:max(0, len(left) - q)]
    need(len(left) >= 12, 1)
    body = left[12:]
    need(int.from_bytes(left[10:12], "little") == len(body), 9)
    payload, after = body, packet
    if conf:
        need(len(body) >= 16, 1)
        iv, rest = body[:16], body[16:]
        need(len(rest) % 16 == 0, 12)
        need(rest, 10)
        plain = aes.cbc_decrypt(aes_key, iv, rest)
        p = plain[-1]
        need(p <= len(plain) - 1, 10)
        payload, pad = plain[:len(plain) - 1 - p], plain[len(plain) - 1 - p:-1]
        need(pad == bytes(range(1, p + 1)), 11)
        after = packet[:28] + plain + packet[28 + len(plain):]
    number = lambda at: int.from_bytes(packet[at:at + 4], "little")
    return kind, number(2), number(6), payload, after


def write(conf, integ, sik, iv, kind, ident, seq, room, payload, outer):
    k1, aes_key = session_keys(sik)
    need(len(payload) <= 65535, 13)
    need(not conf or len(payload) <= 65503, 14)
    body = payload
    if conf:
        p = -(len(payload) + 1) % 16
        body = iv + aes.cbc_encrypt(aes_key, iv, payload + bytes(range(1, p + 1)) + bytes([p]))
    packet = bytes([6, conf << 7 | integ << 6 | kind]) + ident.to_bytes(4, "little") + seq.to_bytes(4, "little")
    packet += len(body).to_bytes(2, "little") + body
    if integ:
        q = -(len(packet) + 2) % 4
        packet += b"\xff" * q + bytes([q, 7])
        packet += hmac(k1, packet)[:12]
    packet = (OUTER if outer else b"") + packet
    need(len(packet) <= room, 15)
    return packet


# Arrivals: which sequence numbers of a session were taken (rule 10)

class Arrivals:
    """The highest number taken, and which of the 32 numbers that end there were: bit k of `seen` is the mark of `highest - k`."""

    def __init__(self, highest=0, seen=0):
        self.highest, self.seen = highest, seen

    def take(self, n):
        below = self.highest - n
        need(n > 0 and below <= 31, 39)
        need(below < 0 or not self.seen >> below & 1, 38)
        if below < 0:
            self.seen = self.seen << min(-below, 32) & 0xFFFFFFFF
            self.highest, below = n, 0
        self.seen |= 1 << below

    def count(self):
        return bin(self.seen).count("1")


def read_once(record, *given):
    """A packet read, and the record moved by its number; the number is looked at only where the packet is a frame."""
    result, blocks = read(*given)
    try:
        if not isinstance(result, Refused):
            record.take(result[2])
    except Refused as r:
        result = r
    return result, blocks


# Messages and steps (rule 7)

def block(data):
    need(data[3] == 8, 22)
    need(data[0] <= 2, 24, data[0])
    need(data[4] <= (4 if data[0] == 1 else 3), 23, data[4])
    return data[0], data[4]


def status(byte, named):
    if byte:
        raise Refused(17 if byte in named else 18, byte)


def username(name):
    need(len(name) <= 16, 40)
    need(all(0 < b < 128 for b in name), 34)
    return name


def role(level, lookup):
    """What message 1 asks for: a level, and bit 4 for a lookup by name only."""
    return (4 if level is None else level) | (0x10 if lookup else 0)


def request(tag, level, console, codes):
    blocks = b"".join(bytes([kind, 0, 0, 8, code, 0, 0, 0]) for kind, code in enumerate(codes))
    return bytes([tag, level or 0, 0, 0]) + console + blocks


def message_1(tag, system, rm, role, name):
    return bytes([tag, 0, 0, 0]) + system + rm + bytes([role, 0, 0, len(name)]) + name


def message_3(tag, system, code, declined=0):
    return bytes([tag, declined, 0, 0]) + system + code


def response(data):
    """The codes of the three algorithms in an open response that is taken."""
    need(len(data) >= 2, 1)
    status(data[1], NAMED_OPEN)
    need(len(data) == 36, 1)
    need(1 <= data[2] <= 5, 19, data[2])
    need(any(data[4:8]), 20)
    need(any(data[8:12]), 21)
    codes = []
    for kind, at in enumerate((12, 20, 28)):
        got, code = block(data[at:at + 8])
        need(got == kind, 25)
        codes.append(code)
    return codes


def message_2(data):
    """RC, the GUID and the code."""
    need(len(data) >= 4, 1)
    status(data[STATUS_AT_M2], NAMED_M2)
    need(len(data) >= 40, 1)
    need(any(data[4:8]), 20)
    return data[8:24], data[24:40], data[40:]


def message_4(data):
    """The check value."""
    need(len(data) >= 4, 1)
    status(data[1], NAMED_M4)
    need(len(data) >= 8, 1)
    need(any(data[4:8]), 21)
    return data[8:]


class Record:
    """The step record. A closed one holds only zeros, so none of the fields below is looked at before its step is."""

    def __init__(self):
        self.step = "closed"

    def begin(self, own, level, name, room, lookup=False):
        self.step = "closed"
        need(own, 20)
        need(level is None or 1 <= level <= 5, 19, level)
        name = username(name)
        need(room >= 32, 15)
        self.step, self.own, self.name, self.role = "begun", own.to_bytes(4, "little"), name, role(level, lookup)
        return request(0, level, self.own, (1, 1, 1))

    def call(self, step, work, early):
        """A step: what is refused before `work` leaves the record, any refusal of `work` closes it."""
        need(self.step == step, 33)
        early()
        try:
            return work()
        except Refused:
            self.step = "closed"
            raise

    def open(self, room, data, rm):
        def work():
            codes = response(data)
            need(data[0] == 0, 27)
            need(data[4:8] == self.own, 28)
            need(codes[0] == 1 and codes[1] <= 1 and codes[2] <= 1, 29)
            self.integ, self.conf = codes[1], codes[2]
            self.system, self.rm, self.step = data[8:12], rm, "opened"
            return message_1(0x0D, self.system, rm, self.role, self.name)
        return self.call("begun", work, lambda: need(room >= 28 + len(self.name), 15))

    def m2(self, room, kg, password, data):
        def early():
            need(len(kg) in (0, 20), 35)
            need(len(password) <= 255, 36)
            need(room >= 28, 15)

        def work():
            rc, guid, code = message_2(data)
            need(data[0] == 0x0D, 27)
            need(data[4:8] == self.own, 28)
            need(len(code) == 20, 30)
            n = bytes([self.role, len(self.name)]) + self.name
            if code != hmac(password, self.own + self.system + self.rm + rc + guid + n):
                raise Refused(31, wrote=message_3(0x0A, self.system, b"", 0x0F))
            self.sik = hmac(kg or password, self.rm + rc + n)
            self.guid, self.step = guid, "keyed"
            return message_3(0x0A, self.system, hmac(password, rc + self.own + n))
        return self.call("opened", work, early)

    def m4(self, data):
        def work():
            value = message_4(data)
            need(data[0] == 0x0A, 27)
            need(data[4:8] == self.own, 28)
            need(value == hmac(self.sik, self.rm + self.system + self.guid)[:12], 32)
            self.step = "active"
            return b""
        return self.call("keyed", work, lambda: None)
