"""Packets to read and to write: legal ones with every pad, damaged ones, every boundary of the reader's order."""
import aes
from drawn import Word, line
from rules import hmac, session_keys

SESSIONS = ((0, 0), (0, 1), (1, 0), (1, 1))
TYPES = (0, 1, 16, 17, 18, 19, 20, 21)
OUTER = bytes.fromhex("0600ff07")


class Session:
    def __init__(self, d, conf, integ, sik=None):
        self.d, self.conf, self.integ, self.sik = d, conf, integ, sik or d.bytes(20)
        self.k1, self.key = session_keys(self.sik)

    def head(self, kind=None):
        kind = self.d.one(TYPES) if kind is None else kind
        return bytes([6, self.conf << 7 | self.integ << 6 | kind]) + self.d.bytes(8)

    def body(self, payload, p=None):
        if not self.conf:
            return payload
        p = -(len(payload) + 1) % 16 if p is None else p
        return self.sealed(payload + bytes(range(1, p + 1)) + bytes([p]))

    def sealed(self, plain):
        """A body whose encrypted part holds `plain`, whatever that is."""
        iv = self.d.bytes(16)
        return iv + aes.cbc_encrypt(self.key, iv, plain)

    def signed(self, covered):
        return covered + hmac(self.k1, covered)[:12]

    def closed(self, front, q=None, following=7):
        """Header and body, with the trailer behind if the session has one."""
        if not self.integ:
            return front
        q = -(len(front) + 2) % 4 if q is None else q
        pad = b"\xff" * q if self.d.below(2) else self.d.bytes(q)
        return self.signed(front + pad + bytes([q, following]))

    def front(self, body, length=None, kind=None):
        length = len(body) if length is None else length
        return self.head(kind) + (length % 65536).to_bytes(2, "little") + body

    def frame(self, payload, p=None, q=None, kind=None):
        return self.closed(self.front(self.body(payload, p), kind=kind), q)

    def read(self, packet):
        return line("read", self.conf, self.integ, self.sik, packet)

    def datagram(self, datagram):
        return line("datagram", self.conf, self.integ, self.sik, datagram)


def sessions(d, only=SESSIONS):
    return [Session(d, conf, integ) for conf, integ in only]


def legal(d):
    """Payloads of every short length, every p, every q, pads of any value."""
    for n in range(281):
        for s in sessions(d):
            yield s.read(s.frame(d.bytes(n)))
            yield s.read(s.frame(d.bytes(n), -(n + 1) % 16 + 16 * d.below(15), d.below(256)))
    for s in sessions(d):
        for kind in TYPES:
            yield s.read(s.frame(b"\xaa\xbb", kind=kind))
    for p in range(256):
        for s in sessions(d, ((1, 0), (1, 1))):
            for more in (0, 16, 32):
                yield s.read(s.frame(d.bytes(-(p + 1) % 16 + more), p))
    for q in range(256):
        for s in sessions(d, ((0, 1), (1, 1))):
            for n in range(4):
                yield s.read(s.frame(d.bytes(n), None, q))


def pads(d):
    """Encrypted parts that end in any byte, pads with one wrong value at each place, pads of other fashions."""
    for s in sessions(d, ((1, 0), (1, 1))):
        for n in (16, 32, 48, 256, 272, 288):
            for last in range(256):
                yield s.read(s.closed(s.front(s.sealed(d.bytes(n - 1) + bytes([last])))))
        for p in (1, 2, 3, 14, 15, 16, 17, 31, 32, 100, 252, 253, 254, 255):
            pad = bytes(range(1, p + 1))
            for at in range(p):
                plain = d.bytes(-(p + 1) % 16) + d.flipped(pad, at) + bytes([p])
                yield s.read(s.closed(s.front(s.sealed(plain))))
        for p in range(256):
            for pad in (bytes(p), bytes([p] * p), bytes(range(p)), bytes(range(p, 0, -1))):
                yield s.read(s.closed(s.front(s.sealed(d.bytes(-(p + 1) % 16) + pad + bytes([p])))))
        for n in range(101):
            for _ in range(2):
                yield s.read(s.closed(s.front(d.bytes(n))))


def trailers(d):
    """Every q behind every short packet, every next header, a code over nothing or one byte, codes wrong in one bit."""
    for s in sessions(d, ((0, 1), (1, 1))):
        for q in range(256):
            yield s.read(s.signed(bytes([6, q, 7])))
        for size in range(2, 33):
            for q in range(256) if size < 26 and not s.conf else (0, 1, 2, 3, 7, 8, 9, 10, 11, 12, 13, 20, 31, 32, 33, 255):
                kept = max(0, size - q)
                front = (s.head() + (max(0, kept - 12)).to_bytes(2, "little") + d.bytes(20))[:size]
                yield s.read(s.signed(front + bytes([q, 7])))
        for following in range(256):
            yield s.read(s.closed(s.front(s.body(d.bytes(5))), None, following))
        packet = s.frame(d.bytes(9))
        for bit in range(96):
            code = (int.from_bytes(packet[-12:], "big") ^ 1 << bit).to_bytes(12, "big")
            yield s.read(packet[:-12] + code)
    for covered, begin in ((b"", 0), (b"\x06", 1)):
        found = 0
        while found < 3:                       # a session whose code over so little is itself a good header
            s = Session(d, 0, 1)
            packet = s.signed(covered)
            if packet[0] == 6 and packet[1] & 0xC0 == 0x40 and packet[1] & 0x3F in TYPES:
                found += 1
                yield s.read(packet)
                yield s.read(d.flipped(packet, len(packet) - 1))


def heads(d):
    """Every first and every second byte, every length up to the fixed part's, body lengths that are off."""
    for s in sessions(d):
        packet = s.frame(d.bytes(3))
        covered = packet[:-12] if s.integ else packet
        for b in range(256):
            yield s.read(bytes([b]))
            yield s.read(bytes([b]) + packet[1:])
            for front in (bytes([6, b]) + packet[2:], s.signed(bytes([6, b]) + covered[2:])):
                yield s.read(front)
        yield s.read(b"")
        for n in range(2, 60):
            yield s.read((packet + d.bytes(60))[:n])
            yield s.read(s.head() + bytes(n))
            yield s.read(d.bytes(n))
        for n in range(71):
            body = s.body(d.bytes(n))
            for length in (len(body) - 1, len(body) + 1, len(body) ^ 256, len(body) + 16, 0, 65535, len(body) * 256):
                yield s.read(s.closed(s.front(body, length)))
    for a in SESSIONS:
        for b in SESSIONS:
            for n in range(20):
                s, other = Session(d, *a), Session(d, *b)
                other.sik = s.sik
                yield other.read(s.frame(d.bytes(n)))


def damaged(d):
    """Good packets with one byte changed, cut or longer; under integrity also with the code made anew."""
    for s in sessions(d):
        for n in (0, 1, 7, 15, 16, 33):
            packet = s.frame(d.bytes(n))
            for at in range(len(packet)):
                for _ in range(7):
                    yield s.read(d.flipped(packet, at))
                yield s.read(packet[:at])
                yield s.read(packet + d.bytes(1 + at))
                if s.integ and at < len(packet) - 12:
                    for _ in range(7):
                        yield s.read(s.signed(d.flipped(packet[:-12], at)))
                    yield s.read(s.signed(packet[:at]))


def faults(d):
    """Two faults at once, so that the order of the checks shows."""
    early = [lambda f: f, lambda f: b"\x07" + f[1:], lambda f: f[:1] + bytes([f[1] | 2]) + f[2:],
             lambda f: f[:1] + bytes([f[1] ^ 0x80]) + f[2:], lambda f: f[:1] + bytes([f[1] ^ 0x40]) + f[2:],
             lambda f: f[:10] + bytes(b ^ 1 for b in f[10:11]) + f[11:], lambda f: f[:11], lambda f: f[:9], lambda f: f[:20]]
    for s in sessions(d):
        bodies = [s.body(b"abc"), d.bytes(15), d.bytes(16), d.bytes(33), s.sealed(bytes(15) + b"\x10"), s.sealed(bytes(12) + b"\1\3\2\3")]
        for body in bodies:
            for one in early:
                for other in early:
                    front = other(one(s.front(body)))
                    for following in (7, 6):
                        for q in (None, 200):
                            packet = s.closed(front, q, following) if q is None else s.signed(front + bytes([q, following]))
                            yield s.read(packet)
                            if following == 6 and q:
                                yield s.read(packet[:-1] + bytes([packet[-1] ^ 1]))


def mixed(d, n=22000):
    """Packets with any pads and up to three changes, at random."""
    for _ in range(n):
        s = Session(d, *d.one(SESSIONS))
        size = d.below(60)
        front = s.front(s.body(d.bytes(size), -(size + 1) % 16 + 16 * d.below(3)), kind=d.one(TYPES))
        for _ in range(d.below(3)):
            front = d.flipped(front, d.below(12) if d.below(2) else None)
        packet = s.closed(front, d.below(10), 7 if d.below(8) else d.below(256))
        if not d.below(6):
            packet = d.flipped(packet)
        if not d.below(6):
            packet = packet[:len(packet) - d.below(20)]
        yield s.read(packet) if d.below(3) else s.datagram(OUTER + packet)


def outer(d):
    """The four bytes on the wire: each of their values, fewer than four, packets of every kind behind them."""
    for s in sessions(d):
        packet = s.frame(d.bytes(7))
        for at in range(4):
            for b in range(256):
                yield s.datagram(OUTER[:at] + bytes([b]) + OUTER[at + 1:] + packet)
        for n in range(30):
            yield s.datagram((OUTER + packet)[:n])
            yield s.datagram(d.bytes(n))
        for n in range(120):
            yield s.datagram(OUTER + s.frame(d.bytes(n), -(n + 1) % 16 + 16 * d.below(8), d.below(256)))
        for at in range(len(packet)):
            yield s.datagram(OUTER + d.flipped(packet, at))


def smallest(d):
    """The least packet that shows each difference from the Rust, with zeros where anything would do."""
    coded, sealed, both = (Session(d, conf, integ, bytes(20)) for conf, integ in ((0, 1), (1, 0), (1, 1)))
    yield coded.read(coded.signed(b"\x06\x40\x07"))       # q is the type byte, 40h: nothing is left
    yield both.read(both.signed(b"\x06\xc0\x07"))
    for n in (16, 17, 31, 32, 33):
        yield sealed.read(b"\x06\x80" + bytes(8) + bytes([n, 0]) + bytes(n))
    for last in (0, 1, 15, 16, 255):
        plain = bytes(15) + bytes([last])
        yield sealed.read(b"\x06\x80" + bytes(8) + b"\x20\0" + bytes(16) + aes.cbc_encrypt(sealed.key, bytes(16), plain))
    pad = bytes(range(1, 256))
    for plain in (pad + b"\xff", pad[:-1] + b"\xfe\xff", b"\x02" + pad[1:] + b"\xff"):
        yield sealed.read(b"\x06\x80" + bytes(8) + b"\x10\x01" + bytes(16) + aes.cbc_encrypt(sealed.key, bytes(16), plain))
    yield coded.read(b"\x06\x40" + bytes(65815))
    yield both.read(b"\x06\xc0" + bytes(65815))
    for way in ("cbc-encrypt", "cbc-decrypt"):
        yield line(way, bytes(16), bytes(16), b"\0")


def length(s, n):
    """How long a written packet is, counted by hand."""
    n = n + 17 + -(n + 17) % 16 if s.conf else n
    return 12 + n + (-(14 + n) % 4 + 14 if s.integ else 0)


def written(s, verb, kind, room, payload, d):
    ids = (Word(d.below(2 ** 32)), Word(d.below(2 ** 32)))
    return line(verb, s.conf, s.integ, s.sik, d.bytes(16), kind, *ids, room, payload)


def writes(d):
    """Payloads of every short length into rooms that fit, lack a byte, or have any other length."""
    for verb, more in (("write", 0), ("wrap", 4)):
        for n in range(281):
            for s in sessions(d):
                least = length(s, n) + more
                for room in (least, least - 1, least + 1 + d.below(40)):
                    yield written(s, verb, d.one(TYPES), room, d.bytes(n), d)
        for s in sessions(d):
            for kind in TYPES:
                yield written(s, verb, kind, 200, b"\x01\x02", d)
            for room in range(100):
                yield written(s, verb, d.one(TYPES), room, d.bytes(d.below(40)), d)
        for _ in range(3000):
            s = Session(d, *d.one(SESSIONS))
            yield written(s, verb, d.one(TYPES), d.below(120), d.bytes(d.below(70)), d)


def large(d):
    """The largest payloads and packets, and one byte more: 65,503; 65,535; 65,816."""
    for verb, more in (("write", 0), ("wrap", 4)):
        for s in sessions(d):
            for n in (65503, 65504, 65535, 65536):
                yield written(s, verb, 0, 70000, d.bytes(n), d)
            n = 65503 if s.conf else 65535
            for room in (length(s, n) + more, length(s, n) + more - 1):
                yield written(s, verb, 1, room, d.bytes(n), d)
        yield written(Session(d, 0, 0), verb, 0, 100, d.bytes(65536), d)
    for s in sessions(d):
        most = 65503 if s.conf else 65535
        full = s.front(s.body(d.bytes(most)))
        for q in (0, 255) if s.integ else (0,):
            packet = s.closed(full, q)
            yield s.read(packet)
            yield s.datagram(OUTER + packet)
        yield s.read(s.head() + d.bytes(65816 - 10))
        yield s.read(s.head() + d.bytes(65817 - 10))
        yield s.read(s.closed(s.head() + bytes(2) + d.bytes(65536)))
    for conf in (0, 1):
        s = Session(d, conf, 1)
        for size in (65802, 65803, 65804):     # bytes before byte q; the packet is 14 longer
            front = s.head() + b"\xff\xff" + d.bytes(size - 12)
            for q, following in ((255, 7), (0, 7), (255, 6)):
                yield s.read(s.signed(front + bytes([q, following])))
        yield s.read(bytes([6, 0]) + d.bytes(70000))
        yield s.read(bytes([6, 63]) + d.bytes(70000))


FAMILIES = [("legal", legal), ("pads", pads), ("trailers", trailers), ("heads", heads), ("damaged", damaged),
            ("faults", faults), ("mixed", mixed), ("outer", outer), ("smallest", smallest), ("writes", writes), ("large", large)]
