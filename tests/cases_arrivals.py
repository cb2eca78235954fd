"""Numbers that arrive: one on any record, many on a new one, and packets and datagrams that are taken once. The numbers stand around
every edge of the 32 that a record keeps, and the records are also such as no arrivals leave."""
from cases_frame import OUTER, SESSIONS, TYPES, Session
from cases_lines import spoilt
from drawn import Word, line
from rules import write

TOP = 2 ** 32 - 1
HIGHEST = (0, 1, 2, 30, 31, 32, 33, 63, 64, 65, 1000, 2 ** 31 - 1, 2 ** 31, TOP - 33, TOP - 32, TOP - 31, TOP - 30, TOP - 1, TOP)
NEAR = (0, 1, 2, 15, 30, 31, 32, 33, 34, 63, 64, 2 ** 31)
SEEN = (0, 1, 2, 3, 2 ** 30, 2 ** 31, 2 ** 31 + 1, 2 ** 31 - 1, TOP - 1, TOP, 0x55555555, 0xAAAAAAAA)
NUMBERS = (1, 2, 31, 32, 33, 255, 256, 65536, 2 ** 24, 0x01020304, 2 ** 31, TOP - 32, TOP - 31, TOP - 1, TOP)


def arrive(highest, seen, n):
    return line("arrive", Word(highest), Word(seen), Word(n))


def single(d):
    """Every edge on records of every fashion, every mark alone and every mark missing, and records that are drawn."""
    for highest in HIGHEST:
        near = {0, 1, TOP} | {highest + way * k for k in NEAR for way in (-1, 1)}
        for n in sorted(n for n in near if 0 <= n <= TOP):
            for seen in SEEN + (d.below(2 ** 32),):
                yield arrive(highest, seen, n)
    for highest in (0, 1, 16, 31, 32, 100, TOP - 31, TOP):
        for k in range(32):
            for below in (k - 1, k, k + 1):
                for seen in (1 << k, TOP - (1 << k)):
                    if 0 <= highest - below <= TOP:
                        yield arrive(highest, seen, highest - below)
    for up in range(1, 70):
        for highest, seen in ((0, TOP), (5, d.below(2 ** 32)), (TOP - up, 0x80000001)):
            yield arrive(highest, seen, highest + up)
    for _ in range(1200):
        highest, seen = d.below(1 + d.one((70, 2 ** 32 - 1))), d.below(2 ** 32)
        yield arrive(highest, seen, d.below(2 ** 32))
        yield arrive(highest, seen, min(TOP, max(0, highest + d.below(72) - 36)))


def arrivals(numbers):
    return line("arrivals", *[Word(n) for n in numbers])


def shuffled(d, many):
    """The same numbers in another order."""
    many = list(many)
    for at in range(len(many) - 1, 0, -1):
        other = d.below(at + 1)
        many[at], many[other] = many[other], many[at]
    return many


def walk(d, start, length, most):
    """Numbers that rise for the most part; some come late, some twice, some far ahead."""
    at, out = start, []
    for _ in range(length):
        turn = d.below(8)
        at = min(TOP, at + (1 + d.below(most) if turn < 5 else 0))
        out.append(max(0, at - d.below(36)) if turn in (5, 6) else d.one(out) if turn == 7 and out else at)
    return out


def lists(d):
    """In order, backwards, twice, over the edges of the 32 marks, up to the last number and past it, and at random."""
    for n in range(70):
        first = list(range(n))
        for many in (first, first[::-1], first + first, [k for k in first for _ in (0, 1)], shuffled(d, first)):
            yield arrivals(many or [n])
        yield arrivals([1, 1 + n, 1, 1 + n, 2, n])
        yield arrivals([TOP - n, TOP, TOP - n, 0, 1, TOP, TOP - 31, TOP - 32])
        yield arrivals([100, 100 - n, 100 - n, 100 + n, 100, 100 - n])
    for a in range(5):
        for b in range(5):
            for c in range(5):
                yield arrivals([a, b, c])
                yield arrivals([TOP - a, TOP - b, TOP - c, a])
    for start in (0, 1, 2 ** 16 - 20, 2 ** 31 - 20, TOP - 200, TOP - 40, TOP - 3):
        for most in (1, 2, 8, 31, 33, 40, 2 ** 20):
            for _ in range(20):
                yield arrivals(walk(d, start, 1 + d.below(60), most))
    for _ in range(300):
        start = d.one((1, 1000, TOP - 40))
        yield arrivals(shuffled(d, range(start, start + 1 + d.below(40))))
        yield arrivals([d.below(40) for _ in range(1 + d.below(80))])
        yield arrivals([d.below(2 ** 32) for _ in range(1 + d.below(12))])
    for many in ([0] * 58252, range(1, 58253), range(58252, 0, -1)):           # as many as a line may have, but one
        yield arrivals(many)


class Numbered(Session):
    """A session whose packets have the number that is said."""
    number = 1

    def head(self, kind=None):
        return super().head(kind)[:6] + self.number.to_bytes(4, "little")

    def written(self, payload, outer=False):
        """A packet as our writer makes it."""
        d = self.d
        return write(self.conf, self.integ, self.sik, d.bytes(16), d.one(TYPES), d.below(2 ** 32), self.number, 70000, payload, outer)

    def once(self, record, packet):
        return line("once", self.conf, self.integ, self.sik, *map(Word, record), packet)

    def once_datagram(self, record, datagram):
        return line("once-datagram", self.conf, self.integ, self.sik, *map(Word, record), datagram)


def record_that(d, outcome, n):
    """A record that takes the number, or refuses it by 38 or 39; zero is refused by 39 whatever the record. Where there is no such
    record, since the number stands too near the last one, another that takes it."""
    drawn = d.below(2 ** 32)
    k = d.one((0, 1, 2, 30, 31, d.below(32)))
    if outcome == 39 and n + 32 <= TOP:
        return d.one((n + 32, min(TOP, n + 33 + d.below(40)), TOP)), drawn
    if outcome == 38:
        k = min(k, TOP - n)
        return n + k, drawn | 1 << k
    up = d.one((1, 31, 32, 33, 1 + d.below(40)))
    return d.one(((0, 0), (max(0, n - up), drawn), (min(TOP, n + k), drawn & ~(1 << k))))


OUTCOMES = ("taken", 38, 39)


def near(d, n):
    """A record that this number stands somewhere near."""
    return min(TOP, max(0, n + d.below(72) - 36)), d.below(2 ** 32)


def right(d):
    """Packets that are frames, written by us and by others, with numbers of every size: taken, there already, too late, zero."""
    for conf, integ in SESSIONS:
        for n in NUMBERS + (0,):
            for outcome in OUTCOMES:
                for _ in range(4):
                    s = Numbered(d, conf, integ)
                    s.number = n
                    yield s.once(record_that(d, outcome, n), s.written(d.bytes(d.below(40))))
                    size = d.below(40)
                    packet = s.frame(d.bytes(size), -(size + 1) % 16 + 16 * d.below(4), d.below(256))
                    yield s.once(record_that(d, outcome, n), packet)
                    yield s.once_datagram(record_that(d, outcome, n), s.written(d.bytes(d.below(40)), True))
                    yield s.once_datagram(record_that(d, outcome, n), OUTER + packet)
        for highest in HIGHEST:
            for seen in (0, 1, TOP, d.below(2 ** 32)):
                for n in (0, 1, highest, max(0, highest - 31), max(0, highest - 32), min(TOP, highest + 32)):
                    s = Numbered(d, conf, integ)
                    s.number = n
                    yield s.once((highest, seen), s.written(d.bytes(3)))


def spoils(s):
    """A packet with each fault that the reader can find, by the refusal; those of integrity and of AES where the session has them."""
    d, good = s.d, s.front(s.body(b"abc"))
    yield s.closed(good)[:9]
    yield s.closed(b"\x07" + good[1:])
    yield s.closed(good[:1] + bytes([good[1] | 8]) + good[2:])
    yield s.closed(good[:1] + bytes([good[1] ^ 0x80]) + good[2:])
    yield s.closed(good[:1] + bytes([good[1] ^ 0x40]) + good[2:])
    yield s.closed(good[:10] + bytes([good[10] ^ 1]) + good[11:])
    yield s.closed(good[:11])
    yield s.closed(good[:10] + b"\xff\xff" + good[12:])
    if s.integ:
        yield good[:11]
        yield s.signed(good[:10])[-13:]
        yield d.flipped(s.closed(good))
        yield d.flipped(s.closed(good), -1)
        yield s.closed(good, None, 6)
        yield s.signed(good + b"\xc8\x07")
        yield s.signed(b"\x06" + good[1:2] + b"\x07")
    if s.conf:
        for body in (d.bytes(15), d.bytes(16), d.bytes(33), s.sealed(bytes(15) + b"\x10"), s.sealed(bytes(12) + b"\1\3\2\3"),
                     s.sealed(d.bytes(31) + b"\xff"), s.sealed(bytes(12) + b"\1\2\2\3")):
            yield s.closed(s.front(body))


def refused(d):
    """Packets that are no frames, on records that would take their number and on records that would not."""
    for turn in range(8):
        for conf, integ in SESSIONS:
            for outcome in OUTCOMES:
                for n in (0, d.one(NUMBERS), d.below(2 ** 32)):
                    s = Numbered(d, conf, integ)
                    s.number = n
                    for packet in spoils(s):
                        record = record_that(d, outcome, n)
                        yield s.once(record, packet) if turn % 2 else s.once_datagram(record, OUTER + packet)


def outer_bytes(d):
    """Datagrams that are too short or begin otherwise, before packets that would be taken and such that would not."""
    for conf, integ in SESSIONS:
        for outcome in OUTCOMES:
            s = Numbered(d, conf, integ)
            s.number = d.one(NUMBERS + (0,))
            whole = s.written(d.bytes(7), True)
            for n in range(16):
                yield s.once_datagram(record_that(d, outcome, s.number), whole[:n])
            for at in range(4):
                for byte in {0, 6, 7, 0xFF, whole[at] ^ 1, d.below(256)}:
                    yield s.once_datagram(record_that(d, outcome, s.number), whole[:at] + bytes([byte]) + whole[at + 1:])
            yield s.once_datagram(record_that(d, outcome, s.number), whole[4:])
            yield s.once(record_that(d, outcome, s.number), whole)


def at_random(d):
    """Packets with any pads and up to two changes, on records that stand near their numbers."""
    for _ in range(3000):
        s = Numbered(d, *d.one(SESSIONS))
        s.number = d.one((d.below(64), TOP - d.below(64), d.below(2 ** 32)))
        size = d.below(50)
        packet = s.closed(s.front(s.body(d.bytes(size), -(size + 1) % 16 + 16 * d.below(3))), d.below(10), 7 if d.below(9) else 6)
        for _ in range(max(0, d.below(6) - 3)):
            packet = d.flipped(packet)
        record = near(d, s.number)
        yield s.once(record, packet) if d.below(2) else s.once_datagram(record, OUTER + packet)


def long_ones(d):
    """Pads of 255, the largest frames, and packets over the ceiling, on records of all three fashions."""
    for outcome in OUTCOMES:
        for conf, integ in SESSIONS:
            s = Numbered(d, conf, integ)
            s.number = 70 + d.below(2 ** 31)
            record = record_that(d, outcome, s.number)
            yield s.once(record, s.frame(d.bytes(32), 255, 255))
            yield s.once(record, s.closed(s.front(s.body(d.bytes(65503 if conf else 65535))), 255))
            yield s.once(record, s.closed(s.head() + bytes(2) + d.bytes(65805)))
            yield s.once(record, s.head() + d.bytes(65807))
            if conf:
                pad = bytes(range(1, 256))
                yield s.once(record, s.closed(s.front(s.sealed(pad[:-1] + b"\xfe\xff"))))


def arrival_lines(d):
    """Each word with one thing wrong, a good line after it; records and numbers that have not eight digits, sessions that are none."""
    sik, good = bytes(range(20)), arrive(0x0ABCDEF1, 0xABCDEF01, 0x0ABCDEF2)
    record = (Word(0x0ABCDEF1), Word(0xABCDEF01))
    for sample in (good, arrivals([0x0ABCDEF1, 0xABCDEF02]), arrivals([0x0000000A]), line("once", 0, 0, sik, *record, b"\xab"),
                   line("once-datagram", 0, 0, sik, *record, b"\xab")):
        yield sample
        for text in spoilt(sample):
            yield text.encode("utf8")
            yield good
    for word in ("0", "1", "0000001", "000000001", "0" * 16, "-", "--", "0000000g", "0000000A", "0x000001", "-0000001", "4294967295", ""):
        for place in range(3):
            fields = [word if k == place else Word(1) for k in range(3)]
            yield line("arrive", *fields)
            yield line("arrivals", *fields)
            if place < 2:
                yield line("once", 0, 0, sik, *fields[:2], b"\xab")
                yield line("once-datagram", 1, 1, sik, *fields[:2], b"\xab")
    for verb in ("once", "once-datagram"):
        for flag in (2, 9, 256, 2 ** 32, "none", ""):
            yield line(verb, flag, 0, sik, *record, b"\xab")
            yield line(verb, 0, flag, sik, *record, b"\xab")
        for n in list(range(20)) + [21, 22, 40]:
            yield line(verb, 0, 0, bytes(n), *record, b"\xab")
        for n in (0, 1, 3, 4, 9, 10):
            yield line(verb, 0, 0, sik, *record, bytes(n))
    for text in ("arrivals", "arrivals ", "arrive", "once", "once-datagram", "arrivals -", "arrivals  00000001", "arrived 00000001",
                 "arrivals 00000001; 00000002", "arrivals 00000001,00000002", "once_datagram", "ARRIVALS 00000001"):
        yield text
        yield good
    for many in (58253, 58254):                                                # as many as a line can hold, and one more
        yield arrivals([1] * many)


FAMILIES = [("single", single), ("lists", lists), ("right", right), ("refused", refused), ("outer-bytes", outer_bytes),
            ("at-random", at_random), ("long-ones", long_ones), ("arrival-lines", arrival_lines)]
