"""Each message alone: the writers with every tag, level, role, algorithm, name and room, the readers with every status, length and
byte, and lines of these words that are no cases."""
from cases_lines import spoilt
from drawn import Word, line

RM = bytes(range(16))
IDS = (0, 1, 0x0A0B0C0D, 0x80000000, 0xFF000000, 0xFFFFFFFF)
TAGS = (0, 1, 0x0A, 0x0D, 127, 128, 254, 255)


def request(tag=0, level=4, own=0x0AA2A3A4, codes=(1, 1, 1), room=32):
    return line("open-request", tag, level, Word(own), *codes, room)


def rakp1(tag=0x0D, system=0x2F590161, rm=RM, role=4, name=b"jona", room=44):
    return line("rakp1", tag, Word(system), rm, role, name, room)


def rakp3(tag=0x0A, system=0x2F590161, code=RM, room=24):
    return line("rakp3", tag, Word(system), code, room)


def decline(tag=0x0A, system=0x2F590161, room=8):
    return line("decline", tag, Word(system), room)


def ident(d):
    return d.one(IDS) if d.below(4) == 0 else d.below(2 ** 32)


def requests(d):
    """Every known algorithm with every other, every tag and level, ids, every room up to past the message."""
    for a in range(4):
        for i in range(5):
            for c in range(4):
                yield request(d.one(TAGS), d.one((None, 1, 2, 3, 4, 5)), 1 + d.below(2 ** 32 - 1), (a, i, c), 32 + d.below(3))
    for byte in range(256):
        yield request(tag=byte)
        yield request(level=byte)
        yield request(byte, 255 - byte, ident(d), room=31 + d.below(3))
    for own in IDS:
        for level in (None, 0, 1, 4, 5, 6, 255):
            for room in (0, 31, 32, 33, 70000):
                yield request(d.one(TAGS), level, own, room=room)
    for room in range(70):
        yield request(room=room)
    for _ in range(600):
        yield request(d.below(256), d.one((None, d.below(6), d.below(256))), ident(d), (d.below(4), d.below(5), d.below(4)),
                      28 + d.below(8))


def first_messages(d):
    """Message 1: every role and tag, names of up to 40 bytes, every byte in a name, rooms around every length."""
    for byte in range(256):
        yield rakp1(role=byte)
        yield rakp1(tag=byte)
        yield rakp1(byte, ident(d), d.bytes(16), 255 - byte, b"n" * d.below(20), 28 + d.below(20))
    for own in IDS:
        for role in (0, 1, 4, 5, 6, 0x14, 255):
            for name in (b"", b"jona", b"\0", b"a\x80"):
                yield rakp1(d.one(TAGS), own, d.bytes(16), role, name, d.one((27, 28, 31, 32, 44)))
    for n in range(41):
        whole = 28 + min(n, 16)
        for room in (0, 27, 28, whole - 1, whole, whole + 1, 44, 28 + n, 70000):
            yield rakp1(name=bytes(97 + k % 26 for k in range(n)), room=room)
    for n in range(21):
        for place in range(n):
            for byte in (0, 1, 0x20, 0x7F, 0x80, 0xC3, 0xFF):
                yield rakp1(name=b"n" * place + bytes([byte]) + b"n" * (n - 1 - place), room=d.one((0, 28 + min(n, 16), 44)))
    for byte in range(256):
        for place in (0, 15):
            name = b"abcdefghijklmnop"
            yield rakp1(name=name[:place] + bytes([byte]) + name[place + 1:])
    for name in ("é", "abcdefghijklmnoé", "abcdefghijklmnopé", "日本", "\u0100", "abcdefghijklmno日"):
        yield rakp1(name=name.encode())
    for room in range(60):
        for n in (0, 1, 15, 16, 17):
            yield rakp1(d.below(256), ident(d), d.bytes(16), d.one((4, 0x14, d.below(256))), b"n" * n, room)
    for n in range(201):
        yield rakp1(name=bytes(33 + b % 94 for b in d.bytes(n)))
    for _ in range(600):
        name = bytes(b % 128 for b in d.bytes(d.below(24)))
        yield rakp1(d.below(256), ident(d), d.bytes(16), d.below(32), name, 24 + d.below(24))


def third_messages(d):
    """Message 3 with codes of every short length and some long ones, and the one that declines; rooms around every length."""
    for byte in range(256):
        yield rakp3(tag=byte)
        yield decline(tag=byte)
    for system in IDS:
        for room in (0, 7, 8, 23, 24, 70000):
            yield rakp3(d.one(TAGS), system, room=room)
            yield decline(d.one(TAGS), system, room)
    for n in list(range(70)) + [255, 256, 1000, 65535, 69991, 69992, 69993, 70000]:
        for room in (0, 7, 8, 7 + n, 8 + n, 9 + n):
            if room <= 70000:
                yield rakp3(d.below(256), ident(d), d.bytes(n), room)
    for room in range(60):
        yield decline(d.below(256), ident(d), room)
        yield rakp3(code=d.bytes(20), room=room)
    for _ in range(400):
        yield rakp3(d.below(256), ident(d), d.bytes(d.below(40)), d.below(60))
        yield decline(d.below(256), ident(d), d.below(12))


def whole(d, verb):
    """A message that is taken; what no rule fixes is drawn, but for message 2's byte 2, where the Rust reads a status."""
    r = d.bytes(12)
    if verb == "opened":
        codes = (r[0] % 4, r[1] % 5, r[2] % 4)
        blocks = b"".join(bytes([k, r[3], r[4], 8, code, r[5], r[6], r[7]]) for k, code in enumerate(codes))
        return bytes([r[8], 0, 1 + r[9] % 5, r[10]]) + d.bytes(3) + b"\x01" + d.bytes(3) + b"\x02" + blocks
    if verb == "rakp2":
        return bytes([r[8], 0, 0, r[10]]) + d.bytes(3) + b"\x01" + d.bytes(32 + r[11] % 40)
    return bytes([r[8], 0, r[9], r[10]]) + d.bytes(3) + b"\x01" + d.bytes(r[11] % 40)


def at(text, place, *some):
    return text[:place] + bytes(some) + text[place + len(some):]


READERS = ("opened", "rakp2", "rakp4")


def readings(d):
    """Every length, every status in messages of every length that matters, every value of every byte of a head, ids of zero."""
    for verb in READERS:
        for n in range(121):
            for text in (whole(d, verb) + d.bytes(121), bytes(121), d.bytes(121)):
                yield line(verb, text[:n])
        for n in (1000, 65535, 69999, 131072):
            yield line(verb, whole(d, verb) + d.bytes(n))
        for status in range(256):
            text = at(whole(d, verb) + d.bytes(80), 1, status)
            for n in (2, 3, 4, 7, 8, 35, 36, 37, 39, 40, 41, 60):
                yield line(verb, text[:n])
        for byte in range(256):
            for other in range(12):
                yield line(verb, at(whole(d, verb), other, byte))
        for one in (bytes(4), b"\0\0\0\x01", b"\x01\0\0\0", b"\xff\xff\xff\xff", b"\0\x01\0\0"):
            yield line(verb, at(whole(d, verb), 4, *one))
            yield line(verb, at(whole(d, verb), 4, *one, *bytes(4)))
            yield line(verb, at(whole(d, verb), 4, *bytes(4), *one))
        for _ in range(400):
            yield line(verb, d.flipped(whole(d, verb)))
            yield line(verb, whole(d, verb))


def responses(d):
    """The three blocks of the open response: every value of their bytes, every kind in every place, two faults at once."""
    for place in range(12, 36):
        for byte in range(256):
            yield line("opened", at(whole(d, "opened"), place, byte))
    for kinds in ((a, b, c) for a in range(4) for b in range(4) for c in range(4)):
        text = whole(d, "opened")
        for k, kind in enumerate(kinds):
            text = at(text, 12 + 8 * k, kind)
        yield line("opened", text)
        yield line("opened", at(text, 15 + 8 * d.below(3), d.below(9)))
        yield line("opened", at(text, 16 + 8 * d.below(3), d.below(6)))
    faults = [(0, 9), (1, 1), (1, 0x77), (2, 0), (2, 6), (4, 0, 0, 0, 0), (8, 0, 0, 0, 0)]
    faults += [(12 + 8 * k + more, byte) for k in range(3) for more, byte in ((0, 9), (0, (k + 1) % 3), (3, 7), (4, 99), (4, 5))]
    for one in faults:
        for other in faults:
            yield line("opened", at(at(whole(d, "opened"), *one), *other))


def samples():
    """One good line of every word."""
    return [request(own=0x0ABCDEF1), rakp1(system=0x0ABCDEF1, name=b"j"), rakp3(system=0x0ABCDEF1), decline(system=0x0ABCDEF1),
            line("opened", b"\xab"), line("rakp2", b"\xab"), line("rakp4", b"\xab")]


def message_lines(d):
    """Each word with one thing wrong, a good line after it; numbers and bytes out of their range."""
    for sample in samples():
        yield sample
        for text in spoilt(sample):
            yield text.encode("utf8")
            yield samples()[0]
    for byte in (256, 257, 1000, 2 ** 32, 2 ** 64 + 4, 10 ** 30, -1, "none", "0x4"):
        yield request(tag=byte)
        yield rakp1(tag=byte)
        yield rakp1(role=byte)
        yield rakp3(tag=byte)
        yield decline(tag=byte)
    for level in (256, 2 ** 32 + 4, 2 ** 64 + 4, "None", "", "non", "nones", -1):
        yield request(level=level)
    for code in list(range(7)) + [255, 256, 2 ** 32 + 1, "none", -1]:
        for place in range(3):
            yield request(codes=[code if k == place else 1 for k in range(3)])
    for room in (69999, 70000, 70001, 2 ** 32, 2 ** 64 + 1, 10 ** 30, -1):
        yield request(room=room)
        yield rakp1(room=room)
        yield rakp3(room=room)
        yield decline(room=room)
    for n in list(range(16)) + [17, 18, 32]:
        yield rakp1(rm=bytes(n))
    yield rakp3(code=d.bytes(250000), room=70000)
    yield rakp1(name=b"n" * 250000)
    for verb in READERS:
        yield line(verb, whole(d, verb) + d.bytes(260000))


FAMILIES = [("requests", requests), ("first-messages", first_messages), ("third-messages", third_messages), ("readings", readings),
            ("responses", responses), ("message-lines", message_lines)]
