"""Lines that are no cases, each followed by one that is, and the longest line that must be taken."""
from drawn import Word, line

SIK, KEY = bytes(range(20)), bytes(range(16))


def samples(d):
    """One good line of every kind."""
    ids = (Word(0x0ABCDEF1), Word(0x0000BEEF))
    framed = (1, 1, SIK, KEY, 0, *ids, 300, b"\xab\xcd")
    return [line("sha1", b"\xab"), line("pieces", b"\xab", b"\xcd"), line("hmac", b"\xab", b"\xcd"), line("zeros", 100, 7),
            line("hmac-zeros", 100, 7), line("encrypt", KEY, KEY), line("decrypt", KEY, KEY),
            line("cbc-encrypt", KEY, KEY, KEY), line("cbc-decrypt", KEY, KEY, KEY), line("keys", SIK),
            line("block", bytes.fromhex("0000000801abcdef")), line("read", 0, 0, SIK, b"\xab"),
            line("datagram", 0, 0, SIK, b"\xab"), line("write", *framed), line("wrap", *framed),
            line("steps", b"", None, b"\x6a", b"\xab", Word(0xABCDEF01), KEY, b"\xab", b"\xcd", b"\xef"),
            "script begin 0abcdef1 4 6a 100; open 100 abcd " + KEY.hex() + "; m2 100 - ab cd; m4 ef"]


def spoilt(good):
    """The line with one thing wrong or changed."""
    fields = good.split(" ")
    yield " " + good
    yield good + " "
    yield good + "\r"
    yield good + "\t"
    yield good + " 00 00 00 00 00 00 00 00 00 00 zz"
    yield good.replace(" ", "  ", 1)
    yield good.replace(" ", "\t", 1)
    yield good.replace(" ", "", 1)
    yield good.replace(" ", ",", 1)
    yield good[0].upper() + good[1:]
    yield good + "\0"
    yield fields[0]
    yield fields[0] + " "
    yield fields[0][:-1] + " " + " ".join(fields[1:])
    yield fields[0] + "x " + " ".join(fields[1:])
    for at in range(1, len(fields)):
        before, f, after = fields[:at], fields[at], fields[at + 1:]
        wrong = [f + "g", "g" + f, f + ".", "", "+" + f, "--", "0x" + f, "é"]
        if f != f.upper() and ";" not in f:
            wrong.append(f.upper())
        for w in wrong:
            yield " ".join(before + [w] + after)
        if fields[0] not in ("pieces", "script") and len(fields) > 2:
            yield " ".join(before + after)
            yield " ".join(before + [f, f] + after)


def wrong_values(d):
    """Fields of a wrong length or over their limit."""
    ids = (Word(1), Word(2))

    def framed(verb, conf=1, integ=1, sik=SIK, iv=KEY, kind=0, a=ids[0], b=ids[1], room=300, payload=b"\xab"):
        return line(verb, conf, integ, sik, iv, kind, a, b, room, payload)

    for n in list(range(20)) + [21, 22, 40]:
        yield line("keys", bytes(n))
        yield line("read", 0, 0, bytes(n), b"")
        yield line("datagram", 0, 0, bytes(n), b"")
        yield framed("write", sik=bytes(n))
    for n in list(range(16)) + [17, 18, 32]:
        key = bytes(n)
        for kind in ("encrypt", "decrypt"):
            yield line(kind, key, KEY)
            yield line(kind, KEY, key)
        for kind in ("cbc-encrypt", "cbc-decrypt"):
            yield line(kind, key, KEY, KEY)
            yield line(kind, KEY, key, KEY)
        yield framed("write", iv=key)
        yield framed("wrap", conf=0, iv=key)
        yield line("steps", b"", None, b"", b"", Word(1), key, b"", b"", b"")
        yield line("script open", 100, b"", key)
    for verb in ("write", "wrap"):
        for kind in range(260):
            yield framed(verb, kind=kind)
        for flag in (2, 3, 10, 255, 256, 2 ** 64, "none", "true"):
            yield framed(verb, conf=flag)
            yield framed(verb, integ=flag)
        for room in (69999, 70000, 70001, 65536 * 65536, 2 ** 64 + 1, 10 ** 30, -1):
            yield framed(verb, room=room)
        for word in ("1", "0000001", "000000001", "-", "0000000g", "0000000A"):
            yield framed(verb, a=word)
            yield framed(verb, b=word)
    for flag in (2, 9, 256, 2 ** 32, "none"):
        yield line("read", flag, 0, SIK, b"")
        yield line("read", 0, flag, SIK, b"")
        yield line("datagram", flag, 0, SIK, b"")
    for kind in ("zeros", "hmac-zeros"):
        for n, m in ((0, 0), (1, 0), (1, 65537), (1, 2 ** 32), (1, 2 ** 64 + 1), (2 ** 32, 1), (2 ** 64, 1), (10 ** 40, 1),
                     (1, -1), (-1, 1), (1, 65536), (2 ** 32 - 1, 65536)):
            yield line(kind, n, m)
    for level in (256, 1000, 2 ** 32 + 4, 2 ** 64 + 4, "None", "NONE", "", "non", "nones", -1):
        yield line("steps", b"", level, b"", b"", Word(1), KEY, b"", b"", b"")
        yield line("script begin", Word(1), level, b"", 100)


def scripts(d):
    begin, m4 = "begin 00000001 4 6a 100", "m4 ef"
    for text in ("script", "script ", "script ;", "script ; ", "script " + begin + ";", "script " + begin + "; ",
                 "script " + begin + ";" + m4, "script " + begin + " ; " + m4, "script " + begin + ";  " + m4,
                 "script ; " + begin, "script " + begin + "; ; " + m4, "script " + begin + "; m5 ef",
                 "script " + begin + "; m4", "script " + begin + "; m4 e", "script " + begin + "; m4 ef ef",
                 "script " + begin + "; " + begin + "; m4 -", "script " + begin + "; script " + m4, begin, m4,
                 "script begin 00000001 4 6a 70001", "script open 70001 - " + KEY.hex(), "script m2 70001 - - -",
                 "script begin 00000001 4 6a 70000", "script open 70000 - " + KEY.hex(), "script m2 70000 - - -",
                 "script m4 -; m4 -; m4 -", "script " + "; ".join([m4] * 3000)):
        yield text


def lines(d):
    good = samples(d)
    for sample in good:
        yield sample
        for text in spoilt(sample):
            yield text.encode("utf8")
            yield good[0]
    yield from wrong_values(d)
    yield from scripts(d)
    for b in range(256):
        if b != 10:
            yield bytes([b])
            yield b"sha1 " + bytes([b, b])
            yield bytes([b]) + b"sha1 ab"
    for text in (b"", b" ", b"-", b"sha1", b"pieces", b"pieces ab  cd", b"\xff\xfe", b"sha256 ab", b"#", b"refused 1"):
        yield text
        yield good[0]
    yield line("pieces", b"a", d.bytes(262139))            # 524,288 characters
    yield line("hmac", d.bytes(131000), d.bytes(131000))
    yield line("read", 1, 1, SIK, d.bytes(262000))
    for text in (b"x" * 524289, b"sha1 " + b"g" * 700000, b" " * 600000):
        yield text
        yield good[0]


FAMILIES = [("lines", lines)]
