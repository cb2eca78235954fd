"""Names around sixteen bytes, and far longer ones, where the Rust takes the first sixteen: by message 1's writer, by `steps` and by
`script`."""
from cases_messages import rakp1
from cases_steps import at, calls, good, script, steps
from drawn import Word, line

SIXTEEN = b"render-desk-nigh"
# around the limit, and around 0 and 16 modulo 256 and 65,536
LENGTHS = (16, 17, 18, 19, 32, 255, 256, 257, 271, 272, 273, 512, 528, 65535, 65536, 65537, 65552, 65553)


def spoilt(n):
    """A name of n bytes whole, then with a zero or a byte that is not ASCII in it: first, last of the sixteen, behind them, last; of a
    very long one only with a zero in front."""
    name = (SIXTEEN + b"t" * n)[:n]
    yield name
    for place in sorted({0, 15, 16, n - 1}) if n < 1000 else (0,):
        if place < n:
            for byte in (0, 0x80, 0xFF) if n < 1000 else (0,):
                yield at(name, place, byte)


def name_writings(d):
    """Message 1's writer: every byte behind sixteen letters and before them, every length that matters, with room and without."""
    for byte in range(256):
        for name in (SIXTEEN + bytes([byte]), bytes([byte]) + SIXTEEN, at(SIXTEEN, 15, byte) + b"t"):
            yield rakp1(name=name, room=d.one((0, 44, 45, 70000)))
    for n in LENGTHS:
        for name in spoilt(n):
            for room in (0, 28 + n % 256, 70000) if n < 300 else (44,):
                yield rakp1(name=name, room=room)
    for n in (8, 9, 15, 16, 17):
        for text in ("é" * n, "a" * n + "é", "é" + "a" * n, "日" * n):
            yield rakp1(name=text.encode())


def name_steps(d):
    """Users who share sixteen letters; Begin's order; what a long name leaves of a record, in each step; lengths and bytes drawn."""
    for byte in range(256):
        yield steps(good(d, name=SIXTEEN + bytes([byte])))
    for n in LENGTHS:
        for name in spoilt(n):
            yield steps(good(d, name=name))
            yield steps(good(d, name=name), own=0)
            yield steps(good(d, name=name), level=6)
    for own in (0, 1):
        for level in (None, 0, 5, 6):
            for n in (15, 16, 17, 272):
                for name in spoilt(n):
                    for room in (0, 31, 32):
                        yield script(line("begin", Word(own), level, name, room))
    for _ in range(40):
        for name in (SIXTEEN + b"t", SIXTEEN + b"\0", b"\0" + SIXTEEN, SIXTEEN * 17):
            e = good(d)
            c, long = calls(e), calls({**e, "name": name}, begin=d.one((0, 31, 32, 70000)))
            for n in range(5):
                done = [c[k] for k in ("begin", "open", "m2", "m4")]
                yield script(*done[:n], long["begin"], *done[n:])
                yield script(*done[:n], long["begin"], *done)
    for _ in range(1500):
        yield steps(good(d, name=bytes(b % 129 for b in d.bytes(d.below(40)))))


FAMILIES = [("name-writings", name_writings), ("name-steps", name_steps)]
