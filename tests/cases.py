#!/usr/bin/env python3
"""cases.py [FAMILY..]: writes the cases of the comparison to standard output, one to a line, always the same ones: every draw
comes from SHAKE-256 of a fixed label. How many each family has goes to standard error."""
import os, sys

sys.path.insert(0, os.path.dirname(os.path.abspath(__file__)))
import cases_arrivals, cases_frame, cases_lines, cases_messages, cases_names, cases_roles, cases_statuses, cases_steps
from drawn import Draw, line


def hashes(d):
    """All short lengths, all cuts around the block's ends, keys around the block's length, the limit of 1,048,576 bytes."""
    for n in list(range(301)) + [511, 512, 513, 1000, 4095, 4096, 4097, 65535, 65536, 131072]:
        yield line("sha1", d.bytes(n))
    for b in range(256):
        yield line("sha1", bytes([b]))
    for n in (1, 55, 56, 57, 63, 64, 65, 119, 120, 127, 128, 129):
        text = d.bytes(n)
        for cut in range(n + 1):
            yield line("pieces", text[:cut], text[cut:])
    for _ in range(2500):
        yield line("pieces", *[d.bytes(d.below(150)) for _ in range(1 + d.below(8))])
    for k in (0, 1, 19, 20, 21, 55, 56, 63, 64, 65, 66, 119, 120, 128, 200, 1000):
        for n in range(131):
            yield line("hmac", d.bytes(k), d.bytes(n))
    for _ in range(2500):
        yield line("hmac", d.bytes(d.below(140)), d.bytes(d.below(400)))
    for kind in ("zeros", "hmac-zeros"):
        for n in list(range(131)) + [1000, 65535, 65536, 65537, 100000]:
            for m in (1, 3, 64, 65536):
                yield line(kind, n, m)
        for n in (1048512, 1048575, 1048576, 1048577, 1048640):
            for m in (1, 63, 64, 65, 1000, 65535, 65536):
                yield line(kind, n, m)
        for n in (1048577 + 65536, 2097152, 4294967294, 4294967295):
            yield line(kind, n, 65536)


def ciphers(d):
    """One bit of the key or of the block at a time, each byte value, CBC of every short length."""
    zero = bytes(16)
    for way in ("encrypt", "decrypt"):
        for bit in range(128):
            one = (1 << bit).to_bytes(16, "big")
            yield line(way, one, zero)
            yield line(way, zero, one)
        for b in range(256):
            yield line(way, bytes([b] * 16), bytes(16))
            yield line(way, bytes(range(16)), bytes([b] * 16))
        for _ in range(1200):
            yield line(way, d.bytes(16), d.bytes(16))
        for n in list(range(130)) + [255, 256, 257, 1024, 4096]:
            yield line("cbc-" + way, d.bytes(16), d.bytes(16), d.bytes(n))
        for _ in range(600):
            yield line("cbc-" + way, d.bytes(16), d.bytes(16), d.bytes(16 * d.below(12)))


def keys(d):
    for b in range(256):
        yield line("keys", bytes([b] * 20))
    for _ in range(500):
        yield line("keys", d.bytes(20))


def blocks(d):
    """Every type with every code, every length byte, 0 to 40 bytes (of which only eight are a case); reserved bytes are drawn."""
    def of(kind, length, code):
        r = d.bytes(5)
        return bytes([kind, r[0], r[1], length, code]) + r[2:]

    for kind in range(256):
        for code in range(256):
            yield line("block", of(kind, 8, code))
    for length in range(256):
        for kind in (0, 1, 2, 3, 255):
            yield line("block", of(kind, length, d.below(6)))
    for n in range(41):
        yield line("block", (of(n % 4, 8, 1) + d.bytes(33))[:n])


def block_lengths(d):
    """Good blocks cut short or with bytes behind them, also so many that the count is 8 in one byte or in two; a block after each."""
    for kind, code in ((0, 3), (1, 4), (2, 3)):
        whole = bytes([kind, 0, 0, 8, code, 0, 0, 0])
        for n in (0, 1, 3, 4, 5, 7, 9, 12, 16, 24, 255, 256, 257, 264, 512, 520, 65535, 65536, 65544, 131080):
            yield line("block", (whole + d.bytes(n))[:n])
            yield line("block", whole)


FAMILIES = [("hashes", hashes), ("ciphers", ciphers), ("keys", keys), ("blocks", blocks)]
FAMILIES += cases_frame.FAMILIES + cases_steps.FAMILIES + cases_lines.FAMILIES + cases_messages.FAMILIES + cases_arrivals.FAMILIES
FAMILIES += cases_statuses.FAMILIES + cases_names.FAMILIES + [("block-lengths", block_lengths)] + cases_roles.FAMILIES


def main():
    wanted, total, out = sys.argv[1:], 0, sys.stdout.buffer
    for name, family in FAMILIES:
        if wanted and name not in wanted:
            continue
        n = 0
        for case in family(Draw(name)):
            out.write(case if isinstance(case, bytes) else case.encode("ascii"))
            out.write(b"\n")
            n += 1
        total += n
        print("%8d  %s" % (n, name), file=sys.stderr)
    print("%8d  cases" % total, file=sys.stderr)


if __name__ == "__main__":
    main()
