#!/usr/bin/env python3
"""messages_cases: prints what crates/messages_cases must print, worked out here from the rules alone (docs/RULES.md, 1.1, 1.2
and section 7): the statuses that have a name, the order of refusals of each message, the layouts. Nothing of it comes from
the program. `tests/messages_cases.py | diff - crates/messages_cases/stdout` shows that the file holds it."""

COMMON = [0x01, 0x02, 0x12]
NAMES_OPEN = [0x03, 0x04, 0x05, 0x06, 0x07, 0x09, 0x10, 0x11]
NAMES_2 = [0x08, 0x09, 0x0A, 0x0B, 0x0C, 0x0D]
NAMES_4 = [0x08, 0x0F]
HIGHEST = {0: 3, 1: 4, 2: 3}          # the last known code of each type of block

class Refused(Exception):
    """A refusal: its number and the value it carries."""

def need(good, number, value=0):
    if not good:
        raise Refused(number, value)

def status(b, names):
    need(b == 0, 17 if b in COMMON + names else 18, b)

def number(b):
    return int.from_bytes(b, "little")

def block(b):
    need(b[3] == 8, 22)
    need(b[0] in HIGHEST, 24, b[0])
    need(b[4] <= HIGHEST[b[0]], 23, b[4])
    return b[0], b[4]

def open_response(m):
    need(len(m) >= 2, 1)
    status(m[1], NAMES_OPEN)
    need(len(m) == 36, 1)
    need(1 <= m[2] <= 5, 19, m[2])
    need(number(m[4:8]) != 0, 20)
    need(number(m[8:12]) != 0, 21)
    codes = []
    for kind in range(3):
        found, code = block(m[12 + 8 * kind:20 + 8 * kind])
        need(found == kind, 25)
        codes.append(code)
    return m[0], m[2], number(m[4:8]), number(m[8:12]), codes

def message_2(m):
    need(len(m) >= 4, 1)
    status(m[1], NAMES_2)
    need(len(m) >= 40, 1)
    need(number(m[4:8]) != 0, 20)
    return m[0], number(m[4:8]), m[8:24], m[24:40], (40, len(m) - 40)

def message_4(m):
    need(len(m) >= 4, 1)
    status(m[1], NAMES_4)
    need(len(m) >= 8, 1)
    need(number(m[4:8]) != 0, 21)
    return m[0], number(m[4:8]), (8, len(m) - 8)

def username(b):
    need(len(b) <= 16, 40)
    need(all(0 < x < 128 for x in b), 34)
    return b

def le4(n):
    return n.to_bytes(4, "little")

def request(level):
    ask = bytes([0, level, 0, 0]) + le4(0x0AA2A3A4)
    for kind, code in ((0, 1), (1, 4), (2, 1)):
        ask += bytes([kind, 0, 0, 8, code, 0, 0, 0])
    return ask

RANDOM = bytes.fromhex("52f05e197079b4f9abec4a0e6936a9a3")

def message_1(length):
    name = b"jonathan abcdefg"[:length]
    return bytes(4) + le4(0x2F590161) + RANDOM + bytes([4, 0, 0, len(name)]) + name

def message_3(code):
    return bytes([0x0A, 0, 0, 0]) + le4(0x2F590161) + code

DECLINED = bytes([0x0A, 0x0F, 0, 0]) + le4(0x2F590161)

def row(label, case, last):
    """Groups of one answer: number, then the value where it is not 0 (v where it is the case itself)."""
    groups = []
    for n in range(last + 1):
        num, value = case(n)
        key = (num, "" if value == 0 else "v" if value == n else ":%d" % value)
        if groups and groups[-1][2] == key:
            groups[-1][1] = n
        else:
            groups.append([n, n, key])
    print(label + ":" + "".join(" %s=%d%s" % (a if a == b else "%d-%d" % (a, b), k[0], k[1]) for a, b, k in groups))

def read(reader, shown, bytes_of):
    def case(n):
        try:
            return 0, shown(reader(bytes_of(n)))
        except Refused as r:
            return r.args
    return case

LETTERS = b"abcdefghijklmnopABCDEFGHIJKLMNOPqrstuvwxyzQRSTUVWXYZ;,.:"
TEMPLATE = {
    "open": bytes.fromhex("00000400a4000000e0000000" + "0000000801000000" + "0100000801000000" + "0200000800000000") + bytes(28),
    "2": bytes.fromhex("0d000000a4000000") + LETTERS,
    "4": bytes.fromhex("0a000000a4000000") + LETTERS,
    "name": b"n" * 64,
    "long name": b"n" * 64,
    0: bytes.fromhex("0000000801000000"),
    1: bytes.fromhex("0100000801000000"),
    2: bytes.fromhex("0200000801000000"),
}
READERS = {"open": (open_response, 36), "2": (message_2, 60), "4": (message_4, 20), "name": (username, 16),
           "long name": (username, 17)}

def shown(kind):
    return len if kind in ("name", "long name") else (lambda r: r[1]) if kind in (0, 1, 2) else (lambda r: r[0])

def byte(label, kind, at):
    reader, size = READERS.get(kind, (block, 8))
    whole = TEMPLATE[kind]
    row(label, read(reader, shown(kind), lambda n: (whole[:at] + bytes([n]) + whole[at + 1:])[:size]), 255)

def length(label, kind):
    row(label, read(READERS[kind][0], shown(kind), lambda n: TEMPLATE[kind][:n]), 64)

def room(label, message):
    row(label, lambda n: (0, len(message)) if n >= len(message) else (15, 0), 64)

def written(label, message):
    print(label + ": " + (message + b"\xaa" * (64 - len(message))).hex())

def show_2(label, m):
    try:
        tag, console, random, guid, place = message_2(m)
    except Refused:
        tag, console, random, guid, place = 0, 0, bytes(16), bytes(16), (0, 0)
    print("%s: tag %d console %d random %s guid %s code at %d of %d" % ((label, tag, console, random.hex(), guid.hex()) + place))

def rust_cases():
    m = bytes.fromhex("00000400a4a3a20ae034714a" + "0000000801000000" + "0100000801000000" + "0200000800000000")
    tag, level, console, system, codes = open_response(m)
    print("open response: tag %d level %d console %d system %d authentication %d integrity %d confidentiality %d"
          % ((tag, level, console, system) + tuple(codes)))
    show_2("message 2", bytes.fromhex("00000000a4a3a2a0e82c00004272000059180000ac040000" + "00" * 16
                                      + "6b61ba25c8224e327863626b307c8dc815229091"))
    show_2("message 2, other bytes", TEMPLATE["2"])
    show_2("message 2, refused", TEMPLATE["2"][:39])
    tag, console, place = message_4(TEMPLATE["4"][:20])
    print("message 4: tag %d id %d value at %d of %d" % ((tag, console) + place))
    written("open request, level 3", request(3))
    written("open request, no level", request(0))
    written("message 1", message_1(4))
    written("message 1, name of 16", message_1(16))
    written("message 1, name length 17", message_1(17))
    written("message 3", message_3(b"\x5c" * 20))
    written("message 3, declining", DECLINED)

def rows():
    byte("open response, status", "open", 1)
    byte("message 2, status", "2", 1)
    byte("message 4, status", "4", 1)
    length("open response, length", "open")
    length("message 2, length", "2")
    length("message 4, length", "4")
    length("username, length", "name")
    room("open request, room", request(3))
    room("message 1, no name, room", message_1(0))
    room("message 1, name of 4, room", message_1(4))
    room("message 1, name of 16, room", message_1(16))
    room("message 1, name length 17, room", message_1(17))
    room("message 3, code of 20, room", message_3(bytes(20)))
    room("message 3, code of 32, room", message_3(bytes(32)))
    room("message 3 declining, room", DECLINED)
    for at in (3, 13, 14, 25, 35):
        byte("open response, byte %d" % at, "open", at)
    for message in ("2", "4"):
        for at in (2, 3):
            byte("message %s, byte %d" % (message, at), message, at)
    for at in (1, 2, 5, 6, 7):
        byte("block, byte %d" % at, 1, at)
    byte("block, type", 1, 0)
    byte("block, length byte", 1, 3)
    for kind in (0, 1, 2):
        byte("block of type %d, code" % kind, kind, 4)
    for what, offset in (("type", 0), ("length byte", 3), ("code", 4)):
        for start in (12, 20, 28):
            byte("open response, %s at %d" % (what, start + offset), "open", start + offset)
    byte("open response, tag", "open", 0)
    byte("open response, level", "open", 2)
    byte("open response, console id", "open", 4)
    byte("open response, system id", "open", 8)
    byte("message 2, tag", "2", 0)
    byte("message 2, id", "2", 4)
    byte("message 4, tag", "4", 0)
    byte("message 4, id", "4", 4)
    for at in (0, 15):
        byte("username, byte %d" % at, "name", at)
    for at in (0, 15, 16):
        byte("username of 17, byte %d" % at, "long name", at)

rust_cases()
rows()
