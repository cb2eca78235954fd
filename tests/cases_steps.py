"""Whole exchanges, by `steps` and by `script`: good ones, every status, every length, every byte of the short messages."""
from drawn import Word, line
from rules import hmac, role

ORDER = ("kg", "level", "name", "password", "own", "rm", "opened", "m2", "m4")


def good(d, **chosen):
    """The fields of an exchange that opens a session; what is chosen is taken, the rest is drawn or follows. Message 2 has zeros at 1,
    where its status is, and at 2, where the Rust reads one; its code is that of a name cut at sixteen bytes, as the Rust cuts one. The
    level drawn asks for the role 04, the only one that the Rust has; the system takes whichever is asked for. It is one draw of six, as
    it was while every level was drawn, so that all other draws stay the same."""
    e = dict(kg=d.bytes(20) if d.below(2) else b"", level=d.one((None, None, None, 4, 4, 4)), lookup=None, own=1 + d.below(2 ** 32 - 1),
             rm=d.bytes(16), rc=d.bytes(16), guid=d.bytes(16), password=d.bytes(d.below(24)), system=d.bytes(3) + b"\x01",
             name=bytes(33 + b % 94 for b in d.bytes(d.below(20))[:16]), auth=1, integ=d.below(2), conf=d.below(2), codelen=20)
    e.update(chosen)
    own, name = e["own"].to_bytes(4, "little"), e["name"][:16]
    n = bytes([e.get("role", role(e["level"], e["lookup"])), len(name)]) + name
    r = d.bytes(20)
    blocks = b"".join(bytes([k, r[k], r[k + 3], 8, code]) + r[6 + k:9 + k]
                      for k, code in enumerate((e["auth"], e["integ"], e["conf"])))
    e["opened"] = bytes([0, 0, e["level"] or 4, r[19]]) + own + e["system"] + blocks
    code = hmac(e["password"], own + e["system"] + e["rm"] + e["rc"] + e["guid"] + n)
    e["m2"] = b"\x0d\0\0" + r[17:18] + own + e["rc"] + e["guid"] + (code + bytes(64))[:e["codelen"]]
    sik = hmac(e["kg"] if len(e["kg"]) == 20 else e["password"], e["rm"] + e["rc"] + n)
    e["m4"] = b"\x0a\0" + r[15:17] + own + hmac(sik, e["rm"] + e["system"] + e["guid"])[:12]
    return e


def steps(e, **changed):
    e = {**e, **changed}
    return line("steps", *[Word(e[k]) if k == "own" else e[k] for k in ORDER], *more(e))


def more(e):
    """The field that a line may lack."""
    return () if e["lookup"] is None else (e["lookup"],)


def at(text, place, byte):
    return text[:place] + bytes([byte]) + text[place + 1:]


def exchanges(d):
    """Exchanges, most of which open: every length of name, password and Kg, every level, every byte in a name."""
    for conf in (0, 1):
        for integ in (0, 1):
            for kg in (b"", d.bytes(20), bytes(20)):
                for n in range(25):
                    yield steps(good(d, conf=conf, integ=integ, kg=kg, name=b"n" * n))
    for n in range(301):
        yield steps(good(d, password=d.bytes(n)))
    for n in range(65):
        yield steps(good(d, kg=d.bytes(n)))
        yield steps(good(d, kg=d.bytes(n), password=d.bytes(254 + n % 4)))
    for level in [None] + list(range(256)):
        e = good(d, level=4)
        yield steps(e, level=level)
        yield steps(e, level=level, own=0, name=b"\0")
        yield steps(e, level=level, name=b"\x80")
    for byte in range(256):
        for place in (0, 7, 15):
            yield steps(good(d, name=at(b"abcdefghijklmnop", place, byte)))
    for name in ("é", "abcdefghijklmnoé", "abcdefghijklmnopé", "日本", "\u0100"):
        yield steps(good(d, name=name.encode()))
    for _ in range(1500):
        yield steps(good(d))


def statuses(d):
    """Every status at its place in each answer, in the shortest message that has one and in a whole one."""
    for message in ("opened", "m2", "m4"):
        for status in range(256):
            e = good(d)
            whole = at(e[message], 1, status)
            for text in (whole, whole[:4], whole[:2]):
                yield steps(e, **{message: text})
    for status in range(256):                  # message 2's byte 2, where the Rust reads a status, is not read
        e = good(d)
        yield steps(e, m2=at(e["m2"], 2, status))


def lengths(d):
    for message in ("opened", "m2", "m4"):
        for n in range(101):
            e = good(d)
            yield steps(e, **{message: (e[message] + d.bytes(101))[:n]})
            yield steps(e, **{message: d.bytes(n)})
            yield steps(e, **{message: bytes(n)})


def places(d):
    """Every value of every byte of the open response and of the heads of messages 2 and 4."""
    for message, count in (("opened", 36), ("m2", 8), ("m4", 8)):
        for place in range(count):
            e = good(d)
            for byte in range(256):
                yield steps(e, **{message: at(e[message], place, byte)})
    for message in ("m2", "m4"):
        e = good(d)
        for place in range(8, len(e[message])):
            for _ in range(5):
                yield steps(e, **{message: d.flipped(e[message], place)})
    for message, ids in (("opened", (4, 8)), ("m2", (4,)), ("m4", (4,))):
        for place in ids:
            for ident in (bytes(4), b"\0\0\0\x01", b"\x01\0\0\0", b"\xff\xff\xff\xff"):
                for tag in (0, 0x0A, 0x0D, 1):
                    e = good(d)
                    text = at(e[message], 0, tag)
                    yield steps(e, **{message: text[:place] + ident + text[place + 4:]})


def algorithms(d):
    """Every known algorithm in the open response, and codes of every length that one of them has."""
    for auth in range(5):
        for integ in range(6):
            for conf in range(5):
                for n in (0, 16, 20, 32) if max(auth, integ, conf) < 5 else (20,):
                    yield steps(good(d, auth=auth, integ=integ, conf=conf, codelen=n))
    for kinds in ((a, b, c) for a in range(4) for b in range(4) for c in range(4)):
        for length in (8, 0):
            e = good(d)
            text = e["opened"]
            for k, kind in enumerate(kinds):
                text = at(text, 12 + 8 * k, kind)
            yield steps(e, opened=at(text, 15 + 8 * d.below(3), length))
    for n in range(41):
        yield steps(good(d, codelen=n))
    for codes in ((0, 0, 0), (1, 2, 0), (1, 0, 2)):        # the least exchange with an algorithm that is not carried
        opened = bytes.fromhex("00000100 01000000 01000000") + b"".join(
            bytes([kind, 0, 0, 8, code, 0, 0, 0]) for kind, code in enumerate(codes))
        yield script("begin 00000001 none - 32", line("open", 28, opened, bytes(16)))


def put(place, *some):
    """A fault: these bytes at this place."""
    return lambda text: text[:place] + bytes(some) + text[place + len(some):]


FAULTS = {
    "opened": [lambda t: t[:1], lambda t: t[:35], lambda t: t + b"x", put(1, 1), put(1, 0x77), put(2, 0), put(4, 0, 0, 0, 0),
               put(8, 0, 0, 0, 0), put(0, 9), put(4, 1, 2, 3, 4)]
    + [put(at + more, byte) for at in (12, 20, 28) for more, byte in ((3, 7), (4, 99), (4, 2), (4, 0), (0, 9), (0, at % 3))],
    "m2": [lambda t: t[:3], lambda t: t[:39], lambda t: t[:59], lambda t: t + b"x", put(1, 1), put(1, 0x77), put(4, 0, 0, 0, 0),
           put(0, 9), put(4, 1, 2, 3, 4), lambda t: t[:-1] + bytes([t[-1] ^ 1])],
    "m4": [lambda t: t[:3], lambda t: t[:7], lambda t: t[:19], lambda t: t + b"x", put(1, 1), put(1, 0x77), put(4, 0, 0, 0, 0),
           put(0, 9), put(4, 1, 2, 3, 4), lambda t: t[:-1] + bytes([t[-1] ^ 1])],
}
LENT = [{}, dict(kg=b"kg"), dict(password=b"p" * 256), dict(kg=b"kg", password=b"p" * 256)]


def pairs(d):
    """Two faults at once, so that the order of the checks shows; also with too little room, or Kg and password of wrong length."""
    for message, faults in FAULTS.items():
        for one in faults:
            for other in faults:
                e = good(d)
                yield steps(e, **{message: other(one(e[message]))})
            for room in (0, 27, 28, 43, 44):
                for lent in LENT if message == "m2" else LENT[:1]:
                    e = good(d, name=b"n" * 16)
                    c, bad = calls(e), calls({**e, **lent, message: one(e[message])}, room, room)
                    step = "open" if message == "opened" else message
                    before = ("begin", "open", "m2", "m4")[:("begin", "open", "m2", "m4").index(step)]
                    yield script(*[c[b] for b in before], bad[step], c[step])
    for own in (0, 1):
        for level in (None, 0, 5, 6):
            for name in (b"", b"ok", b"\0", b"\x80"):
                for room in (0, 31, 32):
                    yield script(line("begin", Word(own), level, name, room))


def secrets(d):
    """A wrong password, a wrong Kg, a Kg used where the password belongs."""
    for _ in range(400):
        e = good(d, kg=d.bytes(20))
        yield steps(e, password=e["password"] + b"x")
        yield steps(e, kg=d.bytes(20))
        yield steps(e, kg=b"")
        yield steps(good(d, password=e["kg"]), password=e["password"], kg=e["kg"])
    for _ in range(3000):
        e = good(d)
        message = d.one(("opened", "m2", "m4"))
        text = d.flipped(e[message])
        yield steps(e, **{message: d.flipped(text) if d.below(2) else text})


def calls(e, room=70000, m2room=70000, begin=70000):
    return {"begin": line("begin", Word(e["own"]), e["level"], e["name"], begin, *more(e)),
            "open": line("open", room, e["opened"], e["rm"]),
            "m2": line("m2", m2room, e["kg"], e["password"], e["m2"]),
            "m4": line("m4", e["m4"])}


def script(*all_calls):
    return "script " + "; ".join(all_calls)


def orders(d):
    """Every order of up to four calls; every room around what a step needs, and the same call again with enough."""
    names = ("begin", "open", "m2", "m4")
    queue = [()]
    for chosen in queue:
        if len(chosen) < 4:
            queue += [chosen + (n,) for n in names]
        if chosen:
            c = calls(good(d))
            yield script(*[c[n] for n in chosen])
            yield script(*[c[n] for n in names[:d.below(5)]], *[c[n] for n in chosen])
    for room in range(60):
        for n in (0, 1, 15, 16, 17):
            e = good(d, name=b"n" * n)
            c, small = calls(e), calls(e, room, room, room)
            yield script(small["begin"], c["open"])
            yield script(c["begin"], small["open"], c["open"], c["m2"], c["m4"])
            yield script(c["begin"], c["open"], small["m2"], c["m2"], c["m4"], c["m4"])


def records(d, n=9000):
    """What a refusal leaves of the record: calls of one exchange, some of them spoilt, in any order."""
    for _ in range(n):
        e = good(d)
        c, made = calls(e), []
        for step in ("begin", "open", "m2", "m4"):
            for _ in range(d.below(3)):
                made.append(spoilt(d, e, step))
            made.append(c[step])
        for _ in range(d.below(3)):
            made.insert(d.below(len(made) + 1), spoilt(d, e, d.one(("open", "m2", "m4"))))
        yield script(*made[:1 + d.below(len(made) + 2)])


def spoilt(d, e, step):
    e = dict(e)
    way = d.below(6)
    if step == "begin":
        e.update((dict(own=0), dict(level=6), dict(name=b"\0"), dict(level=0), {}, {})[way])
        return calls(e, begin=d.below(40))[step]
    message = "opened" if step == "open" else step
    if way == 0:
        e[message] = d.flipped(e[message])
    elif way == 1:
        e[message] = e[message][:d.below(len(e[message]))]
    elif way == 2:
        e["kg"] = d.bytes(d.below(24))
    elif way == 3:
        e["password"] = d.bytes(d.one((3, 255, 256, 300)))
    room = d.below(60) if way > 3 else 100
    return calls(e, room, room)[step]


FAMILIES = [("exchanges", exchanges), ("statuses", statuses), ("lengths", lengths), ("places", places),
            ("algorithms", algorithms), ("pairs", pairs), ("secrets", secrets), ("orders", orders), ("records", records)]
