"""Every level beside every kind of lookup, of which the Rust knows the role 04 alone: by `steps` and by `script`."""
from cases_steps import at, calls, good, script, steps
from rules import role

LEVELS = (None, 1, 2, 3, 4, 5)
# as a line has it: no field at all, by name and level, by name only
LOOKUPS = (None, 0, 1)
ASKED = [(level, lookup) for level in LEVELS for lookup in LOOKUPS]
# what a system might take for the role: each that there is, and bytes that look like one
ROLES = sorted({role(*a) for a in ASKED} | {0, 6, 8, 0x08 | 4, 0x0F, 0x10, 0x20 | 4, 0x40, 0x84, 0x1F, 0xFF})
OTHER = (2, 3, 10, 16, 255, 256, 2 ** 32 + 1, "", "-", "x", "0x1", "none", "-1", "+1", "1 0", "0 1", "1 ", " 1", "1 15", "0 1 20", "0 256")


def role_steps(d):
    """Each role with each suite, with a Kg and without, with names of every length; each role against each that a system might have heard, in
    message 2's code or only in the SIK; levels that are none; passwords and names drawn."""
    for level, lookup in ASKED:
        for conf in (0, 1):
            for integ in (0, 1):
                for kg in (b"", d.bytes(20)):
                    yield steps(good(d, level=level, lookup=lookup, conf=conf, integ=integ, kg=kg))
        for n in range(17):
            yield steps(good(d, level=level, lookup=lookup, name=b"n" * n))
        e = good(d, level=level, lookup=lookup)
        yield steps(e, password=e["password"] + b"x")
        for place in range(len(e["m4"])):
            yield steps(e, m4=d.flipped(e["m4"], place))
        for heard in ROLES:
            drawn = dict(level=level, lookup=lookup, own=e["own"], rm=e["rm"], rc=e["rc"], guid=e["guid"], system=e["system"],
                         name=e["name"], password=e["password"], kg=e["kg"])
            other = good(d, **drawn, role=heard)
            yield steps(other)                               # another role in each code
            yield steps(e, m4=other["m4"])                   # another in the SIK alone
        for granted in range(7):
            yield steps(e, opened=at(e["opened"], 2, granted))
    for level in (0, 6, 8, 0x10, 0x11, 0x14, 0x1F, 255):
        for lookup in LOOKUPS:
            yield steps(good(d, level=4), level=level, lookup=lookup)
            yield steps(good(d, level=4), level=level, lookup=lookup, own=0, name=b"\0")
    for _ in range(1500):
        level, lookup = d.one(ASKED)
        yield steps(good(d, level=level, lookup=lookup))


def role_scripts(d):
    """The role of a record: a Begin with another in each step, a refused Begin, refusals that leave the record, messages that close it."""
    opened = bytes.fromhex("00000100 01000000 01000000 0000000801000000 0100000800000000 0200000800000000")
    for level, lookup in ASKED:
        e = good(d, level=level, lookup=lookup, name=b"nightdesk")
        least = calls({**e, "own": 1, "name": b"", "opened": opened, "rm": bytes(16)}, 28, begin=32)
        yield script(least["begin"], least["open"])
        c, small = calls(e), calls(e, 36, 27)
        done = [c[k] for k in ("begin", "open", "m2", "m4")]
        yield script(c["begin"], small["open"], c["open"], small["m2"], c["m4"], c["m2"], c["open"], c["m4"], c["m4"])
        for other in ASKED:
            again = calls({**e, "level": other[0], "lookup": other[1]})["begin"]
            for n in range(5):
                yield script(*done[:n], again, *done[1:])
                if n > 1:
                    yield script(*done[:n], again, *done[n:])
            yield script(again, *done)
        for refused in (dict(own=0), dict(level=6), dict(level=0), dict(name=b"\0")):
            for n in range(5):
                yield script(*done[:n], calls({**e, **refused})["begin"], *done[n:])
        yield script(done[0], done[1], calls({**e, "m2": d.flipped(e["m2"], 45)})["m2"], *done[2:])
        for room in (0, 31, 32):
            yield script(calls(e, begin=room)["begin"], *done[1:])


def role_lines(d):
    """Calls with a field too many, then lookups that are none, each before a line that is a case."""
    e = good(d, level=2, name=b"view")
    c = calls(e)
    yield script(c["begin"], "%s 0" % c["open"])
    yield script(c["begin"], c["open"], "%s 1" % c["m2"])
    yield script(c["begin"], c["open"], c["m2"], "%s 0" % c["m4"])
    for other in OTHER:
        yield steps(e) + " %s" % other
        yield steps(good(d, lookup=1))
        yield script("%s %s" % (c["begin"], other), c["open"])
        yield script(*[calls(good(d, level=3, lookup=1))[k] for k in ("begin", "open", "m2", "m4")])


FAMILIES = [("role-steps", role_steps), ("role-scripts", role_scripts), ("role-lines", role_lines)]
