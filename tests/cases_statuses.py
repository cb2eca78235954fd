"""Message 2's status, at offset 1, and the two reserved bytes behind it, at the first of which the Rust reads the status: by the
reader alone, by `steps` and by `script`."""
import os

from cases_messages import at, whole
from cases_steps import calls, good, script, steps
from drawn import line

# the statuses of the Standard's table, the one after its last, and three far from it
STATUSES = list(range(0x14)) + [0x77, 0x80, 0xFF]


def recorded():
    """The message 2 that a controller sent to a console whose user it did not know: the last datagram without its two headers."""
    path = os.path.join(os.path.dirname(os.path.abspath(__file__)), "captures", "ipmitool_c3_unknown_user.txt")
    with open(path, encoding="utf8") as f:
        return bytes.fromhex(f.read().split()[-1])[16:]


def status_readings(d):
    """The shortest messages; every value at 2 and 3, and statuses at 1 and 2 both, in messages of every length that matters (`readings`
    has every value at 1); the recorded message cut at every place."""
    for byte in range(256):
        yield line("rakp2", bytes([0, byte, 0, 0]))
        yield line("rakp2", bytes([0, 0, byte, 0]))
    for place in (2, 3):
        for byte in range(256):
            text = at(whole(d, "rakp2") + d.bytes(80), place, byte)
            for n in (2, 3, 4, 8, 39, 40, 60):
                yield line("rakp2", text[:n])
    for one in STATUSES:
        for other in STATUSES:
            text = at(whole(d, "rakp2") + d.bytes(80), 1, one, other)
            for n in (3, 4, 39, 60):
                yield line("rakp2", text[:n])
    text = recorded()
    for n in range(len(text) + 1):
        yield line("rakp2", text[:n])


def status_steps(d):
    """Statuses at 1 and 2 both in an exchange; what is left of the record, after too little room and after the status."""
    for one in STATUSES:
        for other in STATUSES:
            e = good(d)
            spoilt = {**e, "m2": at(e["m2"], 1, one, other)}
            c = calls(e)
            yield steps(spoilt)
            yield script(c["begin"], c["open"], calls(spoilt, m2room=27)["m2"], calls(spoilt, m2room=28)["m2"], c["m2"], c["m4"])


FAMILIES = [("status-readings", status_readings), ("status-steps", status_steps)]
