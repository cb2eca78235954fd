#!/usr/bin/env python3
"""Answers the line protocol of `replay` by the rules in tests/rules.py, one case to a line on standard input, one answer to a line
on standard output. It speaks where the Rust has no answer: block counts, rooms, the outer header, wrong steps, limits."""
import hashlib, os, re, sys

sys.path.insert(0, os.path.dirname(os.path.abspath(__file__)))
import aes
from rules import (LIMIT, OUTER, TYPES, Arrivals, Record, Refused, block, hmac, hmac_blocks, message_1, message_2, message_3, message_4,
                   need, read, read_once, request, response, session_keys, sha1_blocks, username, write)

LONGEST_LINE, LARGEST_ROOM = 524288, 70000


class BadLine(Exception):
    pass


# The fields of a line

def check(holds):
    if not holds:
        raise BadLine


def show(b):
    return b.hex() or "-"


HEX, DIGITS = re.compile(r"([0-9a-f]{2})+\Z"), re.compile(r"[0-9]+\Z")


def data(field, length=None):
    b = b"" if field == "-" else bytes.fromhex(field) if HEX.match(field) else check(False)
    check(length is None or len(b) == length)
    return b


def word(field):
    check(len(field) == 8)
    return int.from_bytes(data(field), "big")


def number(field, most, least=0):
    check(DIGITS.match(field) and len(field) < 1000 and least <= int(field) <= most)
    return int(field)


def level(field):
    return None if field == "none" else byte(field)


def byte(field):
    return number(field, 255)


def ident(field):
    """An id as a message has it."""
    return word(field).to_bytes(4, "little")


def kind(field):
    check(byte(field) in TYPES)
    return int(field)


def room(field):
    return number(field, LARGEST_ROOM)


def flag(field):
    return number(field, 1) == 1


def sik_of(field):
    return data(field, 20)


def block16(field):
    return data(field, 16)


def block8(field):
    return data(field, 8)


# The answers

def hashed(n, digest):
    return "ok %s blocks %d" % (digest, sha1_blocks(n)) if n <= LIMIT else "refused 37 blocks 0"


def coded(key, text):
    if len(key) > LIMIT or len(text) > LIMIT:
        return "refused 37 blocks 0"
    return "ok %s blocks %d" % (hmac(key, text).hex(), hmac_blocks(len(key), len(text)))


def steps(kg, level, name, password, own, rm, opened_, m2, m4, lookup=False):
    record, sent = Record(), []
    try:
        sent.append(record.begin(own, level, name, LARGEST_ROOM, lookup))
        sent.append(record.open(LARGEST_ROOM, opened_, rm))
        sent.append(record.m2(LARGEST_ROOM, kg, password, m2))
        record.m4(m4)
        k1, key = session_keys(record.sik)
        end = "ok conf %d integ %d k1 %s aes %s" % (record.conf, record.integ, k1.hex(), key.hex())
    except Refused as r:
        if r.wrote:
            sent.append(r.wrote)
        end = str(r)
    return "sent %s %s" % (",".join(show(m) for m in sent) or "-", end)


def told(answer, whole, before=b""):
    result, blocks = answer
    if isinstance(result, Refused):
        return "%s blocks %d buf same" % (result, blocks)
    type_, ident, seq, payload, after = result
    after = before + after
    return "ok type %d id %08x seq %08x payload %s buf %s blocks %d" % (
        type_, ident, seq, show(payload), "same" if after == whole else show(after), blocks)


def refusals(work):
    try:
        return work()
    except Refused as r:
        return str(r)


def a_read(conf, integ, sik, packet):
    return told(read(conf, integ, sik, packet), packet)


def of_datagram(datagram, reader):
    if len(datagram) < 4:
        return "refused 1 blocks 0 buf same"
    if datagram[:4] != OUTER:
        return "refused 16 blocks 0 buf same"
    return told(reader(datagram[4:]), datagram, OUTER)


def a_datagram(conf, integ, sik, datagram):
    return of_datagram(datagram, lambda packet: read(conf, integ, sik, packet))


def record_of(record):
    return " record %08x %08x" % (record.highest, record.seen)


def counted(record):
    return "%s count %d" % (record_of(record), record.count())


def arrived(record, n):
    try:
        record.take(n)
        return "ok"
    except Refused as r:
        return str(r)


def a_arrive(highest, seen, n):
    record = Arrivals(highest, seen)
    return arrived(record, n) + counted(record)


def a_arrivals(numbers):
    record = Arrivals()
    return "; ".join([arrived(record, n) for n in numbers]) + counted(record)


def a_once(conf, integ, sik, highest, seen, packet):
    record = Arrivals(highest, seen)
    return told(read_once(record, conf, integ, sik, packet), packet) + record_of(record)


def a_once_datagram(conf, integ, sik, highest, seen, datagram):
    record = Arrivals(highest, seen)
    return of_datagram(datagram, lambda packet: read_once(record, conf, integ, sik, packet)) + record_of(record)


def a_pieces(pieces):
    joined = b"".join(pieces)
    return hashed(len(joined), hashlib.sha1(joined).hexdigest())


def a_cbc(way):
    def answer(key, iv, text):
        return "refused 12" if len(text) % 16 else "ok " + show(way(key, iv, text))
    return answer


def a_block(b):
    got, code = block(b)
    return "ok %s %d" % (("auth", "integ", "conf")[got], code)


def lent(room, message):
    need(len(message) <= room, 15)
    return "ok " + message.hex()


def a_rakp1(tag, system, rm, role, name, room):
    return lent(room, message_1(tag, system, rm, role, username(name)))


def ids(*parts):
    return tuple("%08x" % int.from_bytes(p, "little") for p in parts)


def a_opened(b):
    codes = response(b)
    return "ok tag %d level %d console %s system %s auth %d integ %d conf %d" % (b[0], b[2], *ids(b[4:8], b[8:12]), *codes)


def a_rakp2(b):
    rc, guid, code = message_2(b)
    return "ok tag %d console %s random %s guid %s code %s" % (b[0], *ids(b[4:8]), show(rc), show(guid), show(code))


def a_rakp4(b):
    value = message_4(b)
    return "ok tag %d console %s value %s" % (b[0], *ids(b[4:8]), show(value))


def a_zeros(n, m):
    return hashed(n, hashlib.sha1(bytes(n)).hexdigest() if n <= LIMIT else "")


def a_hmac_zeros(n, m):
    return coded(b"\x0b" * 20, bytes(min(n, LIMIT + 1)))


def count(field):
    return number(field, 4294967295)


def piece(field):
    return number(field, 65536, 1)


def codes_to(last):
    return lambda field: number(field, last)


FRAMED = (flag, flag, sik_of, block16, kind, word, word, room, data)
CASES = {
    "sha1": ((data,), lambda b: hashed(len(b), hashlib.sha1(b).hexdigest())),
    "hmac": ((data, data), coded),
    "zeros": ((count, piece), a_zeros),
    "hmac-zeros": ((count, piece), a_hmac_zeros),
    "encrypt": ((block16, block16), lambda key, b: "ok " + aes.block_encrypt(key, b).hex()),
    "decrypt": ((block16, block16), lambda key, b: "ok " + aes.block_decrypt(key, b).hex()),
    "cbc-encrypt": ((block16, block16, data), a_cbc(aes.cbc_encrypt)),
    "cbc-decrypt": ((block16, block16, data), a_cbc(aes.cbc_decrypt)),
    "keys": ((sik_of,), lambda sik: "ok k1 %s aes %s" % tuple(k.hex() for k in session_keys(sik))),
    "block": ((block8,), a_block),
    "open-request": ((byte, level, ident, codes_to(3), codes_to(4), codes_to(3), room),
                     lambda tag, level, own, a, i, c, room: lent(room, request(tag, level, own, (a, i, c)))),
    "rakp1": ((byte, ident, block16, byte, data, room), a_rakp1),
    "rakp3": ((byte, ident, data, room), lambda tag, system, code, room: lent(room, message_3(tag, system, code))),
    "decline": ((byte, ident, room), lambda tag, system, room: lent(room, message_3(tag, system, b"", 0x0F))),
    "opened": ((data,), a_opened),
    "rakp2": ((data,), a_rakp2),
    "rakp4": ((data,), a_rakp4),
    "read": ((flag, flag, sik_of, data), a_read),
    "datagram": ((flag, flag, sik_of, data), a_datagram),
    "arrive": ((word, word, word), a_arrive),
    "once": ((flag, flag, sik_of, word, word, data), a_once),
    "once-datagram": ((flag, flag, sik_of, word, word, data), a_once_datagram),
    "write": (FRAMED, lambda *a: "ok " + write(*a, False).hex()),
    "wrap": (FRAMED, lambda *a: "ok " + write(*a, True).hex()),
    "steps": ((data, level, data, data, word, block16, data, data, data), steps),
}
LISTS = {"pieces": (data, a_pieces), "arrivals": (word, a_arrivals)}
# fields that may stand behind the others
OPTIONAL = {"steps": (flag,), "begin": (flag,)}
CALLS = {
    "begin": (word, level, data, room),
    "open": (room, data, block16),
    "m2": (room, data, data, data),
    "m4": (data,),
}


def taken(name, fields, readers):
    more = OPTIONAL.get(name, ())
    check(len(readers) <= len(fields) <= len(readers + more))
    return [reader(field) for reader, field in zip(readers + more, fields)]


def script(text):
    calls = []
    for call in text.split("; "):
        name, *fields = call.split(" ")
        check(name in CALLS)
        calls.append((name, taken(name, fields, CALLS[name])))
    record, answers = Record(), []
    for name, arguments in calls:
        try:
            answers.append("ok " + show(getattr(record, name)(*arguments)))
        except Refused as r:
            answers.append(str(r) + (" wrote " + r.wrote.hex() if r.wrote else ""))
    return "; ".join(answers)


def answer(line):
    try:
        check(len(line) <= LONGEST_LINE)
        if line.startswith("script "):
            return script(line[7:])
        name, *fields = line.split(" ")
        if name in LISTS:
            check(fields)
            reader, work = LISTS[name]
            return work([reader(field) for field in fields])
        check(name in CASES)
        readers, work = CASES[name]
        arguments = taken(name, fields, readers)
        return refusals(lambda: work(*arguments))
    except BadLine:
        return "bad line"


def main():
    lines = sys.stdin.buffer.read().decode("latin-1").split("\n")
    if lines[-1] == "":
        lines.pop()
    for line in lines:
        sys.stdout.write(answer(line) + "\n")


if __name__ == "__main__":
    main()
