"""AES-128 (FIPS 197) and CBC (SP 800-38A), small and for tests only. The substitution table is computed from FIPS 197's rule,
and no step is shared with the code under test. If the package `cryptography` is here, it does the work in bulk."""


def double(a):
    return (a << 1) ^ 0x11B if a & 0x80 else a << 1


def product(a, b):
    r = 0
    while b:
        if b & 1:
            r ^= a
        a, b = double(a), b >> 1
    return r


def substitution(a):
    inverse = next((x for x in range(256) if product(a, x) == 1), 0)
    r = 0x63
    for turn in range(5):
        r ^= (inverse << turn | inverse >> (8 - turn)) & 0xFF
    return r


SUB = bytes(substitution(a) for a in range(256))
INV = bytes(SUB.index(a) for a in range(256))
TIMES = {k: bytes(product(a, k) for a in range(256)) for k in (2, 3, 9, 11, 13, 14)}
ROWS = [(5 * i) % 16 for i in range(16)]          # where ShiftRows takes byte i from
BACK = [ROWS.index(i) for i in range(16)]


def expand(key):
    words, rcon = [key[i:i + 4] for i in range(0, 16, 4)], 1
    for i in range(4, 44):
        w = words[-1]
        if i % 4 == 0:
            w = bytes(SUB[b] for b in w[1:] + w[:1])
            w, rcon = bytes([w[0] ^ rcon]) + w[1:], double(rcon)
        words.append(bytes(a ^ b for a, b in zip(words[-4], w)))
    return [b"".join(words[i:i + 4]) for i in range(0, 44, 4)]


def xor(a, b):
    return bytes(x ^ y for x, y in zip(a, b))


def mix(s, k1, k2, k3, k4):
    out = bytearray()
    for c in range(0, 16, 4):
        a = s[c:c + 4]
        for i in range(4):
            w, x, y, z = a[i], a[(i + 1) % 4], a[(i + 2) % 4], a[(i + 3) % 4]
            out.append(by(k1, w) ^ by(k2, x) ^ by(k3, y) ^ by(k4, z))
    return bytes(out)


def by(k, a):
    return a if k == 1 else TIMES[k][a]


def cipher(keys, block):
    s = xor(block, keys[0])
    for turn in range(1, 11):
        s = bytes(SUB[s[i]] for i in ROWS)
        s = xor(mix(s, 2, 3, 1, 1) if turn < 10 else s, keys[turn])
    return s


def inverse_cipher(keys, block):
    s = xor(block, keys[10])
    for turn in range(9, -1, -1):
        s = xor(bytes(INV[s[i]] for i in BACK), keys[turn])
        if turn:
            s = mix(s, 14, 11, 13, 9)
    return s


def own_encrypt(key, iv, data):
    keys, out = expand(key), bytearray()
    for at in range(0, len(data), 16):
        iv = cipher(keys, xor(data[at:at + 16], iv))
        out += iv
    return bytes(out)


def own_decrypt(key, iv, data):
    keys, out = expand(key), bytearray()
    for at in range(0, len(data), 16):
        block = data[at:at + 16]
        out += xor(inverse_cipher(keys, block), iv)
        iv = block
    return bytes(out)


def block_encrypt(key, block):
    return cbc_encrypt(key, bytes(16), block)


def block_decrypt(key, block):
    return cbc_decrypt(key, bytes(16), block)


cbc_encrypt, cbc_decrypt = own_encrypt, own_decrypt
try:
    from cryptography.hazmat.primitives.ciphers import Cipher, algorithms, modes

    def cbc_encrypt(key, iv, data):
        e = Cipher(algorithms.AES(key), modes.CBC(iv)).encryptor()
        return e.update(data) + e.finalize()

    def cbc_decrypt(key, iv, data):
        d = Cipher(algorithms.AES(key), modes.CBC(iv)).decryptor()
        return d.update(data) + d.finalize()

    for n in range(64):                            # the two must agree before the quick one is taken
        k, v, text = bytes([n] * 16), bytes(range(n, n + 16)), bytes((n * i) & 0xFF for i in range(32))
        coded = own_encrypt(k, v, text)
        assert coded == cbc_encrypt(k, v, text) and own_decrypt(k, v, coded) == text == cbc_decrypt(k, v, coded)
except ImportError:
    pass
