"""A model of the record layer and of an opening's steps, written from the scope's rules over OpenSSL's SM4 and Python's SM3 and
HMAC: the second independent program. The compression function is written from GB/T 32905, since the steps show the words."""
import ctypes
import ctypes.util
import hashlib
import hmac as python_hmac

DONE, TOO_LONG, NO_ROOM, SHORT, RAGGED, TOO_BIG, BAD_RECORD, BAD_STATE, ENDED, WRONG_SIZE = range(10)
MAX_PLAINTEXT, MAX_BODY = 16384, 16432

# ---- SM4, by OpenSSL, block by block
_crypto = ctypes.CDLL(ctypes.util.find_library("crypto"))
for _name in "EVP_CIPHER_CTX_new", "EVP_sm4_ecb":
    getattr(_crypto, _name).restype = ctypes.c_void_p


def _sm4(key, data, encrypt):
    ctx = ctypes.c_void_p(_crypto.EVP_CIPHER_CTX_new())
    out, n = ctypes.create_string_buffer(len(data) + 32), ctypes.c_int(0)
    ok = _crypto.EVP_CipherInit_ex(ctx, ctypes.c_void_p(_crypto.EVP_sm4_ecb()), None, key, None, encrypt)
    _crypto.EVP_CIPHER_CTX_set_padding(ctx, 0)
    ok = ok == 1 and _crypto.EVP_CipherUpdate(ctx, out, ctypes.byref(n), data, len(data)) == 1
    _crypto.EVP_CIPHER_CTX_free(ctx)
    if not ok or n.value != len(data):
        raise SystemExit("model: OpenSSL's SM4 does not work here")
    return out.raw[: len(data)]


def enc(key, block):
    return _sm4(key, block, 1)


def dec(key, block):
    return _sm4(key, block, 0)


def xor(a, b):
    return bytes(x ^ y for x, y in zip(a, b))


def cbc_encrypt(key, iv, body):
    out = [iv]
    for at in range(0, len(body), 16):
        out.append(enc(key, xor(out[-1], body[at : at + 16])))
    return b"".join(out[1:])


# ---- SM3, by Python; its compression function from the standard
def sm3(message):
    return hashlib.new("sm3", message).digest()


def hmac(key, message):
    return python_hmac.new(key, message, lambda *a: hashlib.new("sm3", *a)).digest()


IV = (0x7380166F, 0x4914B2B9, 0x172442D7, 0xDA8A0600, 0xA96F30BC, 0x163138AA, 0xE38DEE4D, 0xB0FB0E4E)
M32 = 0xFFFFFFFF


def rol(x, n):
    n %= 32
    return (x << n | x >> (32 - n)) & M32


def compress(v, block):
    w = [int.from_bytes(block[4 * i : 4 * i + 4], "big") for i in range(16)]
    for j in range(16, 68):
        x = w[j - 16] ^ w[j - 9] ^ rol(w[j - 3], 15)
        w.append(x ^ rol(x, 15) ^ rol(x, 23) ^ rol(w[j - 13], 7) ^ w[j - 6])
    a, b, c, d, e, f, g, h = v
    for j in range(64):
        ss1 = rol((rol(a, 12) + e + rol(0x79CC4519 if j < 16 else 0x7A879D8A, j)) & M32, 7)
        ff = a ^ b ^ c if j < 16 else a & b | a & c | b & c
        gg = e ^ f ^ g if j < 16 else e & f | ~e & g & M32
        tt1 = (ff + d + (ss1 ^ rol(a, 12)) + (w[j] ^ w[j + 4])) & M32
        tt2 = (gg + h + ss1 + w[j]) & M32
        a, b, c, d, e, f, g, h = tt1, a, rol(b, 9), c, tt2 ^ rol(tt2, 9) ^ rol(tt2, 17), e, rol(f, 19), g
    return tuple(x ^ y for x, y in zip(v, (a, b, c, d, e, f, g, h)))


def bytes_of(words):
    return b"".join(x.to_bytes(4, "big") for x in words)


def ending(length):
    """What is put behind a message of this length: 0x80, zeros, the bit count."""
    return b"\x80" + bytes((55 - length) % 64) + (8 * length % 2**64).to_bytes(8, "big")


def hash_state(chunks):
    """Words, buffer, fill and total after the chunks, the buffer's stale bytes too. A short chunk is laid over the buffer behind
    the fill; one that completes a block fills the buffer, which is compressed, and what then remains behind the last whole
    block is laid over the buffer's front."""
    words, buffer, fill, total = IV, bytes(64), 0, 0
    for chunk in chunks:
        total += len(chunk)
        if fill and fill + len(chunk) >= 64:
            buffer = buffer[:fill] + chunk[: 64 - fill]
            words, chunk, fill = compress(words, buffer), chunk[64 - fill :], 0
        if fill == 0:
            while len(chunk) >= 64:
                words, chunk = compress(words, chunk[:64]), chunk[64:]
        buffer = buffer[:fill] + chunk + buffer[fill + len(chunk) :]
        fill += len(chunk)
    return words, buffer, fill, total % 2**64


# ---- the key schedule, GB/T 38636 section 6.5
def p_sm3(secret, seed, length):
    out, a = b"", seed
    while len(out) < length:
        a = hmac(secret, a)
        out += hmac(secret, a + seed)
    return out[:length]


def master(pre, client, server):
    return p_sm3(pre, b"master secret" + client + server, 48)


def keyblock(secret, client, server, length):
    return p_sm3(secret, b"key expansion" + server + client, length)


def finished(secret, side, digest):
    return p_sm3(secret, (b"client" if side == "c" else b"server") + b" finished" + digest, 12)


def half(block, side):
    return (block[0:32], block[64:80]) if side == "c" else (block[32:64], block[80:96])


# ---- the record, section 6.3
def header(number, kind, version, length):
    return number.to_bytes(8, "big") + bytes([kind]) + version + length.to_bytes(2, "big")


def body(mac_key, number, kind, version, text, padlen):
    """A text, its MAC and a padding of any length."""
    return text + hmac(mac_key, header(number, kind, version, len(text)) + text) + bytes([padlen]) * (padlen + 1)


def seal(keys, number, kind, version, iv, text, out):
    """(answer, length, output afterwards)"""
    if len(text) > MAX_PLAINTEXT:
        return TOO_LONG, 0, out
    size = 16 * (len(text) // 16 + 4)
    if len(out) < size:
        return NO_ROOM, 0, out
    record = iv + cbc_encrypt(keys[1], iv, body(keys[0], number, kind, version, text, 15 - len(text) % 16))
    return DONE, size, record + out[size:]


def size_answer(length):
    if length < 64:
        return SHORT
    if (length - 16) % 16:
        return RAGGED
    return TOO_BIG if length - 16 > MAX_BODY else DONE


def blocks(n):
    return -(-(n - 11) // 64)


def total_steps(n):
    return n // 16 + blocks(n) + 4


def padding(d):
    """(good, length held)"""
    p = d[-1]
    good = p + 1 <= len(d) - 32 and d[-p - 1 :] == bytes([p]) * (p + 1)
    return good, len(d) - 33 - p if good else len(d) - 33


def open_record(keys, number, kind, version, record, out):
    """In one go, not by steps: (answer, length, count, output afterwards)"""
    n = len(record) - 16
    answer = size_answer(len(record)) or (NO_ROOM if len(out) < n else DONE)
    if answer:
        return answer, 0, 0, out
    d = xor(record[:-16], dec(keys[1], record[16:]))
    good, held = padding(d)
    right = hmac(keys[0], header(number, kind, version, held) + d[:held]) == d[held : held + 32]
    if good and right:
        return DONE, held, total_steps(n), d[:held] + bytes(n - held) + out[n:]
    return BAD_RECORD, 0, total_steps(n), bytes(n) + out[n:]


# ---- opening as steps
FIELDS = "words kept mac_key enc_key seq content_type version n total done held pad_ok ended answer".split()


def zero_state():
    return dict(words=(0,) * 8, kept=(0,) * 8, mac_key=bytes(32), enc_key=bytes(16), seq=0, content_type=0, version=bytes(2),
                n=0, total=0, done=0, held=0, pad_ok=False, ended=False, answer=0)


def start(keys, number, kind, version, record_len, room):
    """(state, answer, length, count)"""
    n = record_len - 16
    answer = size_answer(record_len) or (NO_ROOM if room < n else DONE)
    state = zero_state()
    if answer == DONE:
        state.update(mac_key=keys[0], enc_key=keys[1], seq=number, content_type=kind, version=version, n=n, total=total_steps(n))
    return state, answer, 0, 0


def broken(s, record_len, room):
    n = s["n"]
    return (n % 16 != 0 or not 48 <= n <= MAX_BODY or s["total"] != total_steps(n) or not s["ended"] and s["done"] >= s["total"]
            or s["held"] > n - 33 or record_len != n + 16 or room < n)


def step(s, record, out):
    """(state, answer, length, count, output)"""
    if broken(s, len(record), len(out)):
        return s, BAD_STATE, 0, 0, out
    if s["ended"]:
        return s, ENDED, 0, 0, out
    n, k, held = s["n"], s["done"] + 1, s["held"]
    m, b = n // 16, blocks(n)
    t = dict(s, done=k)
    if k <= m:
        block = xor(record[16 * (k - 1) : 16 * k], dec(s["enc_key"], record[16 * k : 16 * (k + 1)]))
        out = out[: 16 * (k - 1)] + block + out[16 * k :]
    elif k == m + 1:
        t["pad_ok"], t["held"] = padding(out[:n])
        t["words"] = compress(IV, xor(s["mac_key"] + bytes(32), b"\x36" * 64))
    elif k <= m + 1 + b:
        message = header(s["seq"], s["content_type"], s["version"], held) + out[:held]
        padded = message + ending(64 + len(message))
        j = k - m - 2
        t["words"] = compress(s["words"], padded[64 * j : 64 * j + 64].ljust(64, b"\0"))
        if len(padded) == 64 * (j + 1):
            t["kept"] = t["words"]
    elif k == m + 2 + b:
        t["words"] = compress(IV, xor(s["mac_key"] + bytes(32), b"\x5c" * 64))
    elif k == m + 3 + b:
        t["words"] = compress(s["words"], bytes_of(s["kept"]) + ending(96))
    else:
        good = s["pad_ok"] and out[held : held + 32] == bytes_of(s["words"])
        answer, length = (DONE, held) if good else (BAD_RECORD, 0)
        t = dict(zero_state(), n=n, total=s["total"], ended=True, answer=answer)
        return t, answer, length, s["total"], out[:length] + bytes(n - length) + out[n:]
    return t, DONE, 0, k, out


def shown(s):
    """Every field of a state in one line."""
    hexes = [bytes_of(s["words"]), bytes_of(s["kept"]), s["mac_key"], s["enc_key"]]
    rest = [s["seq"], s["content_type"], s["version"].hex(), s["n"], s["total"], s["done"], s["held"], int(s["pad_ok"]), int(s["ended"]), s["answer"]]
    return " ".join([h.hex() for h in hexes] + [str(x) for x in rest])
