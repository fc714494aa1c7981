"""The cases of the comparison, each a line of the protocol: from one seed always the same ones."""
import random

import model

LENGTHS = [0, 1, 2, 15, 16, 17, 31, 32, 33, 34, 35, 36, 41, 42, 43, 44, 45, 47, 48, 49, 50, 51, 52, 63, 64, 65, 98, 99, 106, 107, 108, 115,
           116, 127, 128, 129, 170, 171, 255, 256, 257, 300]
KEY_LENGTHS = [0, 1, 16, 31, 32, 33, 63, 64, 65, 128, 131, 200]


def field(b):
    return b.hex() or "-"


class Cases:
    def __init__(self, seed):
        self.r = random.Random(seed)

    def bytes(self, n):
        return self.r.randbytes(n)

    def parts(self):
        """(what a line has in front, keys, number, type, version)"""
        side, block = self.r.choice("cs"), self.bytes(128)
        number = self.r.choice([0, 1, 2**64 - 1, self.r.getrandbits(64)])
        kind, version = self.r.choice([20, 21, 22, 23, self.r.randrange(256)]), self.r.choice([b"\1\1", self.bytes(2)])
        return f"{side} {block.hex()} {number} {kind:02x} {version.hex()}", (model.half(block, side), number, kind, version)

    def length(self):
        return self.r.choice(LENGTHS) if self.r.random() < 0.7 else self.r.randrange(400)

    def enciphered(self, keys, body):
        iv = self.bytes(16)
        return iv + model.cbc_encrypt(keys[1], iv, body)

    # ---- sealing and opening
    def seal(self, n=None):
        front, _ = self.parts()
        return f"seal {front} {self.bytes(16).hex()} {field(self.bytes(self.length() if n is None else n))}"

    def sealroom(self):
        front, _ = self.parts()
        n = self.length()
        size = 16 * (n // 16 + 4)
        room = self.r.choice([0, size - 1, size, size + 1, size + 40])
        return f"sealroom {room} {front} {self.bytes(16).hex()} {field(self.bytes(n))}"

    def body(self, p, n=None, padlen=None):
        """A good body of n bytes with a padding of padlen + 1 bytes."""
        keys, number, kind, version = p
        n = n or 16 * self.r.randrange(3, 24)
        most = min(255, n - 33)
        padlen = self.r.choice([0, 15, most, self.r.randrange(most + 1)]) if padlen is None else padlen
        return model.body(keys[0], number, kind, version, self.bytes(n - 33 - padlen), padlen)

    def opened(self, front, p, body):
        return f"open {front} {self.enciphered(p[0], body).hex()}"

    def good(self, n=None, padlen=None):
        front, p = self.parts()
        return self.opened(front, p, self.body(p, n, padlen))

    def wrong_mac(self, bit=None):
        """One bit of the MAC flipped before enciphering."""
        front, p = self.parts()
        body = bytearray(self.body(p))
        bit = self.r.randrange(256) if bit is None else bit
        body[len(body) - body[-1] - 33 + bit // 8] ^= 1 << bit % 8
        return self.opened(front, p, bytes(body))

    def wrong_padding(self):
        """One byte of the padding another one, or a last byte about n - 32."""
        front, p = self.parts()
        body = bytearray(self.body(p))
        how = self.r.randrange(3)
        if how == 0:
            body[len(body) - 1 - self.r.randrange(body[-1] + 1)] ^= self.r.randrange(1, 256)
        elif how == 1:
            last = min(255, len(body) - 32 + self.r.randrange(-2, 2))
            body[len(body) - min(last + 1, len(body)) :] = bytes([last]) * min(last + 1, len(body))
        else:
            body[-1] = self.r.randrange(256)
        return self.opened(front, p, bytes(body))

    def damaged(self):
        """A good record with a bit flipped anywhere, or cut, or with bytes behind it."""
        line = self.good()
        front, record = line.rsplit(" ", 1)
        record = bytearray.fromhex(record)
        how = self.r.randrange(4)
        if how < 2:
            record[self.r.randrange(len(record))] ^= 1 << self.r.randrange(8)
        elif how == 2:
            del record[self.r.randrange(len(record)) :]
        else:
            record += self.bytes(self.r.randrange(1, 33))
        return f"{front} {field(bytes(record))}"

    def rubbish(self):
        front, _ = self.parts()
        return f"open {front} {field(self.bytes(self.r.choice([0, 15, 16, 48, 63, 64, 65, 79, 80, 96, 112])))}"

    def openroom(self):
        line = self.r.choice([self.good, self.wrong_mac, self.wrong_padding, self.damaged])()
        n = max(0, len(line.rsplit(" ", 1)[1]) // 2 - 16)
        return line.replace("open ", f"openroom {self.r.choice([0, max(0, n - 1), n, n + 1, n + 33])} ", 1)

    # ---- the rest
    def sm3(self):
        return f"sm3 {field(self.bytes(self.length()))}"

    def chunks(self, most=5):
        return " ".join(field(self.bytes(self.r.choice([0, 1, 55, 56, 63, 64, 65, self.length()]))) for _ in range(self.r.randint(1, most)))

    def hmac(self):
        return f"hmac {field(self.bytes(self.r.choice(KEY_LENGTHS)))} {field(self.bytes(self.length()))}"

    def hmacparts(self):
        """Up to three chunks, which is what the port takes."""
        return f"hmacparts {field(self.bytes(self.r.choice(KEY_LENGTHS)))} {self.chunks(3)}"

    def block(self):
        return f"{self.r.choice(['enc', 'dec'])} {self.bytes(16).hex()} {self.bytes(16).hex()}"

    def derivation(self):
        secret, first, second = self.bytes(48).hex(), self.bytes(32).hex(), self.bytes(32).hex()
        return self.r.choice([
            f"master {secret} {first} {second}",
            f"keyblock {secret} {first} {second} {self.r.choice([0, 1, 31, 32, 33, 64, 128, self.r.randrange(1025), 1024])}",
            f"finished {secret} {self.r.choice('cs')} {first}"])

    def any(self):
        return self.r.choices(
            [self.seal, self.sealroom, self.good, self.wrong_mac, self.wrong_padding, self.damaged, self.rubbish, self.openroom, self.sm3,
             lambda: "sm3parts " + self.chunks(), lambda: "sm3state " + self.chunks(), self.hmac, self.hmacparts, self.block,
             self.derivation],
            [3, 2, 3, 3, 4, 4, 1, 3, 8, 6, 6, 10, 6, 30, 6])[0]()

    # ---- what is tried once, whatever the seed
    def edges(self):
        for n in [*range(0, 131), 255, 256, 257, 16383, 16384, 16385]:
            yield self.seal(n)
        for padlen in range(256):
            for n in {16 * ((padlen + 33 + 15) // 16), 48 if padlen < 16 else 304, 304}:
                yield self.good(max(n, 48), padlen)
        for bit in range(256):
            yield self.wrong_mac(bit)
        for text in range(16383, 16400):
            yield self.good(16432, 16432 - 33 - text)
        for size in 0, 15, 16, 17, 63, 64, 65, 79, 80, 16447, 16448, 16449, 16464:
            front, _ = self.parts()
            yield f"open {front} {field(self.bytes(size))}"
        for n in range(0, 300):
            yield f"sm3 {field(self.bytes(n))}"
        for k in range(0, 200):
            yield f"hmac {field(self.bytes(k))} {field(self.bytes(50))}"
        for k in range(60, 70):
            for first in 0, 1, 55, 64:
                yield f"hmacparts {field(self.bytes(k))} {field(self.bytes(first))} {field(self.bytes(64 - first))} {field(self.bytes(k - 60))}"
        for p in range(48, 81, 16):
            for last in range(256):
                front, keys = self.parts()
                yield self.opened(front, keys, self.bytes(p - 1) + bytes([last]))

    def short_messages(self):
        """Every message of up to two bytes, and every key and message of one byte."""
        yield "sm3 -"
        for x in range(256):
            yield f"sm3 {x:02x}"
        for x in range(65536):
            yield f"sm3 {x:04x}"
        for x in range(65536):
            yield f"hmac {x // 256:02x} {x % 256:02x}"
