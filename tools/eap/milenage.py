"""Milenage (TS 35.206 §4.1), and AUTN and AUTS by it (TS 33.102 §6.3.2 and §6.3.3).

`Functions` takes the block cipher as a call, so that a script may bring its own. `Aes` needs no library,
and is for a few blocks: it is slow, and the time that it takes depends on the key.
"""


def xor(a, b):
    assert len(a) == len(b)
    return (int.from_bytes(a, "big") ^ int.from_bytes(b, "big")).to_bytes(len(a), "big")


def turned(block, bits):
    return block[bits // 8:] + block[:bits // 8]


def opc_of(encrypt, op):
    return xor(op, encrypt(op))


class Functions:
    """f1 to f5* of a RAND, under OPc and a call that encrypts a block by K."""

    def __init__(self, encrypt, opc, rand):
        self.encrypt, self.opc = encrypt, opc
        self.temp = encrypt(xor(rand, opc))
        turns = (0, 1), (32, 2), (64, 4), (96, 8)
        out2, out3, out4, out5 = (self.out(turn, number) for turn, number in turns)
        self.res, self.ak = out2[8:], out2[:6]
        self.ck, self.ik, self.ak_star = out3, out4, out5[:6]

    def out(self, turn, number):
        rotated = turned(xor(self.temp, self.opc), turn)
        return xor(self.encrypt(xor(rotated, number.to_bytes(16, "big"))), self.opc)

    def f1(self, sqn, amf):
        """MAC-A and MAC-S."""
        block = (sqn + amf) * 2
        out = xor(self.encrypt(xor(self.temp, turned(xor(block, self.opc), 64))), self.opc)
        return out[:8], out[8:]

    def autn(self, sqn, amf):
        return xor(sqn, self.ak) + amf + self.f1(sqn, amf)[0]

    def sqn_of(self, autn):
        """SQN of an AUTN, whatever its MAC-A."""
        return xor(autn[:6], self.ak)

    def is_right(self, autn):
        """Whether MAC-A of an AUTN is right."""
        return self.f1(self.sqn_of(autn), autn[6:8])[0] == autn[8:]

    def auts(self, sqn):
        """AUTS of a USIM with this SQN_MS."""
        return xor(sqn, self.ak_star) + self.f1(sqn, bytes(2))[1]

    def sqn_in(self, auts):
        """SQN_MS of an AUTS, or nothing if its MAC-S is wrong."""
        sqn = xor(auts[:6], self.ak_star)
        return sqn if self.f1(sqn, bytes(2))[1] == auts[6:] else None


# ---- AES-128 (FIPS 197)

def doubled(byte):
    return (byte << 1) ^ (0x11b if byte & 0x80 else 0)


def substitutions():
    """The S-box: the inverse of each byte, then the affine step (FIPS 197 §5.1.1)."""
    powers = [1]
    while len(powers) < 255:
        powers.append(powers[-1] ^ doubled(powers[-1]))
    inverse = {power: powers[-place % 255] for place, power in enumerate(powers)}
    box = []
    for byte in range(256):
        it = inverse.get(byte, 0)
        folded = it ^ (it << 1) ^ (it << 2) ^ (it << 3) ^ (it << 4)
        box.append((folded ^ (folded >> 8)) & 0xff ^ 0x63)
    return bytes(box)


BOX = substitutions()
# The order in which ShiftRows takes the bytes of a state.
SHIFTED = [(5 * place) % 16 for place in range(16)]


def mixed(column):
    """MixColumns of one column (FIPS 197 §5.1.3)."""
    a, b, c, d = column
    every = a ^ b ^ c ^ d
    return [it ^ every ^ doubled(it ^ after) for it, after in ((a, b), (b, c), (c, d), (d, a))]


class Aes:
    """AES-128 under a key, for encryption alone."""

    def __init__(self, key):
        words = [key[place:place + 4] for place in range(0, 16, 4)]
        constant = 1
        for place in range(4, 44):
            word = words[-1]
            if place % 4 == 0:
                word = (word[1:] + word[:1]).translate(BOX)
                word = bytes([word[0] ^ constant]) + word[1:]
                constant = doubled(constant)
            words.append(xor(words[place - 4], word))
        self.keys = [b"".join(words[place:place + 4]) for place in range(0, 44, 4)]

    def encrypt(self, block):
        state = xor(block, self.keys[0])
        for key in self.keys[1:-1]:
            state = state.translate(BOX)
            shifted = [state[place] for place in SHIFTED]
            state = xor(bytes(sum((mixed(shifted[at:at + 4]) for at in range(0, 16, 4)), [])), key)
        state = state.translate(BOX)
        return xor(bytes(state[place] for place in SHIFTED), self.keys[-1])
