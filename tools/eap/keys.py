"""The keys of EAP-AKA (RFC 4187 §7) and EAP-AKA' (RFC 9048 §3.3), from what Milenage gives. It needs no
library.

A method is told by the type of its packets: 23 is EAP-AKA, and 50 is EAP-AKA'.
"""
import copy
import hashlib
import hmac
import struct


def rotl(x, n):
    return (x << n | x >> 32 - n) & 0xFFFFFFFF


def g(value):
    """The compression of SHA-1 of 20 bytes and 44 zero bytes, from its initial value (FIPS 186-2,
    Appendix 3.3)."""
    w = list(struct.unpack(">16I", value + bytes(44)))
    for t in range(16, 80):
        w.append(rotl(w[t - 3] ^ w[t - 8] ^ w[t - 14] ^ w[t - 16], 1))
    start = 0x67452301, 0xEFCDAB89, 0x98BADCFE, 0x10325476, 0xC3D2E1F0
    a, b, c, d, e = start
    for t in range(80):
        if t < 20:
            f, k = b & c | ~b & d, 0x5A827999
        elif t < 40:
            f, k = b ^ c ^ d, 0x6ED9EBA1
        elif t < 60:
            f, k = b & c | b & d | c & d, 0x8F1BBCDC
        else:
            f, k = b ^ c ^ d, 0xCA62C1D6
        a, b, c, d, e = (rotl(a, 5) + f + e + k + w[t]) & 0xFFFFFFFF, a, rotl(b, 30), c, d
    return b"".join(((x + y) & 0xFFFFFFFF).to_bytes(4, "big") for x, y in zip(start, (a, b, c, d, e)))


def generated(seed):
    """The 160 bytes that a seed of 20 bytes gives (FIPS 186-2 with its first change notice; RFC 4187,
    Appendix A)."""
    key, stream = int.from_bytes(seed, "big"), b""
    for _ in range(8):
        word = g(key.to_bytes(20, "big"))
        key = (1 + key + int.from_bytes(word, "big")) % 2**160
        stream += word
    return stream


def expanded(key, text, size):
    """The first bytes of PRF' (RFC 9048 §3.4)."""
    stream = block = b""
    while len(stream) < size:
        block = hmac.digest(key, block + text + bytes([len(stream) // 32 + 1]), "sha256")
        stream += block
    return stream[:size]


def master_key(identity, ck, ik):
    """MK (RFC 4187 §7)."""
    return hashlib.sha1(identity + ik + ck).digest()


def prime_keys(name, autn, f):
    """CK' and IK' (RFC 9048 §3.3)."""
    message = b"\x20" + name + len(name).to_bytes(2, "big") + autn[:6] + b"\0\6"
    both = hmac.digest(f.ck + f.ik, message, "sha256")
    return both[:16], both[16:]


def renewed(kind, master, identity, counter, nonce):
    """MSK and EMSK of a re-authentication, under MK or K_re (RFC 4187 §7, RFC 9048 §3.3)."""
    given = identity + counter.to_bytes(2, "big") + nonce
    if kind == 23:
        pair = generated(hashlib.sha1(given + master).digest())
    else:
        pair = expanded(master, b"EAP-AKA' re-auth" + given, 128)
    return [pair[:64], pair[64:128]]


class Keys:
    """The keys by the method, whose type this is; the name is the network's."""

    def __init__(self, kind, name, identity, autn, f):
        self.kind = kind
        self.pair = ck, ik = (f.ck, f.ik) if kind == 23 else prime_keys(name, autn, f)
        if kind == 23:
            self.master = master_key(identity, ck, ik)
            stream = generated(self.master)
            stream = stream[:32] + bytes(48) + stream[32:]
        else:
            stream = expanded(ik + ck, b"EAP-AKA'" + identity, 208)
            self.master = stream[48:80]
        self.encr, self.aut = stream[:16], stream[16:32] if kind == 23 else stream[16:48]
        self.words = [stream[:16], stream[16:48], stream[48:80], stream[80:144], stream[144:208]]

    def again(self, identity, counter, nonce):
        """The keys of a re-authentication."""
        keys = copy.copy(self)
        keys.words = [*self.words[:3], *renewed(self.kind, self.master, identity, counter, nonce)]
        return keys

    def text(self):
        return "keys " + " ".join(word.hex() for word in self.words)
