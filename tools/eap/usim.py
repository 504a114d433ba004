"""A USIM (TS 33.102 Annex C), sequence numbers, and a vector as a GSM triplet (TS 33.102 §6.8.1.2). It
needs no library."""
from .milenage import xor

# How far above the greatest SEQ that it has accepted a USIM accepts a SEQ; the greatest last number; and how many bits IND has
# if a subscriber doesn't say it.
REACH, MAX_SEQ, BITS = 2**28, 2**43 - 1, 5


def top_of(bits):
    """The last number of a subscriber whose IND has so many bits."""
    return min(MAX_SEQ, 2**(48 - bits) - 1)


def sqn_of(number, bits=BITS):
    """The SQN of a number: SEQ is the number, and IND its remainder (TS 33.102 Annex C.1.1)."""
    return (number << bits | number % 2**bits).to_bytes(6, "big")


def seq_of(sqn, bits=BITS):
    return int.from_bytes(sqn, "big") >> bits


class Usim:
    """A USIM with the index array of TS 33.102 Annex C, by a call that gives the functions of a RAND. It is
    opened at a number: the numbers from 1 to it count as accepted. IND has so many bits; with an age limit it also
    refuses a SEQ that is so far below the greatest one or further (TS 33.102 Annex C.2.2)."""

    def __init__(self, functions, opening, bits=BITS, age=None):
        self.functions, self.bits, self.age, count = functions, bits, age, 2**bits
        self.entries = [max((n for n in range(max(1, opening - count + 1), opening + 1) if n % count == i), default=0)
                        for i in range(count)]

    def verdict(self, seq, ind):
        """Why a number is refused; nothing if it is fresh."""
        greatest = max(self.entries)
        if seq <= self.entries[ind]:
            return "old"
        if seq > greatest + REACH:
            return "far"
        return "aged" if self.age is not None and greatest >= seq + self.age else None

    def challenge(self, rand, autn):
        """The note's words; the functions if it accepts; AUTS if it doesn't synchronise."""
        f = self.functions(rand)
        sqn = f.sqn_of(autn)
        if not f.is_right(autn):
            return "wrongmac", None, None
        seq, ind, greatest = seq_of(sqn, self.bits), int.from_bytes(sqn, "big") % 2**self.bits, max(self.entries)
        if self.verdict(seq, ind):
            sqn_ms = (greatest << self.bits | self.entries.index(greatest)).to_bytes(6, "big")
            return f"sync {sqn_ms.hex()}", None, f.auts(sqn_ms)
        self.entries[ind] = seq
        return f"accepted {sqn.hex()}", f, None


def triplet(res, ck, ik):
    """SRES and Kc, by the conversion functions c2 and c3."""
    kc = xor(xor(ck[:8], ck[8:]), xor(ik[:8], ik[8:]))
    return xor(res[:4], res[4:]), kc
