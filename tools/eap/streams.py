"""The random bytes of a run: ChaCha20's stream under its key, as docs/keys.md shares it out."""
import struct

from .ciphers import chacha20

SESSIONS_STREAM, NAMES_STREAM, SIM_STREAM = 2**32, 2**40, 2**42


def sixteen_of(key, stream, word):
    """16 bytes of a stream from a word of 4 bytes on."""
    block, word = divmod(word, 16)
    return chacha20(key, struct.pack("<QQ", block, stream))[4 * word:4 * word + 16]


def rand_of(key, place, number):
    """RAND of a number of the subscriber at a place."""
    return sixteen_of(key, place, 4 * number)


def nonce_of_sim(key, place, number):
    """NONCE_MT of the session of EAP-SIM that begins with a number of the subscriber at a place."""
    return sixteen_of(key, SIM_STREAM + place, 4 * number)


class Draws:
    """The sixteen bytes at every second index of a session: the even ones for a server, the odd ones for a
    peer."""

    def __init__(self, key, session, index):
        self.key, self.stream, self.index = key, SESSIONS_STREAM + session, index

    def next(self):
        self.index += 2
        return sixteen_of(self.key, self.stream, 4 * (self.index - 2))
