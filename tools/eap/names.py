"""Identities: permanent ones, and the pseudonyms and re-authentication identities that a server gives
(RFC 4187 §4.1, RFC 9048 §5.1). A given name is an encrypted block that tells its kind, its method, its
subscriber and an ordinal."""
from .ciphers import decrypted, encrypted
from .streams import NAMES_STREAM, sixteen_of

# The leading digits of permanent identities, and by the kind of a name those of pseudonyms and
# re-authentication identities.
PERMANENT, PSEUDONYM, RENEWAL = {23: b"0", 50: b"6"}, 1, 2
DIGITS = {PSEUDONYM: {23: b"2", 50: b"7"}, RENEWAL: {23: b"4", 50: b"8"}}
LAST_ORDINAL, LONGEST_KEPT = 2**48 - 1, 255


def username(text):
    return text.partition(b"@")[0]


def with_realm(name, realm):
    return name + (b"@" + realm if realm else b"")


def name_in(inner, kind):
    """What a device keeps of the name in an encrypted attribute, if it is there: its username, of 1 to 255 bytes."""
    name = username(inner.get(kind, b""))
    return name if 1 <= len(name) <= LONGEST_KEPT else None


class Names:
    """The names under the key that a stream of random bytes begins with."""

    def __init__(self, key):
        self.key = sixteen_of(key, NAMES_STREAM, 0)

    def digits(self, kind, place, ordinal, of=PSEUDONYM):
        """What follows the leading digit."""
        block = bytes([of, kind]) + place.to_bytes(4, "big") + ordinal.to_bytes(6, "big") + bytes(4)
        return encrypted(self.key, block).hex().encode()

    def text(self, kind, place, ordinal, of=PSEUDONYM):
        return DIGITS[of][kind] + self.digits(kind, place, ordinal, of)

    def place(self, kind, text, of=PSEUDONYM):
        """The place of the subscriber that an identity names by a method, if it is such a name."""
        try:
            block = bytes.fromhex(username(text)[1:].decode("ascii"))
        except ValueError:
            return None
        if len(block) != 16:
            return None
        plain = decrypted(self.key, block)
        place, ordinal = int.from_bytes(plain[2:6], "big"), int.from_bytes(plain[6:12], "big")
        return place if self.text(kind, place, ordinal, of) == username(text) else None
