"""RADIUS that carries EAP (RFC 2865, RFC 3579), and the keys that it tells (RFC 2548 §2.4), for tools/foreign.

A `Radius` has the secret that both ends share. Packets are checked before anything is taken from them.
"""
import hashlib
import hmac
import os

REQUEST, ACCEPT, REJECT, CHALLENGE = 1, 2, 3, 11
CODES = {REQUEST: "Access-Request", ACCEPT: "Access-Accept", REJECT: "Access-Reject", CHALLENGE: "Access-Challenge"}
USER_NAME, FRAMED_MTU, STATE, VENDOR, NAS_IDENTIFIER, EAP_MESSAGE, AUTHENTICATOR = 1, 12, 24, 26, 32, 79, 80
# The vendor, and its two attributes: the first 32 bytes of MSK are the one that is received with.
MICROSOFT, RECEIVE_KEY, SEND_KEY = (311).to_bytes(4, "big"), 17, 16
LONGEST, LONGEST_VALUE = 4096, 253


class Fault(Exception):
    """Why bytes aren't the packet that is wanted."""


def md5(data):
    return hashlib.md5(data).digest()


def attr(kind, value):
    assert len(value) <= LONGEST_VALUE
    return bytes([kind, len(value) + 2]) + value


def whole(data):
    """The packet in some bytes, of which those behind its length are padding (RFC 2865 §3)."""
    size = int.from_bytes(data[2:4], "big")
    if len(data) < 20 or not 20 <= size <= min(len(data), LONGEST):
        raise Fault("its length is wrong")
    data, at = data[:size], 20
    while at < size:
        if size - at < 2 or not 2 <= data[at + 1] <= size - at:
            raise Fault(f"the attribute at byte {at} has a wrong length")
        at += data[at + 1]
    return data


def places(data, kind):
    """The first byte and the end of the value of each attribute of a kind, in a packet that is whole."""
    at = 20
    while at < len(data):
        if data[at] == kind:
            yield at + 2, at + data[at + 1]
        at += data[at + 1]


def values(data, kind):
    return [data[start:end] for start, end in places(data, kind)]


def eap_in(data):
    return b"".join(values(data, EAP_MESSAGE))


class Radius:
    def __init__(self, secret):
        self.secret = secret

    # ---- what is sent

    def packet(self, code, identifier, authenticator, eap, attrs=b""):
        """A packet with its Message-Authenticator. The authenticator is the request's, also of an answer."""
        pieces = [eap[at:at + LONGEST_VALUE] for at in range(0, len(eap), LONGEST_VALUE)]
        attrs += b"".join(attr(EAP_MESSAGE, it) for it in pieces) + attr(AUTHENTICATOR, bytes(16))
        head = bytes([code, identifier]) + (20 + len(attrs)).to_bytes(2, "big")
        attrs = attrs[:-16] + self.sum(head + authenticator + attrs)
        return head + (authenticator if code == REQUEST else self.answers(head, authenticator, attrs)) + attrs

    def request(self, identifier, name, eap, states):
        """An Access-Request, with the State of the last answer."""
        attrs = attr(USER_NAME, name[:LONGEST_VALUE]) + attr(NAS_IDENTIFIER, b"auc") + attr(FRAMED_MTU, (1400).to_bytes(4, "big"))
        return self.packet(REQUEST, identifier, os.urandom(16), eap, attrs + b"".join(attr(STATE, it) for it in states))

    def answer(self, code, asked, eap, msk=None, state=None):
        """What answers a request, with the keys and the State if there are some."""
        attrs = (self.keys_of(msk, asked[4:20]) if msk else b"") + (attr(STATE, state) if state else b"")
        return self.packet(code, asked[1], asked[4:20], eap, attrs)

    # ---- what is received

    def sum(self, data):
        """Message-Authenticator of a packet that has zeros in its place (RFC 3579 §3.2)."""
        return hmac.digest(self.secret, data, "md5")

    def answers(self, head, authenticator, attrs):
        """The Response Authenticator (RFC 2865 §3)."""
        return md5(head + authenticator + attrs + self.secret)

    def check_sum(self, data, authenticator):
        """Refuses a packet whose Message-Authenticator isn't there or isn't right."""
        found = list(places(data, AUTHENTICATOR))
        if len(found) != 1:
            raise Fault("it has no Message-Authenticator" if not found else "it has two Message-Authenticators")
        (start, end), = found
        zeroed = data[:4] + authenticator + data[20:start] + bytes(end - start) + data[end:]
        if not hmac.compare_digest(self.sum(zeroed), data[start:end]):
            raise Fault("its Message-Authenticator is wrong: compare the secrets")

    def read_request(self, data):
        """An Access-Request that carries EAP."""
        data = whole(data)
        if data[0] != REQUEST:
            raise Fault(f"it is no Access-Request: its code is {data[0]}")
        if not values(data, EAP_MESSAGE):
            raise Fault("it has no EAP-Message")
        self.check_sum(data, data[4:20])
        return data

    def read_answer(self, data, asked):
        """What answers a request."""
        data = whole(data)
        if data[1] != asked[1]:
            raise Fault("it answers another request")
        if data[0] not in (ACCEPT, REJECT, CHALLENGE):
            raise Fault(f"its code is {data[0]}")
        if self.answers(data[:4], asked[4:20], data[20:]) != data[4:20]:
            raise Fault("its Response Authenticator is wrong: compare the secrets")
        # RFC 3579 §3.2 demands it with an EAP-Message.
        if values(data, EAP_MESSAGE):
            self.check_sum(data, asked[4:20])
        return data

    # ---- the keys

    def masked(self, text, before, reads):
        """The text of a key behind the authenticator and the salt, read or written."""
        out = b""
        for at in range(0, len(text), 16):
            block = bytes(a ^ b for a, b in zip(text[at:at + 16], md5(self.secret + before)))
            before = text[at:at + 16] if reads else block
            out += block
        return out

    def keys_of(self, msk, authenticator):
        attrs = b""
        for kind, key in ((RECEIVE_KEY, msk[:32]), (SEND_KEY, msk[32:])):
            salt = bytes([0x80 | os.urandom(1)[0], kind])
            text = bytes([len(key)]) + key + bytes(-(len(key) + 1) % 16)
            hidden = salt + self.masked(text, authenticator + salt, reads=False)
            attrs += attr(VENDOR, MICROSOFT + attr(kind, hidden))
        return attrs

    def msk_in(self, answered, asked):
        """MSK that an answer tells; nothing if it tells none, or not the whole of it."""
        found = {}
        for value in values(answered, VENDOR):
            if value[:4] == MICROSOFT and len(value) >= 24 and value[4] in (RECEIVE_KEY, SEND_KEY) and len(value) % 16 == 8:
                text = self.masked(value[8:], asked[4:20] + value[6:8], reads=True)
                found[value[4]] = text[1:1 + text[0]]
        msk = found.get(RECEIVE_KEY, b"") + found.get(SEND_KEY, b"")
        return msk if len(msk) == 64 else None
