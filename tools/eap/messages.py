"""The packets of EAP (RFC 3748), and the messages of EAP-AKA, EAP-AKA' and EAP-SIM in them, written and
read, with what protects them: AT_MAC, AT_ENCR_DATA and AT_CHECKCODE (RFC 4187 §8 to §10, RFC 9048 §3, RFC
4186 §8 to §10). What is encrypted alone needs `cryptography`."""
import hashlib
import hmac

from .attributes import (AT_AUTN, AT_AUTS, AT_CHECKCODE, AT_CLIENT_ERROR_CODE, AT_ENCR_DATA, AT_IDENTITY,
                         AT_IV, AT_KDF, AT_KDF_INPUT, AT_MAC, AT_NOTIFICATION, AT_PADDING, AT_RAND, AT_RES,
                         ID_REQUESTS, Fault, attr, places_in, read, sixteen)
from .ciphers import decrypted, encrypted

REQUEST, RESPONSE, SUCCESS, FAILURE = 1, 2, 3, 4
CODES = {REQUEST: "Request", RESPONSE: "Response", SUCCESS: "Success", FAILURE: "Failure"}
# Types of packets: EAP's own ones, and the methods.
IDENTITY, NAK, SIM, AKA, PRIME = 1, 3, 18, 23, 50
METHODS = {SIM: "SIM", AKA: "AKA", PRIME: "AKA'"}
CHALLENGE, REJECT, SYNC, AKA_IDENTITY, NOTIFICATION, REAUTHENTICATION, CLIENT_ERROR = 1, 2, 4, 5, 12, 13, 14
SUBTYPES = {CHALLENGE: "Challenge", REJECT: "Authentication-Reject", SYNC: "Synchronization-Failure",
            AKA_IDENTITY: "Identity", NOTIFICATION: "Notification", REAUTHENTICATION: "Reauthentication",
            CLIENT_ERROR: "Client-Error"}
# Those of EAP-SIM (RFC 4186 §8.1).
START, SIM_CHALLENGE = 10, 11
SIM_SUBTYPES = {START: "Start", SIM_CHALLENGE: "Challenge", CLIENT_ERROR: "Client-Error"}
# Which attributes below 128 each message may have, by its subtype and whether it is a request; and those of
# EAP-AKA' alone.
MAY = {(CHALLENGE, True): {AT_RAND, AT_AUTN, AT_MAC}, (CHALLENGE, False): {AT_RES, AT_MAC},
       (REJECT, False): set(), (SYNC, False): {AT_AUTS}, (CLIENT_ERROR, False): {AT_CLIENT_ERROR_CODE},
       (AKA_IDENTITY, True): {*ID_REQUESTS}, (AKA_IDENTITY, False): {AT_IDENTITY},
       (NOTIFICATION, True): {AT_NOTIFICATION, AT_MAC}, (NOTIFICATION, False): set(),
       (REAUTHENTICATION, True): {AT_MAC}, (REAUTHENTICATION, False): {AT_MAC}}
PRIME_MAY = {(CHALLENGE, True): {AT_KDF_INPUT, AT_KDF}, (SYNC, False): {AT_KDF}}
# Which attributes each message needs.
NEEDED = {(CHALLENGE, True): (AT_RAND, AT_AUTN, AT_MAC), (CHALLENGE, False): (AT_RES, AT_MAC),
          (SYNC, False): (AT_AUTS,), (CLIENT_ERROR, False): (AT_CLIENT_ERROR_CODE,),
          (AKA_IDENTITY, False): (AT_IDENTITY,), (NOTIFICATION, True): (AT_NOTIFICATION,),
          (REAUTHENTICATION, True): (AT_IV, AT_ENCR_DATA, AT_MAC),
          (REAUTHENTICATION, False): (AT_IV, AT_ENCR_DATA, AT_MAC)}


# ---- packets

def packet(code, identifier, rest=b""):
    return bytes([code, identifier]) + (4 + len(rest)).to_bytes(2, "big") + rest


def message(kind, code, identifier, subtype, attrs=b""):
    return packet(code, identifier, bytes([kind, subtype, 0, 0]) + attrs)


def within(data):
    """The bytes of a packet up to its length; those behind it are padding (RFC 3748 §4.1)."""
    return data[:int.from_bytes(data[2:4], "big")]


class Head:
    """Code, Identifier and what the Length covers; a Fault of bytes that are no packet."""

    def __init__(self, data):
        if len(data) < 4 or data[0] not in CODES:
            raise Fault
        self.code, self.identifier, length = data[0], data[1], int.from_bytes(data[2:4], "big")
        has_type = self.code in (REQUEST, RESPONSE)
        if length > len(data) or length < 4 + has_type or not has_type and length != 4:
            raise Fault
        self.data, self.kind = data[:length], data[4] if has_type else None
        if self.kind in (AKA, PRIME) and length < 8:
            raise Fault


def read_message(head):
    """The subtype and the attributes of a message of EAP-AKA or EAP-AKA' that isn't malformed."""
    form = head.data[5], head.code == REQUEST
    if form[0] not in SUBTYPES:
        raise Fault
    attrs = read(head.data[8:])
    may = MAY.get(form, set()) | (PRIME_MAY.get(form, set()) if head.kind == PRIME else set())
    if any(it < 128 and it not in may for it in attrs):
        raise Fault
    # What belongs into AT_ENCR_DATA, and what another message has, doesn't count from 128 on.
    return form[0], attrs


def lacking(code, subtype, attrs):
    """The attributes that a message needs and doesn't have."""
    return [it for it in NEEDED.get((subtype, code == REQUEST), ()) if it not in attrs]


def name_of_subtype(kind, subtype):
    """What a message of a method is called by its subtype; nothing if the method has none such."""
    return (SIM_SUBTYPES if kind == SIM else SUBTYPES).get(subtype)


# ---- AT_MAC

def hash_of(kind):
    return "sha256" if kind == PRIME else "sha1"


def mac(kind, key, data):
    return hmac.digest(key, data, hash_of(kind))[:16]


def place_of_mac(data):
    """The first byte of the code in AT_MAC, which has to be there."""
    return next(start for kind, start, _ in places_in(data, 8) if kind == AT_MAC) + 2


def right_mac(kind, key, data, extra=b""):
    """The code that a message's AT_MAC has to have, over the message and more bytes."""
    at = place_of_mac(data)
    return mac(kind, key, data[:at] + bytes(16) + data[at + 16:] + extra)


def sealed(kind, key, code, identifier, subtype, attrs, extra=b""):
    """A message with its AT_MAC last, which is over the message and more bytes."""
    front = message(kind, code, identifier, subtype, attrs + sixteen(AT_MAC, bytes(16)))
    return front[:-16] + mac(kind, key, front + extra)


def is_sealed(kind, key, data, extra=b""):
    """Whether AT_MAC is right."""
    at = place_of_mac(data)
    return right_mac(kind, key, data, extra) == data[at:at + 16]


# ---- AT_ENCR_DATA and AT_CHECKCODE

def hidden(key, iv, data):
    """AT_IV and AT_ENCR_DATA of some bytes, which AT_PADDING fills up to whole blocks."""
    fill = -len(data) % 16
    data += attr(AT_PADDING, bytes(fill - 2)) if fill else b""
    return sixteen(AT_IV, iv) + sixteen(AT_ENCR_DATA, encrypted(key, data, iv))


def shown(key, attrs):
    """The encrypted attributes of a message, none if it has none."""
    if AT_ENCR_DATA not in attrs:
        return {}
    data = attrs[AT_ENCR_DATA][2:]
    if AT_IV not in attrs or not data or len(data) % 16:
        raise Fault
    return read(decrypted(key, data, attrs[AT_IV][2:]))


def shown_or_none(key, attrs):
    """The encrypted attributes of a message, none if they can't be read."""
    try:
        return shown(key, attrs)
    except Fault:
        return {}


def checkcode(kind, packets):
    """AT_CHECKCODE over the packets of AKA-Identity rounds."""
    data = b"".join(packets)
    return sixteen(AT_CHECKCODE, hashlib.new(hash_of(kind), data).digest() if data else b"")
