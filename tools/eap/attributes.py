"""The attributes of EAP-AKA and EAP-AKA' (RFC 4187 §10, RFC 9048 §3) and of EAP-SIM (RFC 4186 §10): their types, one walk through
them, and how their values are written and read. It needs no library."""

AT_RAND, AT_AUTN, AT_RES, AT_AUTS, AT_PADDING, AT_NONCE_MT = 1, 2, 3, 4, 6, 7
AT_PERMANENT_ID_REQ, AT_MAC, AT_NOTIFICATION, AT_ANY_ID_REQ, AT_IDENTITY = 10, 11, 12, 13, 14
AT_VERSION_LIST, AT_SELECTED_VERSION = 15, 16
AT_FULLAUTH_ID_REQ, AT_COUNTER, AT_COUNTER_TOO_SMALL, AT_NONCE_S, AT_CLIENT_ERROR_CODE = 17, 19, 20, 21, 22
AT_KDF_INPUT, AT_KDF = 23, 24
AT_IV, AT_ENCR_DATA, AT_NEXT_PSEUDONYM, AT_NEXT_REAUTH_ID, AT_CHECKCODE = 129, 130, 132, 133, 134
AT_RESULT_IND, AT_BIDDING = 135, 136
NAMES = {kind: name for name, kind in globals().items() if name.startswith("AT_")}
# By which of them a server asks for an identity.
ID_REQUESTS = AT_PERMANENT_ID_REQ, AT_ANY_ID_REQ, AT_FULLAUTH_ID_REQ
# The sizes of the values with a fixed size, and the others' allowed sizes.
SIZES = {**dict.fromkeys((AT_RAND, AT_AUTN, AT_MAC, AT_NONCE_S, AT_IV), {18}),
         **dict.fromkeys((*ID_REQUESTS, AT_NOTIFICATION, AT_COUNTER, AT_COUNTER_TOO_SMALL), {2}),
         **dict.fromkeys((AT_CLIENT_ERROR_CODE, AT_KDF, AT_RESULT_IND, AT_BIDDING), {2}),
         AT_AUTS: {14}, AT_PADDING: {2, 6, 10}, AT_CHECKCODE: {2, 22, 34}}
TEXTS = AT_IDENTITY, AT_KDF_INPUT, AT_NEXT_PSEUDONYM, AT_NEXT_REAUTH_ID
KNOWN = {*SIZES, AT_RES, AT_ENCR_DATA, *TEXTS}
# The same of EAP-SIM, whose AT_RAND has two or three challenges. Each is there at most once.
SIM_SIZES = {AT_RAND: {34, 50}, **dict.fromkeys((AT_NONCE_MT, AT_MAC), {18}),
             **dict.fromkeys((*ID_REQUESTS, AT_SELECTED_VERSION, AT_CLIENT_ERROR_CODE), {2})}
SIM_TEXTS = AT_IDENTITY, AT_VERSION_LIST


class Fault(Exception):
    """Bytes that are no packet, or no attributes that a message may have."""


# ---- walking

def places_in(data, start=0):
    """The type, the first byte of the value, and the end of each attribute from a byte on. What fills no
    attribute comes last, from its first byte, and has no type."""
    while start < len(data):
        size = 4 * data[start + 1] if start + 1 < len(data) else 0
        if not 0 < size <= len(data) - start:
            yield None, start, len(data)
            return
        yield data[start], start + 2, start + size
        start += size


def values_in(data):
    """The values by their types; none if the attributes don't fill the bytes."""
    places = list(places_in(data))
    is_whole = all(kind is not None for kind, _, _ in places)
    return {kind: data[start:end] for kind, start, end in places} if is_whole else {}


# ---- writing

def attr(kind, value):
    assert (len(value) + 2) % 4 == 0
    return bytes([kind, (len(value) + 2) // 4]) + value


def text_attr(kind, text):
    return attr(kind, len(text).to_bytes(2, "big") + text + bytes(-len(text) % 4))


def sixteen(kind, value):
    return attr(kind, b"\0\0" + value)


def number_attr(kind, number):
    return attr(kind, number.to_bytes(2, "big"))


def res_attr(res):
    return attr(AT_RES, (8 * len(res)).to_bytes(2, "big") + res + bytes(-len(res) % 4))


# ---- reading

def number_in(value):
    return int.from_bytes(value[:2], "big")


def text_in(value):
    """The text in the value of an attribute: its length in two bytes stands before it."""
    return value[2:2 + number_in(value)]


def sized(kind, value):
    """AT_RES or a text without its length, which has to leave less than a unit of the value."""
    size, rest = (number_in(value), 0) if kind in TEXTS else divmod(number_in(value), 8)
    if rest or -size % 4 + size != len(value) - 2 or kind == AT_RES and not 4 <= size <= 16:
        raise Fault
    return value[2:2 + size]


def read(data):
    """The values by type, of AT_KDF the first. A type from 128 on that isn't known is left out."""
    found = {}
    for kind, start, end in places_in(data):
        value = data[start:end]
        if kind is None or kind < 128 and kind not in KNOWN or kind in found and kind != AT_KDF:
            raise Fault
        if kind in SIZES and len(value) not in SIZES[kind] or kind == AT_PADDING and any(value):
            raise Fault
        if kind in KNOWN:
            found.setdefault(kind, sized(kind, value) if kind in (AT_RES, *TEXTS) else value)
    return found


def read_sim(data):
    """The values by type of a message of EAP-SIM. A type from 128 on is left out."""
    found = {}
    for kind, start, end in places_in(data):
        value = data[start:end]
        if kind is None or kind < 128 and kind not in (*SIM_SIZES, *SIM_TEXTS) or kind in found:
            raise Fault
        if kind in SIM_SIZES and len(value) not in SIM_SIZES[kind]:
            raise Fault
        if kind in SIM_TEXTS:
            value = counted(value)
        if kind == AT_VERSION_LIST and (not value or len(value) % 2):
            raise Fault
        if kind < 128:
            found[kind] = value
    return found


def counted(value):
    """The bytes behind their number in two bytes, which leave less than a unit of the value."""
    size = number_in(value)
    if size > 1016 or -size % 4 + size != len(value) - 2:
        raise Fault
    return value[2:2 + size]
