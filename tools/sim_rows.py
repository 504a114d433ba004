"""The rows of tools/eap_rows.py for both ends of EAP-SIM: each kind of message in each state, and messages with a fault."""
from eap.attributes import attr, number_attr, sixteen, text_attr
from eap.lines import RANDOM_KEY, SIM_DIGIT, Ends
from eap.messages import CLIENT_ERROR, REQUEST, RESPONSE, SIM, SIM_CHALLENGE, START, message, packet, sealed
from eap.session import Subscriber
from eap.sim import VERSION, SimKeys, triplet_of
from eap.streams import nonce_of_sim, rand_of

SUBSCRIBER = Subscriber()
IDENTITY = SIM_DIGIT + SUBSCRIBER.imsi.encode()
NONCE = nonce_of_sim(RANDOM_KEY, 0, 1)
RANDS = [rand_of(RANDOM_KEY, 0, number) for number in (1, 2, 3)]
OTHERS = [bytes([place]) * 16 for place in (1, 2, 3)]
# What stands in a Start, in the order in which it is sent.
ASKED, LISTED = number_attr(10, 0), text_attr(15, VERSION)
TOLD = sixteen(7, NONCE), number_attr(16, 1), text_attr(14, IDENTITY)


def triplets(rands):
    return [triplet_of(SUBSCRIBER.functions(rand)) for rand in rands]


def keys_of(rands, nonce=NONCE, versions=VERSION):
    return SimKeys(IDENTITY, triplets(rands), nonce, versions)


def request(identifier, subtype, attrs=b"", kind=SIM):
    return message(kind, REQUEST, identifier, subtype, attrs)


def response(identifier, subtype, attrs=b"", kind=SIM):
    return message(kind, RESPONSE, identifier, subtype, attrs)


def challenge(rands, identifier=2, nonce=NONCE, versions=VERSION, more=b"", given=None):
    """A Challenge under the keys of its RANDs and this nonce."""
    attrs = sixteen(1, b"".join(rands)) + more
    return sealed(SIM, keys_of(rands, nonce, versions).aut, REQUEST, identifier, SIM_CHALLENGE, attrs, NONCE if given is None else given)


def answer(rands, identifier=2, nonce=NONCE, more=b"", turned=1):
    """The response to a Challenge, with the SRES values in their order or in another one."""
    values = b"".join(sres for sres, _ in triplets(rands)[::turned])
    return sealed(SIM, keys_of(rands, nonce).aut, RESPONSE, identifier, SIM_CHALLENGE, more, values)


def client_error(code, identifier):
    return response(identifier, CLIENT_ERROR, number_attr(22, code))


def parts(size):
    """All fronts of the three attributes of a Start response, and each with one left out."""
    return [b"".join(it for place, it in enumerate(TOLD) if place != left) for left in range(size)]


def faulty(make, good):
    """Messages with a fault: in the packet, then in an attribute; `make` gives a message of the direction that the end takes."""
    whole = make(good)
    yield from (b"", whole[:3], whole[:7], bytes([5]) + whole[1:], bytes([0]) + whole[1:])
    yield from (whole[:-1], whole[:4], whole[:2] + (7).to_bytes(2, "big") + whole[4:], whole + b"\1\2\3")
    yield from (packet(whole[0], whole[1], bytes([kind]) + whole[5:]) for kind in (1, 3, 23, 50))
    yield from (whole[:5] + bytes([subtype]) + whole[6:] for subtype in (0, 1, 9, 12, 15))
    wrong = (bytes([10, 0]), bytes([10, 2, 0, 0]), bytes([10]), attr(10, bytes(6)), number_attr(2, 0), number_attr(13, 0) * 2,
             number_attr(9, 0), number_attr(12, 0), number_attr(127, 0), sixteen(1, RANDS[0]), sixteen(1, b"".join(RANDS) + RANDS[0]),
             text_attr(15, b""), text_attr(15, b"\0"), text_attr(15, b"\0\1\0"), attr(15, bytes([0, 2, 0, 1, 0, 0, 0, 0, 0, 0])),
             attr(15, bytes([0, 3, 0, 1, 0, 1])), attr(16, bytes(6)), attr(22, bytes(6)), sixteen(7, NONCE + bytes(4)),
             sixteen(11, bytes(12)), attr(14, bytes([0, 9]) + bytes(4)), good + good)
    yield from (make(good + it) for it in wrong)
    passed = (number_attr(128, 0), number_attr(255, 9), sixteen(129, bytes(16)), number_attr(129, 0), number_attr(129, 0) * 2)
    yield from (make(good + it) for it in passed)


SERVER_STARTS = [response(1, START, b"".join(TOLD[::turned]) + more) for turned in (1, -1) for more in (b"", ASKED, number_attr(13, 0))] + [
    response(1, START, it) for it in parts(3)] + [
    response(1, START, TOLD[0] + number_attr(16, version) + TOLD[2]) for version in (0, 2, 257)] + [
    response(1, START, TOLD[0] + TOLD[1] + text_attr(14, b"1somebody")), response(2, START, b"".join(TOLD)),
    request(1, START, b"".join(TOLD)), response(1, CLIENT_ERROR), client_error(1, 2)] + [client_error(it, 1) for it in (0, 1, 3, 65535)] + [
    answer(RANDS, 1), packet(3, 1), packet(4, 1)]
ANSWERS = [answer(RANDS), answer(RANDS, turned=-1), answer(RANDS[:2]), answer(OTHERS), answer(RANDS, nonce=bytes(16)),
           answer(RANDS, more=number_attr(200, 0)), answer(RANDS, 1), response(2, SIM_CHALLENGE), response(2, SIM_CHALLENGE, sixteen(11, bytes(16))),
           response(2, START, b"".join(TOLD)), response(1, START, b"".join(TOLD)), client_error(0, 2), client_error(3, 2), client_error(1, 1),
           request(2, SIM_CHALLENGE, sixteen(11, bytes(16))), packet(3, 2), packet(4, 2)]
PEER_STARTS = [request(identifier, START, more + LISTED) for identifier in (1, 0, 255) for more in (b"", ASKED, number_attr(13, 0), number_attr(17, 0))] + [
    request(1, START, ASKED), request(1, START)] + [
    request(1, START, ASKED + text_attr(15, it)) for it in (b"\0\0", b"\0\2", b"\1\0", b"\0\2\0\1", b"\0\1\0\2\0\3", b"\1\0\0\0", bytes(506) + VERSION)] + [
    response(1, START, LISTED), challenge(RANDS, 1), request(1, CLIENT_ERROR, number_attr(22, 0)), packet(3, 1), packet(4, 1), packet(3, 0)]
CHALLENGES = [challenge(RANDS), challenge(RANDS[:2]), challenge(RANDS[::-1]), challenge(OTHERS, 7), challenge([RANDS[0], RANDS[0]]),
              challenge([RANDS[0], RANDS[1], RANDS[0]]), challenge([RANDS[1], RANDS[0], RANDS[0]]), challenge(RANDS, nonce=bytes(16)),
              challenge(RANDS, given=b""), challenge(RANDS, given=NONCE * 2), challenge(RANDS, versions=b"\0\2\0\1"),
              challenge(RANDS, more=number_attr(200, 0)), request(2, SIM_CHALLENGE, sixteen(1, b"".join(RANDS))),
              request(2, SIM_CHALLENGE, sixteen(11, bytes(16))), request(2, SIM_CHALLENGE, sixteen(11, bytes(16)) + sixteen(1, b"".join(RANDS[:2]))),
              request(2, START, ASKED + LISTED), response(2, SIM_CHALLENGE, sixteen(11, bytes(16))), packet(3, 1), packet(4, 1), packet(4, 2)]
LATE = [request(1, START, ASKED + LISTED), challenge(RANDS), challenge(RANDS[:2], 3), packet(3, 1), packet(4, 1), packet(3, 2), packet(4, 2)]


def rows_of(title, begins, messages):
    """A session for each message: its beginning, the message, and the outcomes after it."""
    for data in messages:
        ends = Ends()
        yield f"# {title}", f"# {title}"
        for line in (*begins, f"bytes {data.hex()}", "bytes 03020004", "bytes 04020004", "bytes 04010004"):
            yield line, ends.tell(line)


def beginning(first, *messages):
    return first, *(f"bytes {it.hex()}" for it in messages)


def rows():
    """Each line and its answer."""
    start, told = request(1, START, ASKED + LISTED), response(1, START, b"".join(TOLD))
    other = request(1, START, ASKED + text_attr(15, b"\0\2\0\1"))
    yield from rows_of("server of EAP-SIM, awaiting a Start", beginning("simserver 0 3"), SERVER_STARTS)
    yield from rows_of("server of EAP-SIM, a Start with a fault", beginning("simserver 0 3"),
                       faulty(lambda attrs: response(1, START, attrs), b"".join(TOLD)))
    yield from rows_of("server of EAP-SIM, awaiting an answer", beginning("simserver 0 3", told), ANSWERS)
    yield from rows_of("server of EAP-SIM with two triplets", beginning("simserver 0 2", told), [answer(RANDS[:2]), answer(RANDS)])
    yield from rows_of("server of EAP-SIM, ended", beginning("simserver 0 3", told, answer(RANDS)), [answer(RANDS), told, b""])
    yield from rows_of("server of EAP-SIM, the next session", beginning("simserver 0 3", told) + ("next",), [told, answer(RANDS)])
    yield from rows_of("peer of EAP-SIM, awaiting a Start", beginning("simpeer 1"), PEER_STARTS)
    yield from rows_of("peer of EAP-SIM, a Start with a fault", beginning("simpeer 1"),
                       faulty(lambda attrs: request(1, START, attrs), ASKED + LISTED))
    yield from rows_of("peer of EAP-SIM, awaiting a Challenge", beginning("simpeer 1", start), CHALLENGES + LATE[:1])
    yield from rows_of("peer of EAP-SIM that was offered two versions", beginning("simpeer 1", other),
                       [challenge(RANDS), challenge(RANDS, versions=b"\0\2\0\1")])
    yield from rows_of("peer of EAP-SIM, answered", beginning("simpeer 1", start, challenge(RANDS)), LATE)
    yield from rows_of("peer of EAP-SIM, refusing", beginning("simpeer 1", start, challenge(RANDS, given=b"")), LATE + [challenge(RANDS, given=b"")])
    yield from rows_of("peer of EAP-SIM, without its version", beginning("simpeer 1", request(1, START, text_attr(15, b"\0\2"))), LATE)
    yield from rows_of("peer of EAP-SIM, ended", beginning("simpeer 1", start, challenge(RANDS), packet(3, 2)), LATE)
    yield from rows_of("peer of EAP-SIM, the next session", beginning("simpeer 1", start) + ("next",), [start, challenge(RANDS)])
