"""Takes the packets of a session apart for tools/report: their fields, what is encrypted in them, and what AT_MAC and the keys
are made from.
"""
from dataclasses import dataclass, field

import transcript
from eap.attributes import (AT_AUTN, AT_AUTS, AT_BIDDING, AT_CHECKCODE, AT_CLIENT_ERROR_CODE, AT_ENCR_DATA,
                            AT_IDENTITY, AT_IV, AT_KDF, AT_KDF_INPUT, AT_MAC, AT_NONCE_MT, AT_NONCE_S, AT_NOTIFICATION,
                            AT_RAND, AT_RES, AT_SELECTED_VERSION, AT_VERSION_LIST, NAMES, number_in, places_in, text_in)
from eap.keys import master_key
from eap.messages import (AKA, CODES, IDENTITY, METHODS, PRIME, REAUTHENTICATION, REQUEST, RESPONSE, SIM, is_sealed,
                          name_of_subtype)
from eap.usim import triplet
from transcript import Change, identity_in, rows_in


def shown_text(data):
    return repr(data.decode(errors="replace"))


def of_autn(value):
    amf = value[8:10]
    bit = "set" if amf and amf[0] & 0x80 else "clear"
    return f"SQN xor AK {value[2:8].hex()}; AMF {amf.hex()}, its separation bit is {bit}; MAC-A {value[10:].hex()}"


def of_notification(value):
    code = number_in(value)
    when = "before" if code & 0x4000 else "after"
    return f"{code}: {'success' if code & 0x8000 else 'failure'}, {when} the challenge is answered"


def of_checkcode(value):
    hashed = value[2:].hex()
    return f"hash of the AKA-Identity packets {hashed}" if hashed else "the session has no AKA-Identity packets"


def versions_in(value):
    return [str(number_in(value[at:])) for at in range(0, len(value) - 1, 2)]


# What the value of an attribute says, by its type.
MEANINGS = {
    AT_RAND: lambda value: "RAND " + ", ".join(value[at:at + 16].hex() for at in range(2, len(value), 16)),
    AT_NONCE_MT: lambda value: f"NONCE_MT {value[2:].hex()}",
    AT_VERSION_LIST: lambda value: f"versions {', '.join(versions_in(text_in(value)))}",
    AT_SELECTED_VERSION: lambda value: f"version {number_in(value)}",
    AT_AUTN: of_autn,
    AT_RES: lambda value: f"RES {value[2:2 + number_in(value) // 8].hex()}, {number_in(value)} bits",
    AT_AUTS: lambda value: f"SQN_MS xor AK* {value[:6].hex()}; MAC-S {value[6:].hex()}",
    AT_MAC: lambda value: f"MAC {value[2:].hex()}",
    AT_NOTIFICATION: of_notification,
    AT_IDENTITY: lambda value: shown_text(text_in(value)),
    AT_CLIENT_ERROR_CODE: lambda value: f"code {number_in(value)}",
    AT_KDF_INPUT: lambda value: f"network name {shown_text(text_in(value))}",
    AT_KDF: lambda value: f"key derivation function {number_in(value)}",
    AT_IV: lambda value: f"initialisation vector {value[2:].hex()}",
    AT_ENCR_DATA: lambda value: f"{len(value) - 2} bytes encrypted",
    AT_CHECKCODE: of_checkcode,
    AT_BIDDING: lambda value: "D is set: the server has EAP-AKA'" if value[0] & 0x80 else "D is clear",
}


@dataclass
class Authentication:
    """A challenge or a re-authentication: the inputs of its keys, and the keys of each end that succeeded with them."""
    title: str
    method: int
    identity: bytes | None = None
    name: bytes = b""
    vector: list | None = None
    counter: int | None = None
    nonce: bytes = b""
    # In EAP-SIM: the RANDs, the vectors of the job by their RANDs, and the versions that the server offers.
    rands: list = field(default_factory=list)
    vectors: dict = field(default_factory=dict)
    versions: bytes = b""
    keys: dict = field(default_factory=dict)
    # Its place in the data of the page; -1 as long as it has none.
    place: int = -1


@dataclass
class Ends:
    """What the ends of a session have at a moment: the identity that reached the server last, and their authentications."""
    identity: bytes | None = None
    current: dict = field(default_factory=dict)


def attribute_parts(data, start):
    """The attributes from a byte on: name, first byte of the value, end, and meaning. The last one may not fill its length."""
    parts = []
    for kind, first, end in places_in(data, start):
        name = "not an attribute" if kind is None else NAMES.get(kind, f"attribute {kind}")
        parts.append([name, first, end, MEANINGS.get(kind, lambda value: "")(data[first:end])])
    return parts


def parts_of(data):
    """The fields of a packet: name, first byte, end, and meaning. One that the network cut may have none."""
    if len(data) < 4:
        return [["too short", 0, len(data), ""]] if data else []
    length = str(number_in(data[2:]))
    parts = [["Code", 0, 1, CODES.get(data[0], "")], ["Identifier", 1, 2, str(data[1])], ["Length", 2, 4, length]]
    if len(data) < 5 or data[0] not in (REQUEST, RESPONSE):
        return parts
    kind = data[4]
    parts.append(["Type", 4, 5, f"EAP-{METHODS[kind]}" if kind in METHODS else "Identity" if kind == IDENTITY else str(kind)])
    if kind in METHODS and len(data) >= 8:
        parts += [["Subtype", 5, 6, name_of_subtype(kind, data[5]) or str(data[5])], ["Reserved", 6, 8, ""]]
        return parts + attribute_parts(data, 8)
    return parts + ([["Type-Data", 5, len(data), shown_text(data[5:]) if kind == IDENTITY else ""]] if len(data) > 5 else [])


# ---- authentications

def begun_sim(event):
    """The same in EAP-SIM, by the packets: the Challenge answers a Start response."""
    found = transcript.attributes_of(event.sent) if event.sent else {}
    if AT_RAND not in found or event.delivered is None:
        return None
    told, first = transcript.attributes_of(event.delivered), transcript.attributes_of(event.session.network[0])
    rands = [found[AT_RAND][at:at + 16] for at in range(2, len(found[AT_RAND]), 16)]
    return Authentication("full authentication", SIM, identity_in(event.delivered), nonce=told.get(AT_NONCE_MT, b"")[2:], rands=rands,
                          vectors=event.session.vectors, versions=text_in(first.get(AT_VERSION_LIST, b"\0\0")))


def begun(event, ends):
    """The authentication that a server begins in an event; nothing if it begins none."""
    if event.session.imsi:
        return begun_sim(event)
    notes = {note.split(" ")[0]: note.split(" ")[1:] for note in event.notes}
    if not event.sent or not {"drew", "resumed"} & notes.keys() or len(event.sent.data or b"") < 8:
        return None
    method, found = event.sent.data[4], transcript.attributes_of(event.sent)
    if "drew" in notes:
        name = text_in(found[AT_KDF_INPUT]) if AT_KDF_INPUT in found else b""
        return Authentication(f"full authentication, number {notes['drew'][0]}", method, ends.identity, name, event.vector)
    nonce = transcript.encrypted_in(event.sent).get(AT_NONCE_S, b"")[2:]
    counter = int(notes["resumed"][0])
    return Authentication(f"re-authentication, counter {counter}", method, ends.identity, counter=counter, nonce=nonce)


def authentications_of(sessions):
    """Of all sessions, the authentication by which each packet is made, by the packet's `id`. A peer answers in that of the
    packet that it received, whichever session that was sent in. A changed copy has that of the packet that it is a copy of."""
    events = sorted((event for session in sessions for event in rows_in(session)), key=lambda it: it.line)
    ends, made_by = {session.number: Ends() for session in sessions}, {}
    for event in events:
        if isinstance(event, Change):
            if event.sent and id(event.source) in made_by and AT_MAC in transcript.attributes_of(event.sent):
                made_by[id(event.sent)] = made_by[id(event.source)]
            continue
        mine = ends[event.session.number]
        if event.arrives and event.end == "server" and identity_in(event.delivered) is not None:
            mine.identity = identity_in(event.delivered)
        if event.end == "server":
            mine.current["server"] = begun(event, mine) or mine.current.get("server")
        elif event.sent and event.delivered and id(event.delivered) in made_by:
            mine.current["peer"] = made_by[id(event.delivered)]
        current = mine.current.get(event.end)
        if current and event.keys:
            current.keys[event.end] = event.keys
        if current and event.sent and AT_MAC in transcript.attributes_of(event.sent):
            made_by[id(event.sent)] = current
    return made_by


def triplets_of(it):
    """SRES and Kc of each RAND of a session of EAP-SIM; none if the vectors' bytes aren't told."""
    told = [it.vectors.get(rand.hex()) for rand in it.rands]
    return [triplet(*map(bytes.fromhex, (xres, ck, ik))) for _, xres, ck, ik in told] if all(told) else []


def inputs_of_sim(it):
    triplets = triplets_of(it)
    rows = [["RAND", ", ".join(rand.hex() for rand in it.rands)]]
    rows += [[name, ", ".join(one[place].hex() for one in triplets) or "not known"] for place, name in enumerate(("SRES", "Kc"))]
    rows += [["NONCE_MT", it.nonce.hex()], ["versions", ", ".join(versions_in(it.versions))]]
    return rows + [["keys are", "PRF(MK): K_encr, K_aut, MSK, EMSK; MK = SHA-1(identity | Kc | NONCE_MT | versions | selected version)"]]


def rows_of(it):
    """The inputs of the keys of an authentication, and the keys, each with its name."""
    rows = [["method", f"EAP-{METHODS.get(it.method, it.method)}"]]
    rows += [["identity", shown_text(it.identity)]] if it.identity is not None else []
    if it.method == SIM:
        rows += inputs_of_sim(it)
    elif it.counter is None:
        rows += [["network name", shown_text(it.name)]] if it.method != AKA else []
        rows += inputs_of_challenge(it) if it.vector else []
    else:
        rows += [["counter", str(it.counter)], ["NONCE_S", it.nonce.hex() or "not known"]]
        again = ("XKEY' = SHA-1(identity | counter | NONCE_S | MK); MSK and EMSK = PRF(XKEY')" if it.method == AKA else
                 "MSK and EMSK = PRF'(K_re, \"EAP-AKA' re-auth\" | identity | counter | NONCE_S)")
        rows.append(["new keys", again])
    if not it.keys:
        return rows + [["keys", "not printed: no end succeeded with them"]]
    equal = "equal keys" if len(set(map(tuple, it.keys.values()))) == 1 else "different keys"
    rows.append(["its ends", f"both have {equal}" if len(it.keys) == 2 else f"the {min(it.keys)} alone succeeded with it"])
    return rows + [[name, word] for name, word in zip(("K_encr", "K_aut", "K_re", "MSK", "EMSK"), shown_keys(it)) if word]


def inputs_of_challenge(it):
    rand, autn, xres, ck, ik = it.vector
    prime = "" if it.method == AKA else "'"
    rows = [["RAND", rand], ["AUTN", autn], ["XRES", xres], [f"CK{prime}", ck], [f"IK{prime}", ik]]
    if it.method != AKA:
        return rows + [["keys are", "PRF'(IK' | CK', \"EAP-AKA'\" | identity): K_encr, K_aut, K_re, MSK, EMSK"]]
    master = master_key(it.identity or b"", bytes.fromhex(ck), bytes.fromhex(ik))
    made = ["keys are", "PRF(MK): K_encr, K_aut, MSK, EMSK"]
    return rows + [["MK = SHA-1(identity | IK | CK)", master.hex()], made]


def shown_keys(it):
    """The printed keys, those of the server if it has some, without the zeros that fill those of EAP-AKA up."""
    encr, aut, again, msk, emsk = it.keys.get("server") or it.keys["peer"]
    return (encr, aut, again, msk, emsk) if it.method == PRIME else (encr, aut[:32], "", msk, emsk)


def mac_of(packet, it):
    """In words, what AT_MAC of a packet is made from, and whether it is right."""
    behind, whose = b"", ""
    if it.method == SIM:
        behind, whose = (it.nonce, "NONCE_MT") if packet.data[0] == REQUEST else (b"".join(sres for sres, _ in triplets_of(it)), "the SRES")
    elif packet.data[0] == RESPONSE and packet.data[5] == REAUTHENTICATION:
        behind, whose = it.nonce, "NONCE_S"
    name = "SHA-256" if it.method == PRIME else "SHA-1"
    what = f"HMAC-{name}-128 under K_aut over the packet, with zeros in the place of the MAC"
    what += f" and {whose} behind it" if behind else ""
    if whose == "the SRES" and not behind:
        return f"{what} and the SRES behind it. The vectors' bytes aren't printed, so it wasn't computed."
    if not it.keys:
        return f"{what}. K_aut isn't printed, so it wasn't computed."
    right = is_sealed(it.method, bytes.fromhex(shown_keys(it)[1]), packet.data, behind)
    return f"{what}. Computed here with the K_aut below: {'it is right' if right else 'it is another one'}."
