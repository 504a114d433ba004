"""The peer's end of a session (RFC 4187, RFC 9048), as docs/sessions.md restates it."""
from .attributes import (AT_ANY_ID_REQ, AT_AUTN, AT_AUTS, AT_BIDDING, AT_CHECKCODE, AT_CLIENT_ERROR_CODE,
                         AT_COUNTER, AT_COUNTER_TOO_SMALL, AT_FULLAUTH_ID_REQ, AT_IDENTITY, AT_KDF,
                         AT_KDF_INPUT, AT_NEXT_PSEUDONYM, AT_NEXT_REAUTH_ID, AT_NONCE_S, AT_NOTIFICATION,
                         AT_PERMANENT_ID_REQ, AT_RAND, ID_REQUESTS, Fault, attr, number_attr, number_in,
                         res_attr, text_attr)
from .keys import Keys
from .messages import (AKA, AKA_IDENTITY, CHALLENGE, CLIENT_ERROR, IDENTITY, NOTIFICATION, PRIME,
                       REAUTHENTICATION, REJECT, REQUEST, RESPONSE, SUCCESS, SYNC, hidden, is_sealed, lacking,
                       message, packet, read_message, sealed, shown, shown_or_none)
from .names import name_in, username, with_realm
from .session import LAST_COUNTER, Context, End


class Peer(End):
    """Its option is `hasprime`. A peer of EAP-AKA' has the network's name, or None to take any. Its first
    identity is `held`, `permanent`, or a text after `=`."""

    def __init__(self, device, session, kind, name=None, options=(), first="held"):
        super().__init__(device, session, 1, kind)
        self.device, self.name, self.options, self.first = device, name, options, first
        self.state, self.identifier, self.why = "waiting", None, ""
        # The last request that was answered, and the answer; what a success leads to.
        self.asked = self.answered = self.adopt = None

    # ---- identities

    def permanent(self):
        return with_realm(self.device.subscriber.permanent(self.kind), self.realm)

    def full(self):
        name = self.device.names.get(self.kind)
        return with_realm(name, self.realm) if name else self.permanent()

    def held(self):
        context = self.device.contexts.get(self.kind)
        return with_realm(context.identity, self.realm) if context else self.full()

    def first_identity(self):
        if self.first.startswith("="):
            return self.first[1:].encode()
        return self.permanent() if self.first == "permanent" else self.held()

    # ---- what is sent

    def send(self, head, data, answer, state="waiting"):
        self.state, self.identifier, self.asked, self.answered = state, head.identifier, data, answer
        return "", answer

    def message(self, head, subtype, attrs=b""):
        return message(self.kind, RESPONSE, head.identifier, subtype, attrs)

    def refuse(self, head, data, why, subtype=CLIENT_ERROR):
        """Client-Error, or another message without attributes."""
        self.why = why
        attrs = number_attr(AT_CLIENT_ERROR_CODE, 0) if subtype == CLIENT_ERROR else b""
        return self.send(head, data, self.message(head, subtype, attrs), "refusing")

    # ---- what is received

    def take(self, head, data):
        if head.code == RESPONSE:
            return self.ignore("notforme")
        if data == self.asked:
            return "", self.answered
        if head.code != REQUEST:
            return self.on_outcome(head)
        if head.kind not in (IDENTITY, self.kind):
            return self.ignore("othertype")
        if self.state == "waiting":
            return self.on_request(head, data)
        return self.on_late_request(head, data) if self.state == "answered" else self.ignore("unexpected")

    def on_outcome(self, head):
        if head.identifier != self.identifier or head.code == SUCCESS and self.state != "answered":
            return self.ignore("unexpected")
        if head.code == SUCCESS:
            self.adopt()
            return self.win(self.keys)
        return self.fail(self.why if self.state == "refusing" else "failurereceived")

    def on_request(self, head, data):
        if head.kind == IDENTITY:
            self.identity = self.first_identity()
            return self.send(head, data, packet(RESPONSE, head.identifier, bytes([IDENTITY]) + self.identity))
        rows = {AKA_IDENTITY: self.on_identity, CHALLENGE: self.on_challenge,
                NOTIFICATION: self.on_notification, REAUTHENTICATION: self.on_renewal}
        try:
            subtype, attrs = read_message(head)
            row = rows[subtype]
        except (Fault, KeyError):
            return self.refuse(head, data, "malformed")
        return row(head, data, attrs)

    def on_late_request(self, head, data):
        """After the answer to a challenge there is a Notification alone."""
        try:
            subtype, attrs = read_message(head) if head.kind == self.kind else (None, {})
        except Fault:
            return self.ignore("unexpected")
        is_right = subtype == NOTIFICATION and not lacking(REQUEST, subtype, attrs)
        return self.on_notification(head, data, attrs) if is_right else self.ignore("unexpected")

    def on_identity(self, head, data, attrs):
        asked = attrs.keys() & {*ID_REQUESTS}
        if len(asked) != 1:
            return self.refuse(head, data, "missing")
        chosen = {AT_PERMANENT_ID_REQ: self.permanent, AT_ANY_ID_REQ: self.held,
                  AT_FULLAUTH_ID_REQ: self.full}
        self.identity = chosen[asked.pop()]()
        answer = self.message(head, AKA_IDENTITY, text_attr(AT_IDENTITY, self.identity))
        self.count(head.data)
        self.count(answer)
        return self.send(head, data, answer)

    def on_notification(self, head, data, attrs):
        if lacking(REQUEST, NOTIFICATION, attrs):
            return self.refuse(head, data, "missing")
        code = number_in(attrs[AT_NOTIFICATION])
        if not code & 0x4000 or code & 0x8000:
            return self.ignore("unexpected")
        return self.refuse(head, data, f"notified {code}", NOTIFICATION)

    def refused_for(self, attrs):
        """Why a challenge is rejected before the USIM is asked, if it is."""
        if self.kind == AKA:
            bids = attrs.get(AT_BIDDING, b"\0")[0] & 0x80
            return "downgrade" if bids and "hasprime" in self.options else None
        if attrs.get(AT_KDF) != b"\0\1":
            return "badkdf"
        name = attrs.get(AT_KDF_INPUT)
        if not name or self.name not in (None, name):
            return "badname"
        return None if attrs[AT_AUTN][2:][6] & 0x80 else "noseparation"

    def on_challenge(self, head, data, attrs):
        if lacking(REQUEST, CHALLENGE, attrs):
            return self.refuse(head, data, "missing")
        if why := self.refused_for(attrs):
            return self.refuse(head, data, why, REJECT)
        rand = attrs[AT_RAND][2:]
        note, f, auts = self.device.usim.challenge(rand, attrs[AT_AUTN][2:])
        self.notes.append(note)
        if auts:
            self.failure = auts, rand
            function = number_attr(AT_KDF, 1) if self.kind == PRIME else b""
            return self.send(head, data, self.message(head, SYNC, attr(AT_AUTS, auts) + function))
        return self.on_accepted(head, data, attrs, f) if f else self.refuse(head, data, "wrongautn", REJECT)

    def on_accepted(self, head, data, attrs, f):
        """What follows a challenge that the USIM accepted."""
        rand, autn, name = attrs[AT_RAND][2:], attrs[AT_AUTN][2:], attrs.get(AT_KDF_INPUT, b"")
        keys = self.keys = Keys(self.kind, name, self.identity, autn, f)
        if not is_sealed(self.kind, keys.aut, head.data):
            return self.refuse(head, data, "wrongmac")
        self.has_checked, self.inputs = True, (self.kind, name, self.device.place, rand, autn, self.identity)
        if self.has_other_code(attrs):
            return self.refuse(head, data, "wrongcheckcode")
        try:
            inner = shown(keys.encr, attrs)
        except Fault:
            return self.refuse(head, data, "undecryptable")
        context = Context(name_in(inner, AT_NEXT_REAUTH_ID), keys, 1)
        self.adopt_later(inner, lambda: self.device.adopt_challenged(self.kind, context))
        answer = res_attr(f.res) + (self.checkcode() if AT_CHECKCODE in attrs else b"")
        answer = sealed(self.kind, keys.aut, RESPONSE, head.identifier, CHALLENGE, answer)
        return self.send(head, data, answer, "answered")

    def adopt_later(self, inner, adopt_context):
        """A success adopts the pseudonym that was given, if one was, and does what is to be done with the
        context."""
        pseudonym = name_in(inner, AT_NEXT_PSEUDONYM)

        def adopt():
            if pseudonym:
                self.device.names[self.kind] = pseudonym
            adopt_context()
        self.adopt = adopt

    def on_renewal(self, head, data, attrs):
        context = self.device.contexts.get(self.kind)
        if not context or username(self.identity) != context.identity:
            return self.ignore("nocontext")
        if lacking(REQUEST, REAUTHENTICATION, attrs):
            return self.refuse(head, data, "missing")
        if not is_sealed(self.kind, context.keys.aut, head.data):
            return self.refuse(head, data, "wrongmac")
        self.has_checked, self.inputs = True, context.inputs(self.kind, self.device.place, self.identity)
        if self.has_other_code(attrs):
            return self.refuse(head, data, "wrongcheckcode")
        inner = shown_or_none(context.keys.encr, attrs)
        if not {AT_COUNTER, AT_NONCE_S} <= inner.keys():
            return self.refuse(head, data, "undecryptable")
        return self.on_counter(head, data, context, inner, self.checkcode() if AT_CHECKCODE in attrs else b"")

    def on_counter(self, head, data, context, inner, code):
        """What follows a re-authentication that can be read, by its counter."""
        counter, nonce, keys = number_in(inner[AT_COUNTER]), inner[AT_NONCE_S][2:], context.keys
        is_small = counter < context.counter
        self.notes.append(f"{'small' if is_small else 'counter'} {counter}")
        answer = number_attr(AT_COUNTER, counter) + (attr(AT_COUNTER_TOO_SMALL, b"\0\0") if is_small else b"")
        answer = hidden(keys.encr, self.draws.next(), answer) + code
        answer = sealed(self.kind, keys.aut, RESPONSE, head.identifier, REAUTHENTICATION, answer, nonce)
        if is_small:
            return self.send(head, data, answer)
        self.device.contexts[self.kind] = context._replace(counter=counter + 1)
        if counter == LAST_COUNTER:
            del self.device.contexts[self.kind]
        self.keys, identity = keys.again(self.identity, counter, nonce), name_in(inner, AT_NEXT_REAUTH_ID)
        self.adopt_later(inner, lambda: self.device.adopt_renewed(self.kind, context.identity, identity))
        return self.send(head, data, answer, "answered")
