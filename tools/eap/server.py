"""The server's end of a session (RFC 4187, RFC 9048), as docs/sessions.md restates it."""
from .attributes import (AT_ANY_ID_REQ, AT_AUTN, AT_AUTS, AT_BIDDING, AT_CLIENT_ERROR_CODE, AT_COUNTER,
                         AT_COUNTER_TOO_SMALL, AT_FULLAUTH_ID_REQ, AT_IDENTITY, AT_KDF, AT_KDF_INPUT,
                         AT_NEXT_PSEUDONYM, AT_NEXT_REAUTH_ID, AT_NONCE_S, AT_NOTIFICATION,
                         AT_PERMANENT_ID_REQ, AT_RAND, AT_RES, Fault, attr, number_attr, number_in, sixteen,
                         text_attr)
from .keys import Keys
from .messages import (AKA_IDENTITY, CHALLENGE, CLIENT_ERROR, FAILURE, IDENTITY, NOTIFICATION, PRIME,
                       REAUTHENTICATION, REJECT, REQUEST, RESPONSE, SUCCESS, SYNC, hidden, is_sealed, lacking,
                       message, packet, read_message, sealed, shown_or_none)
from .names import PSEUDONYM, RENEWAL, with_realm
from .session import LAST_COUNTER, Context, End
from .streams import rand_of
from .usim import sqn_of

ASKED = {AT_ANY_ID_REQ: "any", AT_FULLAUTH_ID_REQ: "full", AT_PERMANENT_ID_REQ: "permanent"}


class Server(End):
    """Its options are of `any`, `bidding`, `pseudonym` and `reauth`; the name is the network's."""

    def __init__(self, home, session, kind, name=b"", options=()):
        super().__init__(home, session, 0, kind)
        self.home, self.name, self.options = home, name, options
        self.state, self.identifier, self.last = "identity", 1, packet(REQUEST, 1, bytes([IDENTITY]))
        # Of the last challenge: the row, RAND, what Milenage gives of it, and the keys. Of a
        # re-authentication: its context and nonce.
        self.row = self.rand = self.f = self.challenged = self.context = self.nonce = None
        # The context that a success leaves, if an identity was given; and why the session fails.
        self.next, self.has_synced, self.why = None, False, ""

    def repeat(self):
        self.begin_turn()
        return self.ignore("closed") if self.has_ended else ("", self.last)

    # ---- what is sent

    def send(self, state, make):
        self.identifier += 1
        self.state, self.last = state, make(self.identifier)
        return "", self.last

    def notify(self, why):
        self.why = why
        failure = number_attr(AT_NOTIFICATION, 16384)
        return self.send("notifying", lambda it: message(self.kind, REQUEST, it, NOTIFICATION, failure))

    def reject(self, why):
        return self.fail(why, packet(FAILURE, self.identifier))

    def succeed(self, keys):
        if self.next and self.next.identity:
            self.row.contexts[self.kind] = self.next
        return self.win(keys, packet(SUCCESS, self.identifier))

    def ask(self, asked):
        attrs = number_attr(asked, 0)
        sent = self.send(ASKED[asked], lambda it: message(self.kind, REQUEST, it, AKA_IDENTITY, attrs))
        self.count(self.last)
        return sent

    def by_identity(self):
        """What follows an identity, by the state in which it came."""
        if self.state == "identity" and "any" in self.options:
            return self.ask(AT_ANY_ID_REQ)
        renewed = self.state in ("identity", "any") and self.home.by_context(self.kind, self.identity)
        if renewed:
            return self.resume(renewed)
        find = self.home.by_permanent if self.state == "permanent" else self.home.by_name
        if row := find(self.kind, self.identity):
            return self.challenge(row)
        if self.state == "permanent":
            return self.notify("unknownidentity")
        return self.ask(AT_PERMANENT_ID_REQ if self.state == "full" else AT_FULLAUTH_ID_REQ)

    def next_name(self, option, of):
        return self.home.next_name(self.kind, self.row, of) if option in self.options else None

    def names(self):
        """AT_IV and AT_ENCR_DATA with the next pseudonym and the next re-authentication identity, if one of
        them is given."""
        pseudonym, identity = self.next_name("pseudonym", PSEUDONYM), self.next_name("reauth", RENEWAL)
        self.next = Context(identity, self.challenged, 1)
        attrs = (text_attr(AT_NEXT_PSEUDONYM, pseudonym) if pseudonym else b"") + self.identity_attr(identity)
        return hidden(self.challenged.encr, self.draws.next(), attrs) if attrs else b""

    def identity_attr(self, identity):
        return text_attr(AT_NEXT_REAUTH_ID, with_realm(identity, self.realm)) if identity else b""

    def challenge(self, row):
        number = row.draw()
        if number is None:
            why = f"exhausted {row.number}"
            self.notes.append(why)
            return self.notify(why)
        self.notes.append(f"drew {number}")
        self.row, self.rand = row, rand_of(self.home.key, row.place, number)
        self.f = row.subscriber.functions(self.rand)
        autn = self.f.autn(sqn_of(number, row.subscriber.bits), row.amf)
        keys = self.challenged = Keys(self.kind, self.name, self.identity, autn, self.f)
        self.vector = self.rand, autn, self.f.res, *keys.pair
        self.inputs = self.kind, self.name, row.place, self.rand, autn, self.identity
        attrs = sixteen(AT_RAND, self.rand) + sixteen(AT_AUTN, autn)
        if self.kind == PRIME:
            attrs += text_attr(AT_KDF_INPUT, self.name) + number_attr(AT_KDF, 1)
        elif "bidding" in self.options:
            attrs += attr(AT_BIDDING, b"\x80\0")
        attrs += self.names() + self.checkcode()
        return self.send("challenge", lambda it: sealed(self.kind, keys.aut, REQUEST, it, CHALLENGE, attrs))

    def resume(self, row):
        self.row, self.context = row, row.contexts.pop(self.kind)
        keys, counter = self.context.keys, self.context.counter
        self.notes.append(f"resumed {counter}")
        self.inputs = self.context.inputs(self.kind, row.place, self.identity)
        iv, self.nonce = self.draws.next(), self.draws.next()
        identity = self.next_name("reauth", RENEWAL) if counter < LAST_COUNTER else None
        self.next = Context(identity, keys, counter + 1)
        inner = number_attr(AT_COUNTER, counter) + sixteen(AT_NONCE_S, self.nonce)
        attrs = hidden(keys.encr, iv, inner + self.identity_attr(identity)) + self.checkcode()
        return self.send(
            "renewal", lambda it: sealed(self.kind, keys.aut, REQUEST, it, REAUTHENTICATION, attrs))

    # ---- what is received

    def take(self, head, data):
        if head.code != RESPONSE or head.identifier != self.identifier:
            return self.ignore("notforme")
        if head.kind != (IDENTITY if self.state == "identity" else self.kind):
            return self.ignore("othertype")
        if self.state == "identity":
            self.identity = head.data[5:]
            return self.by_identity()
        try:
            subtype, attrs = read_message(head)
        except Fault:
            return self.ignore("malformed")
        row = self.rows().get(subtype)
        if not row:
            return self.ignore("unexpected")
        return self.ignore("missing") if lacking(RESPONSE, subtype, attrs) else row(attrs, head.data)

    def rows(self):
        """What each message leads to in this state."""
        if self.state == "notifying":
            return {NOTIFICATION: lambda attrs, data: self.reject(self.why)}
        rows = {CLIENT_ERROR: self.on_client_error}
        if self.state == "challenge":
            return rows | {CHALLENGE: self.on_challenge, SYNC: self.on_sync,
                           REJECT: lambda attrs, data: self.reject("rejected")}
        if self.state == "renewal":
            return rows | {REAUTHENTICATION: self.on_renewal}
        return rows | {AKA_IDENTITY: self.on_identity}

    def on_identity(self, attrs, data):
        self.identity = attrs[AT_IDENTITY]
        self.count(data)
        return self.by_identity()

    def on_client_error(self, attrs, data):
        return self.reject(f"clienterror {number_in(attrs[AT_CLIENT_ERROR_CODE])}")

    def on_challenge(self, attrs, data):
        if not is_sealed(self.kind, self.challenged.aut, data):
            return self.notify("wrongmac")
        self.has_checked = True
        if attrs[AT_RES] != self.f.res:
            return self.notify("wrongres")
        return self.notify("wrongcheckcode") if self.has_other_code(attrs) else self.succeed(self.challenged)

    def on_renewal(self, attrs, data):
        keys, counter = self.context.keys, self.context.counter
        if not is_sealed(self.kind, keys.aut, data, self.nonce):
            return self.notify("wrongmac")
        self.has_checked = True
        inner = shown_or_none(keys.encr, attrs)
        if inner.get(AT_COUNTER) != counter.to_bytes(2, "big"):
            return self.notify("wrongcounter")
        if AT_COUNTER_TOO_SMALL in inner:
            return self.challenge(self.row)
        if self.has_other_code(attrs):
            return self.notify("wrongcheckcode")
        return self.succeed(keys.again(self.identity, counter, self.nonce))

    def on_sync(self, attrs, data):
        if self.has_synced:
            return self.notify("secondsync")
        self.has_synced, sqn_ms = True, self.f.sqn_in(attrs[AT_AUTS])
        note = "badauts" if sqn_ms is None else self.row.resynchronise(sqn_ms)
        self.notes.append(note)
        return self.notify(note) if note.startswith(("badauts", "beyond")) else self.challenge(self.row)
