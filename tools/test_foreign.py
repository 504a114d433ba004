#!/usr/bin/env python3
"""Tests of tools/foreign: RADIUS, the answers of our ends, the verdicts, and both trials on the loopback; and of tools/usim.

The bytes of RADIUS are those of RFC 2865 §7.1, and an exchange with hostapd 2.10. The verdicts are tried on each session of the
rows of crates/auc_ends_cli. In the trials on the loopback both ends are played here, by tools/eap. Neither hostapd nor a
program of ours is needed.
"""
import hashlib
import os
import signal
import socket
import subprocess
import sys
import tempfile
import threading
import unittest
from pathlib import Path

import foreign_radius
import foreign_trial
import foreign_verdict
from eap.attributes import res_attr, sixteen
from eap.keys import Keys
from eap.messages import AKA, CHALLENGE, REQUEST, RESPONSE, packet, place_of_mac, sealed
from eap.session import Subscriber
from ends import run_main
from foreign_ours import Unreadable, answer_in
from foreign_radius import ACCEPT, Fault, Radius
from foreign_verdict import DIFFERENT, EQUAL, FAILED, UNSEEN, Judge, Session, verdict_of
from small_checkout import heed_signals
from trial import HEADER, KEYS, folder_with

TOOLS = Path(__file__).resolve().parent
ROWS = TOOLS.parent / "crates/auc_ends_cli"
# RFC 2865 §7.1: a request without EAP, and its answer.
NEMO = bytes.fromhex(
    "010000380f403f9473978057bd83d5cb98f4227a01066e656d6f02120dbe708d93d413ce3196e43f782a0aee0406c0a80110050600000003")
NEMO_ACCEPTED = bytes.fromhex("0200002686fe220e7624ba2a1005f6bf9b55e0b2060600000001" "0f06000000000e06c0a80103")
# Requests of ours, what hostapd 2.10 answered to them under the secret `radius`, and the MSK that our peer had.
FIRST = bytes.fromhex(
    "0101005a0a51d9304744bb92135166dc5385930301123030303130313030303030303030303120056175630c06000005784f17020000150130303031"
    "30313030303030303030303150129d306baadc860680282d0967afdf514c")
CHALLENGED = bytes.fromhex(
    "0b01003aae31778061d58a89763be759ce49800e1806000000004f0e0101000c170500000d0100005012753e4cb85dd369fa9e1e4c9e08d0378c")
ASKED = bytes.fromhex(
    "0103008b26f67618c7fb314ac93efc64ae92303301123030303130313030303030303030303120056175630c06000005781806000000004f42020200"
    "401701000003030040eba7cbb9b2ad2f3986060000e17c37b39d81f0d3321bcd480f636a9a78fe8aaf0b050000b59471ae75b8336240797ba2abecb3"
    "075012ea961dfbeacbc7796c2c5890e10bf72f")
ACCEPTED = bytes.fromhex(
    "020300c3bf2ac770771427aa0026714eae65fe7d4f06030200041a3a000001371034a4779a17ba3b2c62fbd899c543178c7a18b364b7a7003f695159"
    "11c8b23a2b08020b5a6f4c0d203a09d224eca7921ef832901a3a000001371134a476cbd0d06207cd53e49580fdba77ea926288dbe2a47bff0203eb60"
    "6cac03a3f6d0efba3b006d9ba7800485bd8305f6903a6623177766f919227d45b8e78b09242787bd0950c6f33b06038000d8e37e8534fbedd7501202"
    "5debcdfeb5a934cf7a20cd56108a4a")
MSK = bytes.fromhex(
    "caffb0dc6f447a3b1f0b0b61d23e39d3703d486f9e8f6f9de63eafe07ed419380dfead1ef97585d9a470c15b4ebaf146670d59f28c1f005a1d3479ac"
    "8186dfa3")


def changed(data, at):
    return data[:at] + bytes([data[at] ^ 1]) + data[at + 1:]


class RadiusPackets(unittest.TestCase):
    def setUp(self):
        self.radius = Radius(b"radius")

    def refused(self, call, *words):
        with self.assertRaises(Fault) as found:
            call(*words)
        return str(found.exception)

    def test_answer_of_rfc_2865_has_its_authenticator(self):
        self.assertEqual(Radius(b"xyzzy5461").read_answer(NEMO_ACCEPTED, NEMO), NEMO_ACCEPTED)
        for at in (5, 22, 37):
            wrong = changed(NEMO_ACCEPTED, at)
            self.assertIn("Response Authenticator", self.refused(Radius(b"xyzzy5461").read_answer, wrong, NEMO))
        self.assertIn("compare the secrets", self.refused(Radius(b"xyzzy5462").read_answer, NEMO_ACCEPTED, NEMO))
        self.assertEqual(foreign_radius.values(NEMO, foreign_radius.USER_NAME), [b"nemo"])

    def test_password_of_rfc_2865_is_hidden_as_keys_are(self):
        hidden = foreign_radius.values(NEMO, 2)[0]
        self.assertEqual(Radius(b"xyzzy5461").masked(hidden, NEMO[4:20], reads=True), b"arctangent".ljust(16, b"\0"))
        self.assertEqual(Radius(b"xyzzy5461").masked(b"arctangent".ljust(16, b"\0"), NEMO[4:20], reads=False), hidden)

    def test_request_without_eap_is_no_session(self):
        self.assertIn("no EAP-Message", self.refused(Radius(b"xyzzy5461").read_request, NEMO))
        self.assertIn("code is 2", self.refused(Radius(b"xyzzy5461").read_request, NEMO_ACCEPTED))

    def test_answers_of_hostapd_are_read(self):
        self.assertEqual(self.radius.read_answer(CHALLENGED, FIRST), CHALLENGED)
        self.assertEqual(foreign_radius.eap_in(CHALLENGED).hex(), "0101000c170500000d010000")
        self.assertEqual(self.radius.read_answer(ACCEPTED, ASKED), ACCEPTED)
        self.assertEqual(self.radius.msk_in(ACCEPTED, ASKED), MSK)
        states = [foreign_radius.values(it, foreign_radius.STATE) for it in (CHALLENGED, ASKED)]
        self.assertEqual((len(states[0]), states[0]), (1, states[1]))

    def test_changed_answer_of_hostapd_is_refused(self):
        for at in range(len(ACCEPTED)):
            self.refused(self.radius.read_answer, changed(ACCEPTED, at), ASKED)
        # With a right Response Authenticator there is still the Message-Authenticator.
        wrong = changed(ACCEPTED, len(ACCEPTED) - 1)
        wrong = wrong[:4] + self.radius.answers(wrong[:4], ASKED[4:20], wrong[20:]) + wrong[20:]
        self.assertIn("Message-Authenticator", self.refused(self.radius.read_answer, wrong, ASKED))

    def test_other_secret_gives_no_msk(self):
        self.assertNotEqual(Radius(b"radiut").msk_in(ACCEPTED, ASKED), MSK)

    def test_what_is_written_is_read(self):
        for size in (0, 5, 253, 254, 1400):
            eap = bytes(it % 256 for it in range(size))
            asked = self.radius.request(7, b"somebody", eap or b"x", [b"state"])
            self.assertEqual(self.radius.read_request(asked), asked)
            answered = self.radius.answer(ACCEPT, asked, eap, MSK)
            self.assertEqual(self.radius.read_answer(answered, asked), answered)
            self.assertEqual((foreign_radius.eap_in(answered), self.radius.msk_in(answered, asked)), (eap, MSK))
            self.refused(self.radius.read_request, changed(asked, 30))

    def test_bytes_behind_the_length_are_left_out_and_wrong_lengths_are_refused(self):
        self.assertEqual(foreign_radius.whole(NEMO + b"padding"), NEMO)
        for data in (b"", NEMO[:19], NEMO[:-1], NEMO[:2] + bytes(2) + NEMO[4:], changed(NEMO, 21), NEMO[:21] + b"\1" + NEMO[22:]):
            self.refused(foreign_radius.whole, data)


class Answers(unittest.TestCase):
    def test_each_answer_of_the_rows_is_read(self):
        steps = set()
        for line in (ROWS / "stdout").read_text().splitlines():
            if not line.startswith("#") and line != "not understood":
                answer = answer_in(line)
                steps.add(answer.step)
                words = [*answer.notes, answer.packet.hex(), answer.cause, *(it.hex() for it in answer.keys or [])]
                # Each word of the line is in the answer, except those that its step stands for.
                left = set(line.split()) - set(" ".join(words).split())
                self.assertLessEqual(left, {"sent", "ended", "success", "failure", "ignored", "keys", "peer"}, line)
        self.assertEqual(steps, {"sent", "success", "failure", "ignored", "peer"})

    def test_other_lines_are_no_answers(self):
        for line in ("", "not understood", "sent", "ended success", "ended failure", "ignored", "drew 1"):
            self.assertRaises(Unreadable, answer_in, line)

    def test_failure_behind_a_cause_is_its_packet(self):
        answer = answer_in("beyond 9 1 ended failure beyond 9 1 04020004")
        self.assertEqual((answer.notes, answer.cause, answer.packet.hex()), (["beyond 9 1"], "beyond 9 1", "04020004"))


# ---- the verdicts

class Recorded:
    """An end that answers as it did."""

    def __init__(self, answer):
        self.answer = answer

    def tell(self, line):
        return answer_in(self.answer)


def recorded():
    """Each session of the rows of auc_ends_cli: its title, its network name, and the session."""
    title = role = session = None
    for line, answer in zip(*((ROWS / name).read_text().splitlines() for name in ("stdin", "stdout"))):
        word, _, rest = line.partition(" ")
        if word == "#":
            title = rest
        elif word in ("server", "peer", "next"):
            role, name = word if word != "next" else role, rest.partition("prime ")[2]
            session = Session(1, role, "prime" if name else "aka", "somebody")
            session.began(answer_in(answer))
            yield title, name or "WLAN", session
        elif word == "bytes" and answer != "not understood":
            session.hear(Recorded(answer), bytes.fromhex(rest))
        elif word == "giveup":
            session.answers.append(answer_in(answer))


SESSIONS = list(recorded())


def cause_of(session):
    return session.end.cause.split()[0] if session.end and session.end.cause else ""


class Verdicts(unittest.TestCase):
    def each(self, role, cause):
        """The sessions of our end that failed for a cause, each with the text of its verdict."""
        found = [it for it in SESSIONS if it[2].role == role and cause_of(it[2]) == cause]
        self.assertTrue(found, cause)
        for title, name, session in found:
            verdict = verdict_of(Judge(Subscriber(), name), session)
            self.assertEqual((verdict.word, verdict.is_expected), (FAILED, False), title)
            with self.subTest(title=title):
                yield title, session, verdict.text

    def test_each_session_has_a_verdict_and_a_transcript(self):
        self.assertGreater(len(SESSIONS), 1500)
        for title, name, session in SESSIONS:
            verdict, lines = verdict_of(Judge(Subscriber(), name), session), list(foreign_verdict.lines_of(session))
            won = session.end is not None and session.end.step == "success"
            self.assertEqual(verdict.word, UNSEEN if won else FAILED, title)
            for packet in session.packets:
                self.assertIn(f"       {packet.data.hex()}", lines)

    def test_refused_packet_and_field_are_named(self):
        fields = {
            "peer": {"wrongautn": "AT_AUTN", "wrongmac": "AT_MAC", "wrongcheckcode": "AT_CHECKCODE", "badname": "AT_KDF_INPUT",
                     "badkdf": "AT_KDF", "noseparation": "AT_AUTN", "downgrade": "AT_BIDDING", "undecryptable": "AT_ENCR_DATA"},
            "server": {"wrongmac": "AT_MAC", "wrongres": "AT_RES", "wrongcheckcode": "AT_CHECKCODE", "wrongcounter": "AT_COUNTER",
                       "badauts": "AT_AUTS", "secondsync": "AT_AUTS", "beyond": "AT_AUTS", "unknownidentity": "identity"},
        }
        for role in fields:
            for cause in fields[role]:
                for title, session, text in self.each(role, cause):
                    packet = foreign_verdict.refused_packet(session)
                    self.assertEqual(packet.sender, session.foreign)
                    self.assertTrue(text.startswith(f"{packet.text()}, {fields[role][cause]}: "), text)

    def test_field_has_to_be_what_the_second_implementation_computes(self):
        for role, cause in (("peer", "wrongautn"), ("peer", "wrongmac"), ("peer", "wrongcheckcode"), ("server", "wrongmac"),
                            ("server", "wrongres"), ("server", "wrongcheckcode"), ("server", "badauts")):
            count = 0
            for title, session, text in self.each(role, cause):
                if "has to be" in text:
                    found, wanted = text.split("has to be ")[0], text.split("has to be ")[1].split(";")[0].split(":")[0]
                    self.assertNotIn(f"is {wanted},", found)
                    self.assertNotIn(f"is {wanted} (", found)
                    count += 1
            self.assertGreater(count, 1, cause)

    def test_second_implementation_has_the_codes_of_our_own_packets(self):
        counts = {"AT_CHECKCODE": 0, "AT_MAC": 0, "AT_RES": 0}
        for title, name, session in SESSIONS:
            judge = Judge(Subscriber(), name)
            for packet in (it for it in session.packets if it.sender == session.role):
                if len(packet.attributes.get(134, b"")) > 2:
                    found, wanted = judge.of_checkcode(session, packet).split(", and has to be ")
                    self.assertEqual(found, f"it is {wanted}", title)
                    counts["AT_CHECKCODE"] += 1
                if session.role == "peer" and packet.subtype == 1:
                    self.assertTrue(judge.is_mac_right(session, packet), title)
                    found, wanted = judge.of_res(session, packet).split(" (64 bits), and has to be ")
                    self.assertEqual(found, f"it is {wanted}", title)
                    counts["AT_MAC"] += 1
                    counts["AT_RES"] += 1
        self.assertGreater(min(counts.values()), 50)

    def test_code_of_another_identity_is_found(self):
        # The challenge of another session: its AT_MAC is that of the permanent identity, and the peer told a text.
        found = (it for it in SESSIONS if "a challenge under another identity" in it[0] and cause_of(it[2]) == "wrongmac")
        title, name, session = next(found)
        packet, judge = foreign_verdict.refused_packet(session), Judge(Subscriber(), name)
        challenge = judge.challenge_before(session, packet)
        keys = [it for what, it in judge.guesses(session, challenge) if what.startswith("the identity 001010000000001")][0]
        at = place_of_mac(packet.data)
        packet.data = packet.data[:at] + foreign_verdict.sum_of(packet, keys) + packet.data[at + 16:]
        self.assertIn("it fits the identity 001010000000001", str(verdict_of(judge, session)))

    def test_our_packet_that_a_peer_refuses_is_compared(self):
        for cause in ("rejected", "clienterror"):
            found = [text for title, session, text in self.each("server", cause) if "-Challenge of the server" in text]
            self.assertTrue(found)
            for text in found:
                self.assertIn("finds its AT_AUTN and AT_MAC right", text)

    def test_malformed_and_missing_name_what_is_wrong(self):
        texts = {title: text for title, session, text in self.each("peer", "missing")}
        self.assertTrue(texts)
        for title, text in texts.items():
            if ": no AT_" in title and "-Challenge" in text:
                self.assertIn(title.rpartition(": no ")[2], text)
        lengths = [text for title, session, text in self.each("peer", "malformed") if "of length 0" in title]
        self.assertTrue(lengths)
        for text in lengths:
            self.assertIn("from byte 8 on there is no attribute", text)

    def test_ignored_packet_is_named_if_nothing_follows(self):
        session = Session(1, "server", "aka", "somebody", silence="it sends nothing more for 3 seconds")
        session.began(answer_in("sent 0101000501"))
        session.hear(Recorded("ignored othertype"), bytes.fromhex("020100060312"))
        session.give_up(Recorded("ended failure givenup"))
        self.assertIn("packet 2, Response/type 3 of the peer, Type: the peer refuses the method by a Nak, and wants type 18",
                      str(verdict_of(Judge(Subscriber(), "WLAN"), session)))

    def test_kind_that_is_not_expected_is_told(self):
        title, name, session = next(it for it in SESSIONS if it[2].end and it[2].end.msk and it[2].kind == foreign_verdict.FULL)
        judge, session.msk = Judge(Subscriber(), name), session.end.msk
        self.assertEqual(str(verdict_of(judge, session, foreign_verdict.FULL)), "equal keys: full authentication")
        other = verdict_of(judge, session, foreign_verdict.AGAIN)
        self.assertEqual((other.word, other.is_expected), (EQUAL, False))
        session.msk = None
        self.assertTrue(verdict_of(judge, session, needs_keys=False).is_expected)
        session.accepted = False
        self.assertEqual(verdict_of(judge, session, needs_keys=False).word, FAILED)


# ---- both trials on the loopback

RAND, SQN, AMF = bytes(range(16)), bytes(5) + b"\x21", b"\x80\0"
IDENTITY = b"0001010000000001"


class Played:
    """An end of EAP-AKA with one session after another, in the words of auc_ends_cli; MSK may be that of another identity."""

    def __init__(self, identity_of_msk=IDENTITY):
        self.f = Subscriber().functions(RAND)
        self.autn = self.f.autn(SQN, AMF)
        self.keys, self.other = (Keys(AKA, b"", it, self.autn, self.f) for it in (IDENTITY, identity_of_msk))

    def tell(self, line):
        word, _, rest = line.partition(" ")
        if word == "giveup":
            return answer_in("ignored closed" if self.ended else "ended failure givenup")
        if word != "bytes":
            self.ended = False
            return answer_in(self.first)
        return answer_in(self.heard(bytes.fromhex(rest)))

    def won(self, packet=""):
        self.ended = True
        return f"ended success {packet} {self.other.text()}".replace("  ", " ")


class PlayedServer(Played):
    first = "sent 0101000501"

    def heard(self, data):
        if data[4] == 1:
            attrs = sixteen(1, RAND) + sixteen(2, self.autn)
            return f"drew 1 sent {sealed(AKA, self.keys.aut, REQUEST, 2, CHALLENGE, attrs).hex()}"
        return self.won("03020004")


class PlayedPeer(Played):
    first = "peer"

    def heard(self, data):
        if len(data) < 4:
            return "ignored notforme"
        if data[0] > 2:
            self.ended = True
            return self.won() if data[0] == 3 else "ended failure failurereceived"
        if data[4] == 1:
            return f"sent {packet(RESPONSE, data[1], bytes([1]) + IDENTITY).hex()}"
        answer = sealed(AKA, self.keys.aut, RESPONSE, data[1], CHALLENGE, res_attr(self.f.res))
        return f"accepted {SQN.hex()} sent {answer.hex()}"


class Trials(unittest.TestCase):
    def both(self, server_end, peer_end, secret=b"secret", sessions=3, patience=15, wait=15):
        """The sessions of both trials, run with each other, and what the server's one said."""
        said, served = [], []
        door = foreign_trial.Door(Radius(b"secret"), ("127.0.0.1", 0), said.append)
        chosen = foreign_trial.Chosen("aka", sessions=sessions, patience=patience, wait=wait)

        def serve():
            try:
                served.extend(foreign_trial.with_peer(server_end, door, chosen))
            except foreign_trial.Silence as reason:
                said.append(str(reason))
        thread = threading.Thread(target=serve)
        thread.start()
        server = foreign_trial.Server(Radius(secret), door.address, patience)
        asked = list(foreign_trial.with_server(peer_end, server, chosen))
        thread.join()
        self.addCleanup(door.door.close)
        self.addCleanup(server.door.close)
        return served, asked, said

    def verdicts(self, sessions):
        return [verdict_of(Judge(Subscriber(), "WLAN"), it) for it in sessions]

    def test_equal_keys_at_both(self):
        served, asked, said = self.both(PlayedServer(), PlayedPeer())
        self.assertEqual([it.word for it in self.verdicts(asked)], [EQUAL] * 3)
        self.assertEqual([it.word for it in self.verdicts(served)], [UNSEEN] * 3)
        log = "".join(f"EAP-AKA: MSK - hexdump(len=64): {it.end.msk.hex(' ')}\nCTRL-EVENT-EAP-SUCCESS\n" for it in asked)
        foreign_trial.give_keys(served, foreign_trial.keys_in(log))
        self.assertEqual([it.word for it in self.verdicts(served)], [EQUAL] * 3)
        self.assertEqual(said, [])

    def test_msk_of_another_identity_is_told(self):
        served, asked, said = self.both(PlayedServer(b"001010000000001"), PlayedPeer(), sessions=1)
        verdict, = self.verdicts(asked)
        self.assertEqual((verdict.word, verdict.is_expected), (DIFFERENT, False))
        self.assertIn("the second implementation has ours, and the other one fits the identity 001010000000001", verdict.text)

    def test_our_own_wrong_msk_is_told(self):
        served, asked, said = self.both(PlayedServer(), PlayedPeer(b"somebody"), sessions=1)
        self.assertIn("the second implementation has the server's: our end may err", self.verdicts(asked)[0].text)

    def test_other_secret_is_told_at_both(self):
        served, asked, said = self.both(PlayedServer(), PlayedPeer(), b"secreT", sessions=1, patience=0.6, wait=1)
        self.assertIn("it doesn't answer in 0.6 seconds: compare address and secret", self.verdicts(asked)[0].text)
        self.assertIn("its Message-Authenticator is wrong: compare the secrets", said[0])
        self.assertEqual((served, said[-1]), ([], "no session began in 1 seconds"))

    def test_peer_that_falls_silent_is_told(self):
        door = foreign_trial.Door(Radius(b"secret"), ("127.0.0.1", 0))
        server = foreign_trial.Server(Radius(b"secret"), door.address, 0.1)
        self.addCleanup(door.door.close)
        self.addCleanup(server.door.close)
        thread = threading.Thread(target=server.ask, args=(IDENTITY, bytes([2, 0, 0, 21, 1]) + IDENTITY, []))
        thread.start()
        session, = foreign_trial.with_peer(PlayedServer(), door, foreign_trial.Chosen("aka", sessions=1, patience=0.3, wait=2))
        thread.join()
        self.assertIn("the peer: it sends nothing more for 0.3 seconds", str(verdict_of(Judge(Subscriber(), "WLAN"), session)))

    def test_nobody_listens(self):
        with socket.socket(socket.AF_INET, socket.SOCK_DGRAM) as probe:
            probe.bind(("127.0.0.1", 0))
            address = probe.getsockname()
        server = foreign_trial.Server(Radius(b"secret"), address, 0.3)
        self.addCleanup(server.door.close)
        session, = foreign_trial.with_server(PlayedPeer(), server, foreign_trial.Chosen("aka", sessions=1))
        self.assertIn("nobody listens at its port", str(verdict_of(Judge(Subscriber(), "WLAN"), session)))

    def test_packet_of_one_byte_is_told(self):
        class Curt:
            address, radius = ("127.0.0.1", 1), Radius(b"secret")

            def ask(self, name, eap, states):
                asked = self.radius.request(1, name, eap, states)
                return asked, self.radius.answer(foreign_radius.CHALLENGE, asked, b"\1"), ""
        session, = foreign_trial.with_server(PlayedPeer(), Curt(), foreign_trial.Chosen("aka", sessions=1))
        self.assertIn("packet 3, Request of the server, Code or Identifier: they are 01",
                      str(verdict_of(Judge(Subscriber(), "WLAN"), session)))

    def test_server_that_never_ends_a_session_is_told(self):
        class Endless:
            address, radius = ("127.0.0.1", 1), Radius(b"secret")

            def ask(self, name, eap, states):
                asked = self.radius.request(1, name, eap, states)
                return asked, self.radius.answer(foreign_radius.CHALLENGE, asked, foreign_trial.IDENTITY_REQUEST), ""
        session, = foreign_trial.with_server(PlayedPeer(), Endless(), foreign_trial.Chosen("aka", sessions=1))
        self.assertIn("it hasn't ended the session after 100 answers", str(verdict_of(Judge(Subscriber(), "WLAN"), session)))

    def test_keys_of_a_list(self):
        keys = [hashlib.sha512(bytes([it])).digest() for it in range(3)]
        self.assertEqual(foreign_trial.keys_in("".join(f"{it.hex()}\n" for it in keys)), keys)
        self.assertEqual(foreign_trial.keys_in(f"EMSK - hexdump(len=64): {keys[0].hex(' ')}\nCTRL-EVENT-EAP-SUCCESS\n"), [])


class Words(unittest.TestCase):
    def ran(self, *words):
        done = subprocess.run([sys.executable, TOOLS / "foreign", *words], capture_output=True, text=True, timeout=30)
        return done.returncode, done.stderr

    def test_wrong_words_have_status_2(self):
        for role, *words in (["server", "--network", ""], ["server", "--options", "reauth"], ["peer", "--expect", "half"],
                             ["peer", "--k", "00" * 16]):
            self.assertEqual(self.ran(role, "127.0.0.1:1", "--secret-file", "s", *words)[0], 2, words)

    def test_what_is_missing_has_status_3(self):
        with tempfile.TemporaryDirectory() as folder:
            secret = Path(folder) / "secret"
            secret.write_text("secret\n")
            status, said = self.ran("server", "127.0.0.1:1", "--secret-file", str(secret), "--ends", f"{folder}/nothing")
            self.assertEqual((status, "nothing isn't there: `rt run` in crates/auc_ends_cli" in said), (3, True))

    def test_name_that_no_host_can_have_has_status_3(self):
        for role in "server", "peer":
            for host in "..", f"{'a' * 64}.test":
                said = self.ran(role, f"{host}:1812", "--secret-file", TOOLS / "foreign", "--ends", "python")
                self.assertEqual((said[0], said[1].splitlines()[-1]), (3, f"foreign: {host}: it is no name of a host"))


class UsimOfAPeer(unittest.TestCase):
    """tools/usim, asked as wpa_supplicant asks."""

    def setUp(self):
        imsi = Subscriber().imsi
        self.folder = self.enterContext(folder_with({"subscribers": f"{HEADER}\n{imsi},{','.join(KEYS)}\n"}))
        (self.folder / "tmp").mkdir()
        self.peer = self.enterContext(socket.socket(socket.AF_UNIX, socket.SOCK_DGRAM))
        self.peer.settimeout(30)
        self.peer.bind(f"{self.folder}/peer")
        words = [sys.executable, TOOLS / "usim", f"{self.folder}/peer", self.folder / "subscribers", imsi]
        self.child = subprocess.Popen(words, env={**os.environ, "TMPDIR": f"{self.folder}/tmp"}, stdout=subprocess.DEVNULL,
                                      stderr=subprocess.PIPE, preexec_fn=heed_signals)
        self.addCleanup(self.child.communicate)
        self.addCleanup(self.child.kill)
        self.usim = self.peer.recvfrom(99)[1]

    def answers(self, *asked):
        """The first answer after some lines of the peer."""
        for line in asked:
            self.peer.sendto(f"<3>CTRL-REQ-SIM-{line}".encode(), self.usim)
        return next(data for data in iter(lambda: self.peer.recv(4096), None) if data != b"PING")

    def test_line_that_is_no_challenge_has_no_answer(self):
        value, wrong = "00" * 16, ["", "0:", "0", "0:UMTS-AUTH", "0:GSM-AUTH needed for SSID a"]
        wrong += [f"0:{it} needed" for it in (f"UMTS-AUTH:{value}", f"UMTS-AUTH:{value}:zz", f"GSM-AUTH:{value}:12", f"A:{value}")]
        self.assertEqual(self.answers(*wrong, f"1:UMTS-AUTH:{value}:{value} needed for SSID a"), b"CTRL-RSP-SIM-1:UMTS-FAIL")
        self.assertRegex(self.answers(*wrong, f"2:GSM-AUTH:{value} needed").decode(), "^CTRL-RSP-SIM-2:GSM-AUTH:[0-9a-f]{16}:")

    def test_ended_script_leaves_no_folder(self):
        self.assertEqual(len(os.listdir(self.folder / "tmp")), 1)
        self.child.send_signal(signal.SIGTERM)
        self.assertEqual((self.child.wait(30), self.child.stderr.read()), (128 + signal.SIGTERM, b""))
        self.assertEqual(os.listdir(self.folder / "tmp"), [])


if __name__ == "__main__":
    run_main(unittest.main, __doc__)
