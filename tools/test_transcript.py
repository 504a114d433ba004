#!/usr/bin/env python3
"""Tests of tools/pcap and tools/chart on the outputs of examples/ and on texts that are no transcripts."""
import math
import os
import re
import struct
import subprocess
import tempfile
import time
import unittest
from pathlib import Path
from unittest import mock
from xml.etree import ElementTree

import transcript
from eap import ciphers
from eap.usim import sqn_of
from ends import UNWRITTEN, Missing, run_main
from trial import loaded

TOOLS = Path(__file__).resolve().parent
EXAMPLES, CHARTS = TOOLS.parent / "examples", TOOLS.parent / "docs/charts"
FULL = EXAMPLES / "session-full-print.expected"
PSEUDONYMS = EXAMPLES / "pseudonyms-full-print.expected"
AGAIN = EXAMPLES / "re-authentication-full-print.expected"
# The transcripts of the examples. The replies of a service are none.
EXPECTED = sorted(it.with_suffix(".expected") for it in EXAMPLES.glob("*.scenario"))


chart, pcap = loaded("chart"), loaded("pcap")
import ladders
import picture

SVG = "{http://www.w3.org/2000/svg}"
# A challenge by each method, and answers that tell a permanent identity, a pseudonym and no identity of a known form.
AKA, PRIME = "0102000817010000", "0102000832010000"
PERMANENT, PSEUDONYM = (b"0001010000000001@realm", b"20123456789abcdef0123456789abcdef@realm")

# The first packet is lost, the second arrives twice, and the answer reaches another session's server.
PACKETS = """round 1
job 2
session 7 open
session 123456 open
start 7 sent 1
packet 1 0101000501
repeat 7 sent 2
packet 2 0101000501
deliver 7 peer 2 sent 3
packet 3 020100060130
deliver 7 peer 2 sent 4
packet 4 020100060130
start 123456 sent 5
packet 5 0101000501
deliver 123456 server 4 exhausted 8796093022207 sent 6
packet 6 0102000c170c00000c014000
giveup 7 peer ended failure givenup
deliver 7 peer 9 nosuchpacket
closed 001010000000001 8796093022207 8796093022208 1 0 0 0
premise held
"""

LADDER = """session 7, round 1, job 2: method not told, subscriber not told
server: not ended, peer: failure givenup

                     peer                                                           server                         centre
                       |                                                              |                             |
                       |                                                              | start                       |
                       |    x-- 1 Request/Identity -----------------------------------|                             |
                       |                                                              | repeat                      |
                       |<-- 2 Request/Identity (copy of 1) ---------------------------|                             |
                       |--- 3 Response/Identity ---------------------------------x    |                             |
                       |<-- 2 Request/Identity (copy of 1, again) --------------------|                             |
                       |--- 4 Response/Identity (copy of 3, to session 123456) -->    |                             |
              gives up |                                                              |                             |
packet 9: nosuchpacket |                                                              |                             |
"""


# The network changes a byte of a packet, leaves none of another copy, and cuts the copy, which is lost. The empty copy reaches
# another session.
CHANGED = """round 1
job 2
session 7 open
session 8 open
start 7 sent 1
packet 1 0101000501
tamper 1 4 17 made 2
packet 2 0101000517
cut 1 0 made 3
packet 3\x20
cut 1 5 nosuchplace
tamper 9 0 00 nosuchpacket
deliver 7 peer 2 ignored othertype
cut 2 4 made 4
packet 4 01010005
deliver 8 peer 3 ignored notforme
deliver 7 peer 1 sent 5
packet 5 020100060130
deliver 7 peer 2 ignored closed
premise held
"""

CHANGED_LADDER = """session 7, round 1, job 2: method not told, subscriber not told
server: not ended, peer: not ended

                peer                                                     server                centre
                  |                                                        |                    |
                  |                                                        | start              |
                  |                tamper 1 4 17: packet 2                 |                    |
                  |            cut 1 0: packet 3, to session 8             |                    |
                  |                  cut 1 5: nosuchplace                  |                    |
ignored othertype |<-- 2 Request/type 23 (changed copy of 1) ----------    |                    |
                  |                cut 2 4: packet 4, lost                 |                    |
                  |<-- 1 Request/Identity ---------------------------------|                    |
                  |--- 5 Response/Identity ---------------------------x    |                    |
   ignored closed |<-- 2 Request/type 23 (changed copy of 1, again) ---    |                    |
"""


# Two sessions of EAP-SIM, each with packets of its own, between events of a session.
SIM = """round 1
job 2
session 7 open
start 7 sent 1
packet 1 0101000501
vector 001010000000001 1
vector 001010000000001 2
sim 001010000000001 start sent 1
packet 1 01010014120a00000a0100000f02000200010000
sim 001010000000001 peer 1 sent 2
packet 2 0201000c120e000016010000
sim 001010000000001 server 9 nosuchpacket
sim 001010000000001 peer 1 sent 3
packet 3 0201000c120e000016010000
sim 001010000000001 server 3 sent 4 ended failure clienterror 0
packet 4 04010004
vector 001010000000001 3
vector 001010000000001 4
sim 001010000000001 start sent 1
packet 1 01010014120a00000a0100000f02000200010000
deliver 7 peer 1 sent 2
packet 2 020100060130
closed 001010000000001 0 4 4 0 4 0
premise held
"""

SIM_LADDER = """session sim1, round 1, job 2: EAP-SIM, subscriber 001010000000001
server: failure clienterror 0, peer: not ended

   peer                                                         server                         centre
     |                                                            |                             |
     |                                                            | start                       |
     |<-- 1 Request/SIM-Start (AT_PERMANENT_ID_REQ) --------------|                             |
     |--- 2 Response/SIM-Client-Error -----------------------x    |                             |
     |                                                            | packet 9: nosuchpacket      |
     |<-- 1 Request/SIM-Start (AT_PERMANENT_ID_REQ, again) -------|                             |
     |--- 3 Response/SIM-Client-Error (copy of 2) --------------->| ended failure clienterror 0 |
     |    x-- 4 Failure ------------------------------------------|                             |
"""


def frames_in(capture):
    """The frames of a pcapng file, each with its time, its bytes and its comments."""
    frames, place = [], 0
    while place < len(capture):
        kind, size = struct.unpack_from("<II", capture, place)
        assert size % 4 == 0 and capture[place + size - 4:place + size] == struct.pack("<I", size), (kind, size)
        if kind == pcap.FRAME:
            frames.append(frame_in(capture[place + 8:place + size - 4]))
        place += size
    return frames


def frame_in(body):
    _, high, low, size, length = struct.unpack_from("<IIIII", body)
    assert size == length
    comments, place = [], 20 + size + -size % 4
    while body[place:place + 4] != bytes(4):
        code, count = struct.unpack_from("<HH", body, place)
        comments.append((code, body[place + 4:place + 4 + count].decode()))
        place += 4 + count + -count % 4
    return (high << 32) + low, body[20:20 + size], comments


class Captures(unittest.TestCase):
    def test_each_delivery_and_each_lost_packet_is_a_frame(self):
        frames = frames_in(pcap.capture(pcap.frames_of(transcript.sessions_in(PACKETS))))
        peer, server, other = (bytes.fromhex(it) for it in ("020000000007", "020001000007", "020001123456"))
        shown = [(time // 1000, data[:6], data[18:], [text for _, text in comments]) for time, data, comments in frames]
        request, answer = bytes.fromhex("0101000501"), bytes.fromhex("020100060130")
        lost = "packet {} is lost: it is never delivered".format
        self.assertEqual(shown, [
            (5, peer, request, ["line 5: start 7 sent 1", lost(1)]),
            (9, peer, request, ["line 7: repeat 7 sent 2", "line 9: deliver 7 peer 2 sent 3"]),
            (9, server, answer, ["line 9: deliver 7 peer 2 sent 3", lost(3)]),
            (11, peer, request, ["line 7: repeat 7 sent 2", "line 11: deliver 7 peer 2 sent 4", "packet 2 is delivered again"]),
            (13, bytes.fromhex("020000123456"), request, ["line 13: start 123456 sent 5", lost(5)]),
            (15, other, answer, ["line 11: deliver 7 peer 2 sent 4", "line 15: deliver 123456 server 4 exhausted 8796093022207 sent 6",
                                 "packet 4 was sent in session 7"]),
            (15, bytes.fromhex("020000123456"), bytes.fromhex("0102000c170c00000c014000"),
             ["line 15: deliver 123456 server 4 exhausted 8796093022207 sent 6", lost(6)]),
        ])
        # EAP over LAN: its type, version 2, packet type 0, and the length of the EAP packet.
        self.assertTrue(all(data[12:18] == b"\x88\x8e\x02\x00" + len(data[18:]).to_bytes(2, "big") for _, data, _ in frames))

    def test_changed_copy_is_a_frame_that_says_so(self):
        frames = frames_in(pcap.capture(pcap.frames_of(transcript.sessions_in(CHANGED))))
        shown = [(time // 1000, data[:6].hex(), data[18:].hex(), [text for _, text in comments][1:]) for time, data, comments in frames]
        copy = "packet {} is a changed copy of packet {}".format
        self.assertEqual(shown, [
            (13, "020000000007", "0101000517", ["line 13: deliver 7 peer 2 ignored othertype", copy(2, 1)]),
            (14, "020000000007", "01010005", [copy(4, 2), "packet 4 is lost: it is never delivered"]),
            (16, "020000000008", "", ["line 16: deliver 8 peer 3 ignored notforme", copy(3, 1), "packet 3 was sent in session 7"]),
            (17, "020000000007", "0101000501", ["line 17: deliver 7 peer 1 sent 5"]),
            (17, "020001000007", "020100060130", ["packet 5 is lost: it is never delivered"]),
            (19, "020000000007", "0101000517", ["line 19: deliver 7 peer 2 ignored closed", "packet 2 is delivered again", copy(2, 1)]),
        ])

    def test_session_of_eap_sim_is_a_conversation_of_its_own(self):
        frames = frames_in(pcap.capture(pcap.frames_of(transcript.sessions_in(SIM))))
        shown = [(time // 1000, data[:6].hex(), data[6:12].hex(), data[18:20].hex()) for time, data, _ in frames]
        self.assertEqual(shown, [
            (10, "020002000001", "020003000001", "0101"), (10, "020003000001", "020002000001", "0201"),
            (13, "020002000001", "020003000001", "0101"), (15, "020003000001", "020002000001", "0201"),
            (15, "020002000001", "020003000001", "0401"), (19, "020002000002", "020003000002", "0101"),
            (21, "020000000007", "020001000007", "0101"), (21, "020001000007", "020000000007", "0201")])

    def test_full_print_is_captured(self):
        with tempfile.TemporaryDirectory() as folder:
            path = Path(folder) / "capture"
            done = subprocess.run([TOOLS / "pcap", FULL, path], capture_output=True, text=True)
            self.assertEqual((done.returncode, done.stdout, done.stderr), (0, "", ""))
            self.assertEqual(len(frames_in(path.read_bytes())), 5)

    def test_longest_packet_and_any_line_fit_into_a_capture(self):
        longest, note = "0101ffff01" + "00" * 65530, " counter 1" * 7000
        text = PACKETS.replace("packet 1 0101000501", f"packet 1 {longest}")
        text = text.replace("deliver 7 peer 2 sent 3", f"deliver 7 peer 2{note} sent 3")
        frames = frames_in(pcap.capture(pcap.frames_of(transcript.sessions_in(text))))
        self.assertEqual(frames[0][1][18:].hex(), longest)
        line = f"line 9: deliver 7 peer 2{note} sent 3"
        self.assertIn((pcap.COMMENT, line[:65535]), frames[1][2])


def response(identity):
    return f"0201{5 + len(identity):04x}01{identity.hex()}"


def sessions_of(lines):
    return transcript.sessions_in("".join(line + "\n" for line in ["round 1", "job 1", "session 1 open", *lines]))


def ladder_of(lines):
    return ladders.ladder_of(sessions_of(lines)[0])


class Charts(unittest.TestCase):
    def ladders(self, text):
        return [ladders.ladder_of(session) for session in transcript.sessions_in(text)]

    def test_ladder_shows_each_event(self):
        shown = self.ladders(PACKETS)
        self.assertEqual(chart.text_ladder(shown[0], chart.columns_of(shown)), LADDER)

    def test_changed_copy_comes_from_the_network(self):
        shown = self.ladders(CHANGED)
        self.assertEqual(chart.text_ladder(shown[0], chart.columns_of(shown)), CHANGED_LADDER)
        self.assertEqual([row.label for row in shown[1].rows], ["3 (changed copy of 1, of session 7)"])
        # A copy with the bytes of its packet is no packet that an end repeats.
        lines = ["start 1 sent 1", "packet 1 0101000501", "tamper 1 4 01 made 2", "packet 2 0101000501", "deliver 1 peer 2 ignored closed"]
        self.assertEqual([row.label for row in ladder_of(lines).rows[3:]], ["2 Request/Identity (changed copy of 1)"])

    def test_session_of_eap_sim_has_a_ladder(self):
        sessions = transcript.sessions_in(SIM)
        self.assertEqual([session.number for session in sessions], [7, "sim1", "sim2"])
        shown = ladders.ladder_of(sessions[1])
        self.assertEqual(chart.text_ladder(shown, chart.columns_of([shown])), SIM_LADDER)
        brief = "".join(line + "\n" for line in SIM.splitlines() if not line.startswith("packet "))
        self.assertEqual(ladders.ladder_of(transcript.sessions_in(brief)[1]).facts, "EAP-SIM, subscriber 001010000000001")
        done = subprocess.run([TOOLS / "chart", "-", "--session", "sim1"], input=SIM, capture_output=True, text=True)
        self.assertEqual((done.returncode, done.stdout, done.stderr), (0, SIM_LADDER, ""))
        done = subprocess.run([TOOLS / "chart", "-", "--session", "sim3"], input=SIM, capture_output=True, text=True)
        self.assertEqual((done.returncode, done.stderr), (2, "chart: -: it has no session sim3\n"))

    def test_changed_copy_tells_nothing_of_its_session(self):
        # The copies tell another method and another identity than the ends.
        lines = ["start 1 sent 1", f"packet 1 {AKA}", f"deliver 1 peer 1 sent 2", f"packet 2 {response(PERMANENT)}", "tamper 1 4 32 made 3",
                 f"packet 3 {PRIME}", "tamper 2 20 39 made 4", f"packet 4 {response(PERMANENT.replace(b'1@', b'9@'))}"]
        self.assertEqual(ladder_of(lines).facts, "EAP-AKA, subscriber 001010000000001")

    def test_picture_has_each_label(self):
        for text in [CHANGED, SIM, *(path.read_text() for path in EXPECTED)]:
            shown = [it for it in self.ladders(text) if it.rows]
            if shown:
                root = ElementTree.fromstring(picture.picture(shown))
                texts = ["".join(it.itertext()) for it in root.iter(f"{SVG}text")]
                rows = [row for it in shown for row in it.rows]
                labels = [row.label if isinstance(row, ladders.Answer) else row.short for row in rows if not isinstance(row, ladders.Words)]
                labels += [row.words for row in rows if isinstance(row, ladders.Words) and row.end == "network"]
                self.assertEqual([it for it in labels if it not in texts], [], text[:200])

    def test_label_of_a_picture_has_no_name_that_an_earlier_arrow_has(self):
        rows = [row for ladder in self.ladders(PACKETS) for row in ladder.rows if isinstance(row, ladders.Arrow)]
        self.assertEqual([row.short for row in rows], [
            "1 Request/Identity", "2 (copy of 1)", "3 Response/Identity", "2 (copy of 1, again)", "4 (copy of 3, to session 123456)",
            "5 Request/Identity", "4 (copy of 3, of session 7)", "6 Request/AKA-Notification"])
        # The first delivery of packet 1 is in another session, so no arrow of this one has its name.
        lines = ["session 2 open", "start 1 sent 1", "packet 1 0101000501", "deliver 2 peer 1 ignored closed", "deliver 1 peer 1 ignored closed"]
        self.assertEqual([(row.label, row.short) for row in ladder_of(lines).rows[1:]], [("1 Request/Identity (again)", "1 Request/Identity")])


class Titles(unittest.TestCase):
    def facts(self, *lines):
        return ladder_of(lines).facts

    def test_method_and_subscriber_come_from_the_packets(self):
        said = ["start 1 sent 1", "packet 1 0101000501", "deliver 1 peer 1 sent 2"]
        asked = ["deliver 1 server 2 drew 1 sent 3"]
        cases = [
            ([*said, f"packet 2 {response(PERMANENT)}"], "method not told, subscriber 001010000000001"),
            ([*said, f"packet 2 {response(PERMANENT)}", *asked, f"packet 3 {AKA}"], "EAP-AKA, subscriber 001010000000001"),
            ([*said, f"packet 2 {response(PERMANENT)}", *asked, f"packet 3 {PRIME}"], "EAP-AKA', subscriber 001010000000001"),
            ([*said, f"packet 2 {response(PSEUDONYM)}", *asked, f"packet 3 {AKA}"], "EAP-AKA, subscriber under a pseudonym"),
            ([*said, f"packet 2 {response(b'4' + PSEUDONYM[1:])}"], "method not told, subscriber under a re-authentication identity"),
            ([*said, f"packet 2 {response(b'nobody@realm')}"], "method not told, subscriber not told"),
            (said, "method not told, subscriber not told"),
            (["giveup 1 peer ended failure givenup"], "method not told, subscriber not told"),
        ]
        for lines, facts in cases:
            self.assertEqual(self.facts(*lines), facts, lines)

    def test_brief_print_has_no_method(self):
        drawn = ["start 1 sent 1", "deliver 1 peer 1 sent 2", "deliver 1 server 2 drew 1 sent 3"]
        closed = ["closed 001010000000001 0 1 1 0 1 0", "closed 001010000000002 0 1 1 0 1 0"]
        unknown, known = "method and subscriber not in a brief print", "method not in a brief print, subscriber 001010000000001"
        self.assertEqual(self.facts(*drawn), unknown)
        # The only number that moved is that of the session's subscriber, and then only if the round's last line is there.
        self.assertEqual(self.facts(*drawn, closed[0], "premise held"), known)
        self.assertEqual(self.facts(*drawn, closed[0]), unknown)
        self.assertEqual(self.facts(*drawn, *closed, "premise held"), unknown)
        # A session that draws nothing may be of any subscriber.
        self.assertEqual(self.facts(*drawn[:2], closed[0], "premise held"), unknown)

    def test_context_is_of_a_subscriber_whose_number_moved_before(self):
        again = ["round 2", "job 1", "session 2 open", "start 2 sent 1", "deliver 2 peer 1 sent 2", "deliver 2 server 2 resumed 1 sent 3"]
        for moved, facts in ((1, "method not in a brief print, subscriber 001010000000001"), (2, "method and subscriber not in a brief print")):
            closed = [f"closed 00101000000000{number} 0 1 1 0 1 0" for number in range(1, moved + 1)]
            sessions = sessions_of(["start 1 sent 1", *closed, "premise held", *again, "premise held"])
            self.assertEqual(ladders.ladder_of(sessions[1]).facts, facts)

    def test_no_subscriber_of_an_example_is_wrong(self):
        for path in EXPECTED:
            scenario = path.with_suffix(".scenario").read_text().splitlines()
            rows = [line.split() for line in scenario]
            told = {words[1]: words[2] for words in rows if len(words) > 6 and words[0] == "session"}
            sims = [words[1] for words in rows if len(words) == 4 and words[0] == "sim"]
            told |= {f"sim{place}": imsi for place, imsi in enumerate(sims, 1)}
            for session in transcript.sessions_in(path.read_text()):
                imsi = transcript.subscriber_of(session)
                # In the first session of this one a device tells the identity of another subscriber.
                if (path.stem, session.number) != ("foreign-pseudonym", 1):
                    self.assertIn(imsi, ("", told[str(session.number)]), (path.name, session.number))

    def test_outcome_is_that_of_both_ends(self):
        both = ["start 1 sent 1", "deliver 1 peer 1 ended success", "giveup 1 server ended success"]
        cases = [
            (both, "both ends succeed"),
            ([*both, "session 1 agree"], "both ends succeed, with equal keys"),
            ([*both, "session 1 differ"], "both ends succeed, but their keys differ"),
            (both[:2], "server: not ended, peer: success"),
            ([*both[:1], "deliver 1 peer 1 ended failure notified 16384"], "server: not ended, peer: failure notified 16384"),
            ([*both[:1], "giveup 1 server ended failure givenup", "giveup 1 peer ended failure givenup"],
             "server: failure givenup, peer: failure givenup"),
        ]
        for lines, outcome in cases:
            self.assertEqual(ladder_of(lines).outcome, outcome)

    def test_picture_has_all_of_it(self):
        root = ElementTree.fromstring(picture.picture([ladder_of(["start 1 sent 1"])]))
        self.assertEqual([it.text for it in root.iter(f"{SVG}text")][:3], [
            "session 1, round 1, job 1", "method and subscriber not in a brief print", "server: not ended, peer: not ended"])


class Numbers(unittest.TestCase):
    def test_both_ends_speak_of_one_number(self):
        lines = (EXAMPLES / "stale-vector.expected").read_text()
        rows = [row for session in transcript.sessions_in(lines) for row in ladders.ladder_of(session).rows]
        told = [row.label if isinstance(row, ladders.Answer) else row.words for row in rows]
        self.assertEqual([it for it in told if it and it.split()[0] in ("drew", "moved", "accepted", "sync")], [
            "drew 1", "sync 500 (000000003e94)", "moved 1 500", "drew 501", "accepted 501 (000000003eb5)",
            "drew 502", "accepted 502 (000000003ed6)"])

    def test_number_of_an_sqn(self):
        self.assertEqual([ladders.own_note(f"accepted {sqn}", 5) for sqn in ("00000000016b", "ffffffffffff", "000000000000")], [
            "accepted 11 (00000000016b)", "accepted 8796093022207 (ffffffffffff)", "accepted 0 (000000000000)"])
        self.assertEqual([ladders.own_note(note, 5) for note in ("counter 1", "wrongmac", "accepted x")], ["counter 1", "wrongmac", "accepted x"])

    def test_index_length_is_that_of_most_sqns(self):
        for bits in range(7):
            with self.subTest(bits=bits):
                sqns = [sqn_of(number, bits).hex() for number in (1, 2, 3, 40, 41, 70)]
                self.assertEqual(transcript.index_bits(sqns), bits)
                self.assertEqual([transcript.seq_of(sqn, bits) for sqn in sqns], [1, 2, 3, 40, 41, 70])
        self.assertEqual(transcript.index_bits([]), 5)


class Slopes(unittest.TestCase):
    """Arrows in a picture, each as its class and the sides and heights of its two ends."""

    def ways(self, *lines):
        root = ElementTree.fromstring(picture.picture([ladder_of(lines)]))
        lives = [float(it.get("x1")) for it in root.iter(f"{SVG}line") if it.get("class") == "life"]
        sides = {lives[0]: "peer", lives[1]: "server"}
        end = lambda it, number: (sides.get(float(it.get(f"x{number}"))), float(it.get(f"y{number}")))
        kinds = {f"{SVG}line": "class", f"{SVG}path": "class", f"{SVG}circle": "class"}
        self.marks = [it.get(kinds[it.tag]) for it in root.iter() if it.tag in kinds]
        return [(it.get("class"), end(it, 1), end(it, 2)) for it in root.iter(f"{SVG}line") if it.get("class") in ("way", "lost")]

    def test_each_arrow_falls_from_its_sending_to_its_arrival(self):
        ways = self.ways("start 1 sent 1", "deliver 1 peer 1 sent 2", "deliver 1 server 2 ended failure givenup")
        self.assertEqual([(tail[0], tip[0]) for _, tail, tip in ways], [("server", "peer"), ("peer", "server")])
        (_, first, arrived), (_, answered, last) = ways
        self.assertTrue(first[1] < arrived[1] < answered[1] < last[1], ways)

    def test_late_packet_arrives_lower(self):
        ways = self.ways("start 1 sent 1", "repeat 1 sent 2", "deliver 1 peer 2 ignored closed", "deliver 1 peer 1 ignored closed")
        (_, second, soon), (_, first, late) = ways
        self.assertTrue(first[1] < second[1] < soon[1] < late[1], ways)

    def test_packet_that_comes_again_has_several_arrows_from_one_sending(self):
        ways = self.ways("start 1 sent 1", *["deliver 1 peer 1 ignored closed"] * 3)
        self.assertEqual(len({tail for _, tail, _ in ways}), 1)
        heights = [tip[1] for _, _, tip in ways]
        self.assertEqual((len(set(heights)), heights), (3, sorted(heights)))

    def test_lost_packet_ends_with_a_cross_before_the_other_line(self):
        (kind, tail, tip), = self.ways("start 1 sent 1")
        self.assertEqual((kind, tail[0], tip[0], self.marks.count("cross")), ("lost", "server", None, 1))
        self.assertLess(tail[1], tip[1])

    def test_packet_of_another_session_is_open_at_one_end(self):
        (kind, tail, tip), = self.ways("session 2 open", "start 2 sent 1", "deliver 1 peer 1 ignored closed")
        self.assertEqual((kind, tail[0], tip[0], self.marks.count("open")), ("way", None, "peer", 1))
        self.assertLess(tail[1], tip[1])

    def test_no_row_stands_above_the_one_before(self):
        for path in EXPECTED:
            for session in transcript.sessions_in(path.read_text()):
                if session.events:
                    rows = ladders.rows_of(session)
                    heights, left = picture.heights_of(rows, 0)
                    shown = [y for row, y in zip(rows, heights) if not picture.is_short(row)]
                    self.assertEqual(shown, sorted(set(shown)), (path.name, session.number))
                    for row, y in zip(rows, heights):
                        if isinstance(row, ladders.Arrow) and not row.foreign:
                            self.assertLess(left[row.packet], y, (path.name, session.number))


def letters_of(label):
    """The places of a label's letters in a picture, each 8 pixels from the one before. A label beside an arrow is turned with it."""
    turned = re.fullmatch(r"rotate\((.*)\)", label.get("transform", ""))
    turn, *at = map(float, turned[1].split()) if turned else (0, float(label.get("x")), float(label.get("y")))
    lines = [(float(it.get("y")), it.text) for it in label] or [(at[1], label.text)]
    right, down = math.cos(math.radians(turn)), math.sin(math.radians(turn))
    return [(at[0] + off * right + (at[1] - y) * down, at[1] + off * down - (at[1] - y) * right)
            for y, words in lines for off in range(-int(len(words.strip()) * 3.3), int(len(words.strip()) * 3.3), 8)]


class Labels(unittest.TestCase):
    def test_no_label_of_a_chart_covers_another_one(self):
        for path in CHARTS.glob("*.svg"):
            for group in ElementTree.parse(path).iter(f"{SVG}g"):
                labels = [letters_of(it) for it in group.iter(f"{SVG}text") if it.get("class") == "label"]
                near = min((math.dist(one, two) for place, letters in enumerate(labels) for others in labels[:place]
                            for one in letters for two in others), default=99)
                self.assertGreater(near, 8, (path.name, group[0].text))


class Pages(unittest.TestCase):
    def chart(self, *words, status=0):
        done = subprocess.run([TOOLS / "chart", *words], capture_output=True, text=True, env=os.environ | {"COLUMNS": "80"})
        self.assertEqual(done.returncode, status, done.stderr)
        return done.stdout if status == 0 else done.stderr

    def size(self, *words):
        return [int(it) for it in re.search(r'width="([0-9]+)" height="([0-9]+)"', self.chart(*words, "--svg", "-")).groups()]

    def test_session_without_events_is_left_out(self):
        text = (EXAMPLES / "foreign-pseudonym.expected").read_text()
        self.assertIn("session 2 open", text)
        shown = self.chart(EXAMPLES / "foreign-pseudonym.expected")
        self.assertEqual(re.findall(r"(?m)^session ([0-9]+),", shown), ["1", "3", "4", "5"])

    def test_only_the_sessions_that_are_asked_for_are_shown(self):
        path = EXAMPLES / "storm.expected"
        shown = self.chart(path, "--session", "23", "--session", "2")
        self.assertEqual(re.findall(r"(?m)^session ([0-9]+),", shown), ["2", "23"])
        self.assertEqual(self.chart(path, "--svg", "-", "--session", "4").count("<g "), 1)

    def test_session_that_cannot_be_shown_is_told(self):
        path = EXAMPLES / "foreign-pseudonym.expected"
        cases = [(path, "9", f"{path}: it has no session 9\n"), (path, "2", f"{path}: session 2 has no event\n")]
        for name, number, reason in cases:
            self.assertEqual(self.chart(name, "--session", number, status=2), f"chart: {reason}")

    def test_transcript_whose_sessions_have_no_event_is_told(self):
        with tempfile.TemporaryDirectory() as folder:
            (Path(folder) / "empty").write_text("round 1\njob 1\nsession 1 open\npremise held\n")
            self.assertIn("no session has an event\n", self.chart(Path(folder) / "empty", status=2))

    def test_ladders_stand_side_by_side(self):
        path = EXAMPLES / "storm.expected"
        sizes = {columns: self.size(path, "--columns", str(columns)) for columns in (1, 2, 4, 50)}
        self.assertEqual([wide for wide, _ in sizes.values()], sorted({wide for wide, _ in sizes.values()}))
        self.assertEqual([high for _, high in sizes.values()], sorted({high for _, high in sizes.values()}, reverse=True))
        lines = self.chart(path, "--columns", "2").splitlines()
        self.assertRegex(lines[0], r"^session 1, .* session 2, ")
        self.assertEqual(max(line.count("| ended success") for line in lines), 2)
        for word in "0", "-1", "x":
            self.assertIn(f"'{word}' is no number from 1", self.chart(path, f"--columns={word}", status=2))

    def test_picture_is_no_wider_than_some_1200_pixels(self):
        for path in EXAMPLES.glob("*-full-print.expected"):
            self.assertLess(self.size(path)[0], 1250, path.name)
        self.assertGreater(self.size(EXAMPLES / "storm.expected")[0], 800)

    def test_picture_is_told_to_screen_readers(self):
        root = ElementTree.fromstring(self.chart(FULL, "--svg", "-"))
        groups = list(root.iter(f"{SVG}g"))
        self.assertEqual([root.get("role"), root[0].tag, root[1].tag, *(it.get("role") for it in groups)],
                         ["group", f"{SVG}title", f"{SVG}desc", "img"])
        self.assertEqual(groups[0].find(f"{SVG}title").text,
                         "session 1, round 1, job 1: EAP-AKA, subscriber 001010000000001; both ends succeed, with equal keys")
        self.assertEqual(groups[0].find(f"{SVG}desc").text.splitlines()[:5], [
            "server: start", "server to peer: 1 Request/Identity", "peer to server: 2 Response/Identity (permanent)",
            "centre to server: drew 1", "server to peer: 3 Request/AKA-Challenge; peer: accepted 1 (000000000021)"])
        lost = ElementTree.fromstring(picture.picture([ladder_of(["start 1 sent 1"])]))
        self.assertIn("server to peer: 1, lost", lost.find(f"{SVG}g/{SVG}desc").text)


class Growth(unittest.TestCase):
    """Eight times the lines take some 8 times the processor time, and not 64 times."""

    def seconds(self, lines):
        text = "".join(line + "\n" for line in ["round 1", "job 1", *lines])
        began = time.process_time()
        picture.picture([ladders.ladder_of(session) for session in transcript.sessions_in(text)])
        return time.process_time() - began

    def is_linear(self, lines_of):
        few, many = list(lines_of(500)), list(lines_of(4000))
        # Other work on the machine may lengthen one try, and hardly each.
        ratios = []
        while not ratios or ratios[-1] > 22 and len(ratios) < 4:
            short = min(self.seconds(few) for _ in range(3))
            ratios.append(self.seconds(many) / short)
        self.assertLess(ratios[-1], 22, ratios)

    def test_chart_of_many_sessions(self):
        self.is_linear(lambda count: (line for number in range(1, count + 1) for line in (
            f"job {number}", f"session {number} open", f"start {number} sent 1", f"deliver {number} peer 1 sent 2",
            f"deliver {number} server 2 ended failure givenup")))

    def test_chart_of_many_packets_of_a_session(self):
        self.is_linear(lambda count: ["session 1 open", "start 1 sent 1", *(line for number in range(2, count + 2) for line in (
            f"repeat 1 sent {number}", f"packet {number} 01010005{number:08x}"))])

    def test_chart_of_many_deliveries_of_a_packet(self):
        self.is_linear(lambda count: ["session 1 open", "start 1 sent 1", *["deliver 1 peer 1 ignored closed"] * count])

    def test_label_of_a_packet_that_reaches_many_sessions_names_some(self):
        lines = ["session 1 open", *(f"session {number} open" for number in range(10, 23)), "start 1 sent 1", "cut 1 0 made 2",
                 *(f"deliver {number} peer {packet} ignored notforme" for packet in (1, 2) for number in range(10, 23))]
        rows = ladders.ladder_of(transcript.sessions_in("".join(line + "\n" for line in ["round 1", "job 1", *lines]))[0]).rows
        places = "".join(f", to session {number}" for number in range(10, 18)) + ", and 5 more"
        self.assertIn(f"1 ({places[2:]})", [it.label for it in rows if isinstance(it, ladders.Arrow)])
        self.assertIn(f"cut 1 0: packet 2{places}", [it.words for it in rows])

    def test_chart_of_many_packets_that_cross_in_one_place(self):
        self.is_linear(lambda count: ["session 1 open", "start 1 sent 1", *(f"repeat 1 sent {it}" for it in range(2, count + 1)),
                                      *(f"deliver 1 peer {it} ignored closed" for it in range(count, 0, -1))])


class Names(unittest.TestCase):
    def test_message_has_the_name_of_its_method(self):
        cases = [
            ("0101000501", "Request/Identity"),
            ("0102000c170500000a010000", "Request/AKA-Identity"),
            ("0104000c320500000a010000", "Request/AKA'-Identity"),
            ("0202000832020000", "Response/AKA'-Authentication-Reject"),
            ("0202001c3204000004040102030405060708090a0b0c0d0e18010001", "Response/AKA'-Synchronization-Failure"),
            ("0102000832030000", "Request/type 50"),
            ("0102000503", "Request/type 3"),
            ("03020004", "Success"),
        ]
        self.assertEqual([transcript.name_of(bytes.fromhex(data)) for data, _ in cases], [name for _, name in cases])

    def test_each_end_of_a_refused_challenge_is_drawn(self):
        session = next(it for it in transcript.sessions_in((EXAMPLES / "bidding-down.expected").read_text()) if it.number == 2)
        words = [row.words for row in ladders.ladder_of(session).rows if isinstance(row, ladders.Arrow)]
        self.assertEqual(words[-2:], ["ended failure rejected", "ended failure downgrade"])


class Identities(unittest.TestCase):
    def packets(self):
        return [packet for session in transcript.sessions_in(PSEUDONYMS.read_text()) for packet in session.packets]

    def comments(self):
        frames = pcap.frames_of(transcript.sessions_in(PSEUDONYMS.read_text()))
        return [it for frame in frames for it in frame.comments if it.startswith("AT_NEXT_PSEUDONYM ")]

    def test_message_is_marked_by_what_it_says_of_identities(self):
        marks = [(packet.number, transcript.marks_of(packet)) for packet in self.packets()]
        self.assertEqual([it for it in marks if it[1]], [
            (2, ["permanent"]), (3, ["AT_ENCR_DATA"]),
            (7, ["pseudonym"]), (8, ["AT_ANY_ID_REQ"]), (9, ["pseudonym"]), (10, ["AT_ENCR_DATA"]),
            (14, ["permanent"]), (15, ["AT_ENCR_DATA"]),
            (19, ["pseudonym"]), (20, ["AT_ANY_ID_REQ"]), (21, ["pseudonym"]),
        ])

    @unittest.skipIf(ciphers.Cipher is None, "Python's cryptography is missing")
    def test_pseudonym_that_a_challenge_gives_is_the_next_one_that_is_sent(self):
        packets = self.packets()
        given = {it.number: transcript.shown_in(it) for it in packets}
        told = {it.number: transcript.identity_in(it) for it in packets}
        for challenge, answers in ((3, (7, 9)), (15, (19, 21))):
            for answer in answers:
                self.assertEqual(given[challenge], [f"AT_NEXT_PSEUDONYM {told[answer].decode().partition('@')[0]}"], answer)

    @unittest.skipIf(ciphers.Cipher is None, "Python's cryptography is missing")
    def test_capture_tells_each_pseudonym_that_is_given(self):
        self.assertEqual([len(it.split(" ")[1]) for it in self.comments()], [33, 33, 33])

    def test_pseudonym_is_told_only_with_its_key(self):
        challenge = self.packets()[2]
        for key in (None, bytes(16)):
            challenge.session.k_encr = key
            self.assertEqual((transcript.shown_in(challenge), transcript.marks_of(challenge)), ([], ["AT_ENCR_DATA"]))

    def test_without_cryptography_a_pseudonym_that_is_given_is_told_to_be_missing(self):
        with mock.patch.object(ciphers, "Cipher", None):
            self.assertEqual(transcript.shown_in(self.packets()[0]), [])
            with self.assertRaisesRegex(Missing, "cryptography is missing: apt-get install python3-cryptography"):
                self.comments()


class Reauthentications(unittest.TestCase):
    def packets(self):
        return [packet for session in transcript.sessions_in(AGAIN.read_text()) for packet in session.packets]

    def test_message_is_marked_by_what_it_says_of_identities(self):
        marks = [(packet.number, transcript.name_of(packet.data), transcript.marks_of(packet)) for packet in self.packets()]
        self.assertEqual([it for it in marks if it[0] in (7, 8, 9, 13, 14, 24, 25)], [
            (7, "Response/Identity", ["re-authentication"]),
            (8, "Request/AKA-Reauthentication", ["AT_ENCR_DATA"]), (9, "Response/AKA-Reauthentication", ["AT_ENCR_DATA"]),
            (13, "Request/AKA-Identity", ["AT_ANY_ID_REQ"]), (14, "Response/AKA-Identity", ["re-authentication"]),
            (24, "Response/Identity", ["re-authentication"]), (25, "Request/AKA'-Reauthentication", ["AT_ENCR_DATA"]),
        ])

    def test_each_counter_stands_at_its_end(self):
        for number, server, peer in (2, "resumed 1", "counter 1"), (3, "resumed 2", "counter 2"):
            session = next(it for it in transcript.sessions_in(AGAIN.read_text()) if it.number == number)
            words = [(row.to, row.words) for row in ladders.ladder_of(session).rows if isinstance(row, ladders.Arrow)]
            self.assertIn(("server", server), words)
            self.assertIn(("peer", peer), words)

    def test_small_counter_is_drawn(self):
        session = next(it for it in transcript.sessions_in((EXAMPLES / "small-counter.expected").read_text()) if it.number == 3)
        words = [row.words for row in ladders.ladder_of(session).rows if isinstance(row, ladders.Arrow)]
        self.assertIn("small 1", words)

    @unittest.skipIf(ciphers.Cipher is None, "Python's cryptography is missing")
    def test_capture_tells_what_each_message_has_encrypted(self):
        shown = {it.number: [" ".join(text.split()[:2]) if "COUNTER" in text else text.split()[0]
                             for text in transcript.shown_in(it)] for it in self.packets()}
        self.assertEqual({number: texts for number, texts in shown.items() if texts}, {
            3: ["AT_NEXT_PSEUDONYM", "AT_NEXT_REAUTH_ID"],
            8: ["AT_COUNTER 1", "AT_NONCE_S", "AT_NEXT_REAUTH_ID"], 9: ["AT_COUNTER 1"],
            15: ["AT_COUNTER 2", "AT_NONCE_S", "AT_NEXT_REAUTH_ID"], 16: ["AT_COUNTER 2"],
            20: ["AT_NEXT_REAUTH_ID"], 25: ["AT_COUNTER 1", "AT_NONCE_S"], 26: ["AT_COUNTER 1"],
        })

    @unittest.skipIf(ciphers.Cipher is None, "Python's cryptography is missing")
    def test_identity_that_is_given_is_the_next_one_that_is_sent(self):
        packets = self.packets()
        given = {it.number: transcript.shown_in(it)[-1] for it in packets if transcript.shown_in(it)}
        told = {it.number: transcript.identity_in(it) for it in packets}
        for giving, answer in (3, 7), (8, 12), (8, 14), (20, 24):
            self.assertEqual(given[giving], f"AT_NEXT_REAUTH_ID {told[answer].decode()}", answer)


class Inputs(unittest.TestCase):
    def test_text_that_is_no_transcript_is_refused_with_its_reason(self):
        begun = "round 1\njob 1\nsession 1 open\n"
        cases = [
            ("hello\n", "line 1: 'hello' is no line of a transcript"),
            ("round 1\nrefused scenario 3 fields\n", "line 2: 'refused scenario 3 fields' is no line of a transcript"),
            ("session 1 open\n", "line 1: a session is opened outside of a job"),
            ("session 1 agree\n", "line 1: session 1 was never opened"),
            (begun + "start 2 sent 1\n", "line 4: session 2 isn't open in this job"),
            (begun + "job 2\nstart 1 sent 1\n", "line 5: session 1 isn't open in this job"),
            (begun + "start 1 sent 2\n", "line 4: packet 2 follows packet 0"),
            (begun + "deliver 1 peer 1 sent 1\n", "line 4: packet 1 wasn't sent before"),
            (begun + "start 1 sent 1\ndeliver 1 client 1 sent 2\n", "line 5: 'client' is no end of a session"),
            (begun + "start 1 sent 1\ndeliver 1 peer 1 sang 2\n", "line 5: 'sang' is nothing that an end does"),
            (begun + "start 1 sent 1\ndeliver 1 peer 1 drew\n", "line 5: 'deliver 1 peer 1 drew' ends after its notes"),
            (begun + "start x sent 1\n", "line 4: 'x' isn't a number"),
            (begun + "start 1 sent 1\npacket 2 0101000501\n", "line 5: the bytes aren't those of the packet"),
            (begun + "keys 00 00 00 00 00\n", "line 4: the keys are of no end"),
            ("sim 001010000000001 start sent 1\n", "line 1: a session is opened outside of a job"),
            (begun + "sim 001010000000001 peer 1 sent 2\n", "line 4: no session of 001010000000001 was started by a `sim` line"),
            (begun + "sim 123456 start sent 1\nsim 1234567 peer 1 sent 2\n", "line 5: no session of 1234567 was started by a `sim` line"),
            (begun + "sim 123456 start sent 1\njob 2\nsim 123456 peer 1 sent 2\n", "line 6: no session of 123456 was started by a `sim` line"),
            (begun + "sim 123456 start sent 2\n", "line 4: 'sim 123456 start sent 2' is no line of a transcript"),
            (begun + "sim 123456 start sent 1\nsim 123456 peer 1\n", "line 5: 'sim 123456 peer 1' is no line of a transcript"),
            (begun + "sim 123456 start sent 1\nsim 123456 peer 2 sent 2\n", "line 5: packet 2 wasn't sent before"),
            (begun + "sim 123456 start sent 1\nsim 123456 peer 1 sent 3\n", "line 5: packet 3 follows packet 1"),
            (begun + "sim 123456 start sent 1\nsim 123456 peer 1 drew 2\n", "line 5: 'drew' is nothing that an end does"),
            (begun + "sim 123456 start sent 1\nsim 123456 agree now\n", "line 5: 'sim 123456 agree now' is no line of a transcript"),
            (begun + "tamper 1 0 00 made 1\n", "line 4: packet 1 wasn't sent before"),
            (begun + "cut 1 0 nosuchplace\n", "line 4: packet 1 wasn't sent before"),
            (begun + "start 1 sent 1\ncut 1 0 made 3\n", "line 5: packet 3 follows packet 1"),
            (begun + "start 1 sent 1\ncut 1 0 sent 2\n", "line 5: 'sent' is nothing that the network does"),
            (begun + "start 1 sent 1\ncut 1 0\n", "line 5: 'cut 1 0' is no line of a transcript"),
            (begun + "start 1 sent 1\npacket 1 010100\n", "line 5: the bytes aren't those of the packet"),
            (begun + f"start 1 sent 1\npacket 1 {'00' * 65536}\n", "line 5: the bytes aren't those of the packet"),
            (begun + "start 1 sent 1\ndeliver 1 peer 1 accepted zz sent 2\n", "line 5: 'accepted zz' has another form"),
            (begun + "start 1  sent 1\n", "line 4: '' is nothing that an end does"),
            (begun + f"start 1 ended {'a' * 70000}\n", f"line 4: 'ended {'a' * 54}' has another form"),
            (begun + "start 1 sent 1\npacket 1 010100", "line 5: it has no end, so the output was cut there"),
            (begun + "start 1 sent 1\ncut 1 0 made 2\npacket 1 0101000501\n", "line 6: the bytes aren't those of the packet"),
            (begun + "start 1 sent 1\ncut 1 0 nosuchplace\npacket 2 \n", "line 6: the bytes aren't those of the packet"),
            (begun + "start 1 sent 1\ncut 1 0 made 2\nkeys " + "00" * 16 + " 00 00 00 00\n", "line 6: the keys are of no end"),
        ]
        for text, reason in cases:
            with self.assertRaises(transcript.Unreadable, msg=text) as refused:
                transcript.sessions_in(text)
            self.assertTrue(str(refused.exception).startswith(reason), (text, str(refused.exception)))

    def test_lines_of_eps_and_5g_and_of_sites_tell_nothing_of_a_session(self):
        keys = f"fiveg 001010000000001 confirmed\nseaf {'3c' * 32} {'4d' * 32}"
        lines = [f"kasme {'1a' * 32}", f"hxresstar {'2b' * 16}", keys,
                 *(f"fiveg 001010000000001 {result}" for result in ("noseparation", "servingrefused", "homerefused", "confirmed"))]
        for line in ["sites 001010000000001 deliver 1 granted 4 sent 2", *(f"vector 001010000000001 1\n{line}" for line in lines)]:
            shown = [ladders.ladder_of(it) for it in transcript.sessions_in(PACKETS.replace("giveup 7", f"{line}\ngiveup 7"))]
            self.assertEqual(chart.text_ladder(shown[0], chart.columns_of(shown)), LADDER, line)
            with self.assertRaisesRegex(transcript.Unreadable, "the keys are of no end", msg=line):
                transcript.sessions_in(f"{PACKETS}{line}\nkeys {'00' * 16} 00 00 00 00\n")

    def test_tools_tell_what_they_cannot_read(self):
        brief, empty = EXAMPLES / "session.expected", EXAMPLES / "first.expected"
        cut = Path(self.enterContext(tempfile.TemporaryDirectory()), "cut")
        cut.write_text(FULL.read_text().partition("packet 1 ")[0] + "packet 1 0101")
        cases = [
            (["pcap", brief, "/dev/null"], "line 4: the bytes of packet 1 are missing; run the scenario with `print full`"),
            (["pcap", empty, "/dev/null"], "no session sends a packet"),
            (["chart", empty], "it has no session"),
            (["chart", "/no/such/file"], "No such file or directory"),
            (["pcap", cut, "/dev/null"], "line 5: it has no end, so the output was cut there"),
            (["chart", cut], "line 5: it has no end, so the output was cut there"),
        ]
        for (name, *words), reason in cases:
            done = subprocess.run([TOOLS / name, *words], capture_output=True, text=True)
            self.assertEqual((done.returncode, done.stdout), (2, ""), words)
            self.assertIn(f"{name}: ", done.stderr)
            self.assertIn(reason, done.stderr)

    def test_transcript_is_not_overwritten(self):
        path = Path(self.enterContext(tempfile.TemporaryDirectory()), "run")
        path.write_text(FULL.read_text())
        again = path.with_name("again")
        again.hardlink_to(path)
        cases = [["pcap", path, again], ["pcap", "-", path], ["chart", path, "--svg", path], ["chart", "-", "--svg", again]]
        for name, *words in cases:
            with path.open() as file:
                done = subprocess.run([TOOLS / name, *words], stdin=file, capture_output=True, text=True)
            wanted = (2, "", f"{name}: {words[-1]}: it is the transcript that is read, so it can't be the output\n")
            self.assertEqual((done.returncode, done.stdout, done.stderr), wanted)
            self.assertEqual(path.read_text(), FULL.read_text())

    def test_tools_tell_what_they_cannot_write(self):
        path = "/no/such/folder/file"
        for name, *words in ["pcap", FULL, path], ["chart", FULL, "--svg", path]:
            done = subprocess.run([TOOLS / name, *words], capture_output=True, text=True)
            wanted = (UNWRITTEN, "", f"{name}: {path}: No such file or directory\n")
            self.assertEqual((done.returncode, done.stdout, done.stderr), wanted)


if __name__ == "__main__":
    run_main(unittest.main, __doc__)
