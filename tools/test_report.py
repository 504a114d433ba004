#!/usr/bin/env python3
"""Tests of tools/transcript and tools/report on the outputs of examples/, on refused runs and on identities that are markup."""
import contextlib
import io
import json
import os
import re
import subprocess
import sys
import tempfile
import time
import unittest
from html.parser import HTMLParser
from pathlib import Path
from unittest import mock

import report_numbers
import transcript
from eap import ciphers
from ends import run_main
from report_numbers import ACCEPTED, DRAWN, MOVED, REFUSED
from transcript import Unreadable
from transcript_lines import LINES, NOTES, REFUSED as REFUSED_FORMS, STATUSES, STEPS, objects_in
from trial import loaded

TOOLS = Path(__file__).resolve().parent
TOP = TOOLS.parent
EXAMPLES = TOP / "examples"
# The transcripts of the examples. The replies of a service are none.
EXPECTED = sorted(it.with_suffix(".expected") for it in EXAMPLES.glob("*.scenario"))
WHOLE_PAGE = (TOP / "docs/TRANSCRIPT.md").read_text()
# A line for EPS, and 5G authentications of each outcome; the keys are runs of equal bytes.
FURTHER = f"""round 1
job 1
vector 001010000000001 7
kasme {"1a" * 32}
vector 001010000000001 8
bytes {"01" * 16} {"02" * 16} {"03" * 8} {"04" * 16} {"05" * 16}
give 001010000000001 8 accepted
hxresstar {"2b" * 16}
fiveg 001010000000001 confirmed
seaf {"3c" * 32} {"4d" * 32}
job 2
vector 001010000000002 1
fiveg 001010000000002 noseparation
vector 001010000000001 9
give 001010000000001 9 accepted
fiveg 001010000000001 servingrefused
vector 001010000000001 10
give 001010000000001 10 accepted
fiveg 001010000000001 homerefused
closed 001010000000001 6 10 4 0 4 0
closed 001010000000002 0 1 1 0 1 0
"""
# Sites with leased numbers, with each form of a line.
SITES = """round 1
job 1
sites 001010000000001 ask 1 sent 1
vector 001010000000001 1
vector 001010000000001 2
sites 001010000000001 deliver 1 granted 2 sent 2
sites 001010000000001 deliver 1 again 2 sent 3
sites 001010000000001 deliver 3 taken 2
sites 001010000000001 draw 1 number 1
sites 001010000000001 deliver 2 notmine
sites 001010000000001 ask 1 sent 4
exhausted 001010000000001 8796093022207
sites 001010000000001 deliver 4 refused
sites 001010000000001 deliver 1 old
sites 001010000000001 restart 1
sites 001010000000001 draw 1 empty
sites 001010000000001 master
sites 001010000000001 deliver 0 nosuchpacket
closed 001010000000001 0 2 2 0 2 0
"""
# Sessions of EAP-SIM, one behind the other, with each form of a line and the bytes of two packets and of keys.
SIM = f"""round 1
job 1
vector 001010000000001 1
vector 001010000000001 2
sim 001010000000001 start sent 1
packet 1 01010014120a00000a0100000f02000200010000
sim 001010000000001 peer 1 sent 2
sim 001010000000001 server 1 ignored notforme
sim 001010000000001 server 9 nosuchpacket
sim 001010000000001 server 2 sent 3 ended failure clienterror 1
sim 001010000000001 peer 3 ended failure version
sim 001010000000001 start sent 1
sim 001010000000001 server 1 sent 2 ended success
packet 2 03020004
keys {'5e' * 16} {'6f' * 16}{'00' * 16} {'00' * 32} {'7a' * 64} {'8b' * 64}
sim 001010000000001 peer 2 ended success
sim 001010000000001 agree
sim 001010000000001 differ
closed 001010000000001 0 2 2 0 2 0
"""
# The network changes packets of a session. A refused change makes none.
CHANGED = """round 1
job 1
session 1 open
start 1 sent 1
packet 1 0101000501
tamper 1 4 17 made 2
packet 2 0101000517
tamper 1 5 00 nosuchplace
tamper 9 0 00 nosuchpacket
cut 2 0 made 3
packet 3\x20
cut 1 5 nosuchplace
cut 9 0 nosuchpacket
deliver 1 peer 2 ignored othertype
deliver 1 peer 3 ignored notforme
cut 1 1 made 4
packet 4 01
premise held
"""
needs_cryptography = unittest.skipIf(ciphers.Cipher is None, "Python's cryptography is missing")


report, tool = loaded("report"), loaded("transcript")


def text_of(name):
    return (EXAMPLES / f"{name}.expected").read_text()


def printed(*words, given=""):
    """What tools/transcript prints in this process: its status, its objects, and standard error."""
    out, error = io.StringIO(), io.StringIO()
    argv, stdin = ["transcript", "--json", *map(str, words)], io.StringIO(given)
    with mock.patch.object(sys, "argv", argv), mock.patch.object(sys, "stdin", stdin), \
            contextlib.redirect_stdout(out), contextlib.redirect_stderr(error):
        try:
            status = tool.main()
        except SystemExit as end:
            status = end.code
    return status, [json.loads(line) for line in out.getvalue().splitlines()], error.getvalue()


# ---- an object as the line that it is of

def filled(form, found):
    return re.sub(r"\{([^}=]+)(?:=[^}]+)?\}", lambda name: str(found[name[1]]), form)


def fits(form, found):
    fields = re.findall(r"\{([^}=]+)=?([^}]*)\}", form)
    return all(name in found and word in ("", found[name]) for name, word in fields)


def form_of(forms, found):
    """The form with the most fields among those that an object has."""
    return max((form for form in forms if fits(form, found)), key=lambda form: form.count("{"))


def line_of(found):
    """The line of an object, so that a test can compare it with the transcript's."""
    if found["kind"] == "sim" and "event" in found:
        return line_of_sim(found)
    if found["kind"] != "event":
        return filled(form_of((LINES | REFUSED_FORMS)[found["kind"]], found), found)
    ends = [found["end"]] if found["event"] in ("deliver", "giveup") else []
    # The `word` or `number` of a note isn't that of the step.
    words = [found["event"], found["session"], *ends, *([found["packet"]] if "packet" in found else [])]
    words += [filled(form_of(NOTES, note), note) for note in found["notes"]]
    words += ["sent", found["sent"]] if "sent" in found else []
    return " ".join(str(it) for it in [*words, filled(form_of(STEPS, found), found)] if it != "")


def line_of_sim(found):
    words = ["sim", found["imsi"], *(["start"] if found["event"] == "start" else [found["end"], found["packet"]])]
    words += ["sent", found["sent"]] if "sent" in found else []
    return " ".join(str(it) for it in [*words, filled(form_of(STEPS, found), found)] if it != "")


class Objects(unittest.TestCase):
    def test_each_line_of_each_example_is_an_object_that_has_all_of_it(self):
        for path in EXPECTED:
            status, objects, error = printed(path)
            self.assertEqual((status, error), (0, ""), path.name)
            lines = path.read_text().splitlines()
            self.assertEqual([it["line"] for it in objects], list(range(1, len(lines) + 1)), path.name)
            self.assertEqual([line_of(it) for it in objects], lines, path.name)

    def test_each_object_has_its_round_and_job(self):
        for path in EXPECTED:
            current = {"round": 0, "job": 0}
            for it in objects_in(path.read_text()):
                if it["kind"] in current:
                    current[it["kind"]] = it[it["kind"]]
                if it["kind"] in ("vector", "give", "event", "packet", "keys", "bytes", "sync", "session"):
                    self.assertEqual((it["round"], it["job"]), (current["round"], current["job"]), path.name)
                elif it["kind"] in ("round", "closed", "restart"):
                    self.assertEqual((it["round"], it["job"]), (current["round"], None), path.name)

    def test_each_kind_of_line_is_in_the_examples_or_here(self):
        rare = ("round 1\njob 1\nwithheld 001010000000001 7 full\nexhausted 001010000000001 8796093022208\n"
                "sync 001010000000001 beyond 268435457 0\npremise broken 1 2 peer 3\n")
        texts = [rare, FURTHER, SITES, SIM, CHANGED, *(path.read_text() for path in EXPECTED), "usage\n", "refused scenario 3 fields\n"]
        kinds = {it["kind"] for text in texts for it in objects_in(text)}
        self.assertEqual(kinds, LINES.keys() | REFUSED_FORMS.keys() | {"event"})
        objects = list(objects_in(rare))
        self.assertEqual([line_of(it) for it in objects], rare.splitlines())
        self.assertEqual(objects[3]["word"], 8796093022208)
        self.assertEqual({name: objects[5][name] for name in ("round", "job", "session", "end", "packet")},
                         {"round": 1, "job": 1, "session": 2, "end": "peer", "packet": 3})

    def test_lines_of_eps_and_5g_are_of_the_vector_before_them(self):
        objects = list(objects_in(FURTHER))
        self.assertEqual([line_of(it) for it in objects], FURTHER.splitlines())
        found = [it for it in objects if it["kind"] in ("kasme", "hxresstar", "fiveg", "seaf")]
        self.assertEqual([(it["round"], it["job"], it["kind"], it["imsi"], it["number"]) for it in found], [
            (1, 1, "kasme", "001010000000001", 7), (1, 1, "hxresstar", "001010000000001", 8), (1, 1, "fiveg", "001010000000001", 8),
            (1, 1, "seaf", "001010000000001", 8), (1, 2, "fiveg", "001010000000002", 1), (1, 2, "fiveg", "001010000000001", 9),
            (1, 2, "fiveg", "001010000000001", 10)])
        values = [found[0]["k_asme"], found[1]["hxres_star"], found[3]["home"], found[3]["device"]]
        self.assertEqual(values, ["1a" * 32, "2b" * 16, "3c" * 32, "4d" * 32])
        self.assertEqual([it["result"] for it in found if "result" in it], ["confirmed", "noseparation", "servingrefused", "homerefused"])

    def test_auts_is_of_the_failure_before_it(self):
        objects = list(objects_in(text_of("auts-full-print")))
        self.assertEqual([line_of(it) for it in objects], text_of("auts-full-print").splitlines())
        found = [it for it in objects if it["kind"] == "auts"]
        self.assertEqual([(it["round"], it["job"], it.get("imsi"), it.get("number"), it.get("session"), it.get("end")) for it in found], [
            (1, 1, "001010000000001", 1, None, None), (1, 1, None, None, 1, "peer"), (1, 2, "001010000000002", 10, None, None),
            (2, 1, None, None, 3, "peer")])
        # The AUTS and the RAND of the first.
        self.assertEqual((found[0]["auts"], found[0]["rand"]), ("b5c9d934552d073052b7aadb8ded", "8a35d86fbcde6accb2cc7d4cd8ea2492"))

    def test_auts_of_no_failure_is_refused(self):
        begun, auts = "round 1\njob 1\n", f"auts {'0a' * 14} {'0b' * 16}\n"
        started = "session 1 open\nstart 1 sent 1\npacket 1 0101000501\n"
        none = "the AUTS is of no synchronisation failure"
        cases = [
            (auts, f"line 3: {none}"),
            (f"give 001010000000001 1 accepted\n{auts}", f"line 4: {none}"),
            (f"give 001010000000001 1 sync 000000003e94\n{auts}{auts}", f"line 5: {none}"),
            (f"{started}{auts}", f"line 6: {none}"),
            (f"{started}deliver 1 peer 1 sync 000000003e94 sent 2\npacket 2 02010004\n{auts}", f"line 8: {none}"),
            ("give 001010000000001 1 sync 000000003e94\nauts 00 11\n", "line 4: the bytes aren't those of an AUTS and a RAND"),
        ]
        for text, why in cases:
            with self.assertRaises(Unreadable) as refused:
                list(objects_in(begun + text))
            self.assertEqual(str(refused.exception), why, text)

    def test_line_of_eps_or_5g_that_is_of_no_vector_is_refused(self):
        begun, vector = "round 1\njob 1\n", "vector 001010000000001 1\n"
        keys = f"seaf {'3c' * 32} {'4d' * 32}\n"
        cases = [
            (f"kasme {'1a' * 32}\n", "line 3: the line `kasme` is of no vector"),
            (f"{vector}job 2\nhxresstar {'2b' * 16}\n", "line 5: the line `hxresstar` is of no vector"),
            (f"{vector}fiveg 001010000000002 confirmed\n", "line 4: the line `fiveg` is of no vector"),
            (f"{vector}fiveg 001010000000001 homerefused\n{keys}", "line 5: the keys are of no 5G authentication"),
            (f"{vector}fiveg 001010000000001 refused\n", "line 4: 'fiveg 001010000000001 refused' is no line of a transcript"),
            (f"{vector}kasme {'1a' * 31}\n", f"line 4: 'kasme {'1a' * 27}' is no line of a transcript"),
        ]
        for text, reason in cases:
            status, _, error = printed("-", given=begun + text)
            self.assertEqual((status, error), (2, f"transcript: -: {reason}\n"), text)

    def test_line_for_sites_is_an_object_by_its_event(self):
        objects = list(objects_in(SITES))
        self.assertEqual([line_of(it) for it in objects], SITES.splitlines())
        found = [{name: it[name] for name in it if name not in ("line", "round", "job", "kind", "imsi")} for it in objects if it["kind"] == "sites"]
        self.assertEqual(found, [
            {"event": "ask", "site": 1, "sent": 1}, {"event": "deliver", "packet": 1, "result": "granted", "count": 2, "sent": 2},
            {"event": "deliver", "packet": 1, "result": "again", "count": 2, "sent": 3},
            {"event": "deliver", "packet": 3, "result": "taken", "count": 2}, {"event": "draw", "site": 1, "result": "number", "number": 1},
            {"event": "deliver", "packet": 2, "result": "notmine"}, {"event": "ask", "site": 1, "sent": 4},
            {"event": "deliver", "packet": 4, "result": "refused"}, {"event": "deliver", "packet": 1, "result": "old"},
            {"event": "restart", "site": 1}, {"event": "draw", "site": 1, "result": "empty"}, {"event": "master"},
            {"event": "deliver", "packet": 0, "result": "nosuchpacket"}])
        for line in ("ask 1", "deliver 1 granted 2", "draw 1 number", "draw 1 empty 2", "master 1", "start 1"):
            line = f"sites 001010000000001 {line}"
            error = printed("-", given=f"round 1\njob 1\n{line}\n")[2]
            self.assertEqual(error, f"transcript: -: line 3: {line!r} is no line of a transcript\n")

    def test_line_of_eap_sim_is_an_object_by_its_event(self):
        objects = list(objects_in(SIM))
        self.assertEqual([line_of(it) for it in objects], SIM.splitlines())
        self.assertTrue(all(it["imsi"] == "001010000000001" and (it["round"], it["job"]) == (1, 1) for it in objects[4:-1]))
        found = [{name: it[name] for name in it if name not in ("line", "round", "job", "imsi")} for it in objects[4:-1]]
        self.assertEqual([it.pop("kind") for it in found if it["kind"] == "sim"], ["sim"] * 11)
        self.assertEqual(found[:7], [
            {"event": "start", "end": "server", "sent": 1},
            {"kind": "packet", "packet": 1, "bytes": "01010014120a00000a0100000f02000200010000", "end": "server"},
            {"event": "deliver", "end": "peer", "packet": 1, "sent": 2}, {"event": "deliver", "end": "server", "packet": 1, "ignored": "notforme"},
            {"event": "deliver", "end": "server", "packet": 9, "refused": "nosuchpacket"},
            {"event": "deliver", "end": "server", "packet": 2, "sent": 3, "ended": "failure", "why": "clienterror", "code": 1},
            {"event": "deliver", "end": "peer", "packet": 3, "ended": "failure", "why": "version"}])
        self.assertEqual((found[10]["kind"], found[10]["end"], found[10]["k_encr"]), ("keys", "server", "5e" * 16))
        self.assertEqual(found[-2:], [{"verdict": "agree"}, {"verdict": "differ"}])

    def test_page_shows_sessions_of_eap_sim_with_their_packets(self):
        data = report.data_of(text_of("sim-full-print"), {}, "sim-full-print")
        session, = data["sessions"]
        self.assertEqual(session[:5], ["sim1", 1, 1, "001010000000001", "agree"])
        told = [[[data["texts"][name], data["texts"][meaning]] for name, _, _, meaning in packet[6]] for packet in session[8]]
        self.assertEqual([data["texts"][packet[3]] for packet in session[8]],
                         ["Request/SIM-Start", "Response/SIM-Start", "Request/SIM-Challenge", "Response/SIM-Challenge", "Success"])
        self.assertIn(["AT_VERSION_LIST", "versions 1"], told[0])
        self.assertIn(["AT_SELECTED_VERSION", "version 1"], told[1])
        self.assertIn(["AT_RAND", "RAND 8a35d86fbcde6accb2cc7d4cd8ea2492, 2b23cce7a26023ab3f0eef693ac87f64"], told[2])
        macs = [data["texts"][packet[9]] for packet in session[8] if packet[9] >= 0]
        self.assertEqual([(it.split(" and ")[1].split(" behind")[0], it.endswith("it is right.")) for it in macs],
                         [("NONCE_MT", True), ("the SRES", True)])
        [[title, rows]] = data["authentications"]
        self.assertEqual((title, dict(rows)["SRES"], dict(rows)["its ends"]), ("full authentication", "be4e916e, a3d8a74c", "both have equal keys"))
        [[imsi, steps, closed]] = data["subscribers"]
        self.assertEqual((imsi, [step[1:] for step in steps], closed), ("001010000000001", [[DRAWN, 1], [DRAWN, 2]], [[1, 0, 2, 2, 0, 2, 0]]))

    def test_changed_packet_is_of_no_end(self):
        objects = list(objects_in(CHANGED))
        self.assertEqual([line_of(it) for it in objects], CHANGED.splitlines())
        found = [{name: it[name] for name in it if name not in ("line", "round", "job")} for it in objects if it["kind"] in ("tamper", "cut", "packet")]
        self.assertEqual(found[:4], [
            {"kind": "packet", "packet": 1, "bytes": "0101000501", "session": 1, "end": "server"},
            {"kind": "tamper", "packet": 1, "place": 4, "byte": "17", "made": 2}, {"kind": "packet", "packet": 2, "bytes": "0101000517"},
            {"kind": "tamper", "packet": 1, "place": 5, "byte": "00", "refused": "nosuchplace"}])
        self.assertIn({"kind": "packet", "packet": 3, "bytes": ""}, found)
        for line in ("tamper 1 4 1 made 2", "tamper 1 4 1A made 2", "cut 1 0 made"):
            with self.assertRaisesRegex(Unreadable, "line 4: "):
                list(objects_in(f"round 1\njob 1\nsession 1 open\n{line}\n"))

    def test_page_names_each_kind_and_field(self):
        for text in [FURTHER, SITES, SIM, CHANGED, *(path.read_text() for path in EXPECTED)]:
            for found in objects_in(text):
                for it in [found, *found.get("notes", [])]:
                    for name in it:
                        self.assertIn(f"`{name}`", WHOLE_PAGE, found)
                self.assertIn(f"`{found['kind']}`", WHOLE_PAGE)

    def test_page_shows_objects_as_they_are_printed(self):
        for name, wanted in ("stale-vector", '{"line": 8, '), ("session", '{"kind": "status", '):
            objects = [json.dumps(it) for it in printed(EXAMPLES / f"{name}.expected", "--status", 0)[1]]
            shown = [line for line in WHOLE_PAGE.splitlines() if line.startswith(wanted)]
            self.assertEqual([line for line in objects if line.startswith(wanted)], shown)

    def test_status_comes_last_with_its_name(self):
        for number, name in STATUSES.items():
            _, objects, _ = printed("-", "--status", number, given="round 1\n")
            self.assertEqual(objects[-1], {"kind": "status", "status": number, "name": name})
            self.assertRegex(WHOLE_PAGE, rf"\| {number} \| `{name}` \|")
        self.assertEqual(printed("-", "--status", 11, given="round 1\n")[0], 2)

    def test_refused_run_is_one_object(self):
        cases = [
            ("usage\n", {"kind": "usage"}),
            ("refused subscribers 2 key\n", {"kind": "refused", "file": "subscribers", "row": 2, "why": "key"}),
            ("refused scenario 3 fields\n", {"kind": "refused", "file": "scenario", "line_of_file": 3, "why": "fields"}),
            ("refused journal 0\n", {"kind": "refused", "file": "journal", "place": 0}),
        ]
        for text, wanted in cases:
            self.assertEqual(list(objects_in(text)), [{"line": 1, "round": None, "job": None} | wanted])

    def test_cut_line_is_one_only_if_the_output_could_not_be_written(self):
        cut = "round 1\njob 1\nvector 001010000000001 1"
        self.assertEqual(printed("-", "--status", 5, given=cut)[1][2]["text"], "vector 001010000000001 1")
        self.assertEqual(printed("-", given=cut)[2], "transcript: -: line 3: it has no end, so the output was cut there\n")

    def test_text_that_is_no_transcript_is_refused_by_its_line(self):
        begun = "round 1\njob 1\nsession 1 open\n"
        cases = [
            ("hello\n", "line 1: 'hello' is no line of a transcript"),
            ("round 1\nrefused scenario 3 fields\n", "line 2: 'refused scenario 3 fields' is no line of a transcript"),
            ("round 1\n\n", "line 2: '' is no line of a transcript"),
            ("vector 00101 1\n", "line 1: 'vector 00101 1' is no line of a transcript"),
            ("closed 001010000000001 0 1\n", "line 1: 'closed 001010000000001 0 1' is no line of a transcript"),
            ("bytes " + "00 " * 4 + "00\n", "line 1: 'bytes 00 00 00 00 00' is no line of a transcript"),
            *((f"bytes {rand} {rand} {xres} {rand} {rand}\n", f"line 1: 'bytes {rand} {rand[:21]}' is no line of a transcript")
              for rand, xres in (("0a" * 16, "aabbcc"), ("0a" * 16, "aa" * 9))),
            ("sync 001010000000001 moved 1\n", "line 1: 'sync 001010000000001 moved 1' is no line of a transcript"),
            (begun + "start 1 ended failure notified\n", None),
            (begun + "start 1 ended failure notified x\n", "line 4: 'ended failure notified x' has another form"),
            (begun + "start 1 drew x sent 1\n", "line 4: 'drew x' has another form"),
        ]
        for text, reason in cases:
            status, _, error = printed("-", given=text)
            self.assertEqual((status, error), (2, f"transcript: -: {reason}\n") if reason else (0, ""), text)

    def test_bytes_belong_to_the_number_before_them(self):
        found = [it for it in objects_in(text_of("session-full-print")) if it["kind"] == "bytes"]
        self.assertEqual([(it["session"], it["number"]) for it in found], [(1, 1)])
        found = [it for it in objects_in(text_of("full-print")) if it["kind"] == "bytes"]
        self.assertTrue(found and all(it["imsi"].startswith("00101") for it in found))


# ---- the page

class Page(HTMLParser):
    """The elements of a page, and the text of each script."""

    def __init__(self, text):
        super().__init__()
        self.elements, self.scripts, self.within = [], [], None
        self.feed(text)

    def handle_starttag(self, tag, attrs):
        self.elements.append((tag, dict(attrs)))
        self.within = tag
        if tag == "script":
            self.scripts.append("")

    def handle_endtag(self, tag):
        self.within = None

    def handle_data(self, data):
        if self.within == "script":
            self.scripts[-1] += data


def page_of(text, title="run", scenario=None):
    page = report.page_of(report.data_of(text, scenario or {}, title))
    return Page(page), page


def markup(identity):
    data = bytes([2, 1]) + (5 + len(identity)).to_bytes(2, "big") + b"\1" + identity
    return ("round 1\njob 1\nsession 1 open\nstart 1 sent 1\npacket 1 0101000501\ndeliver 1 peer 1 sent 2\n"
            f"packet 2 {data.hex()}\npremise held\n")


class Reports(unittest.TestCase):
    def data(self, name):
        return report.data_of(text_of(name), {}, name)

    def test_page_has_each_session_and_each_event(self):
        for path in EXPECTED:
            text = path.read_text()
            if ciphers.Cipher is None and "-full-print" in path.name:
                continue
            page, _ = page_of(text)
            data = json.loads(page.scripts[0])
            opened = [int(line.split(" ")[1]) for line in text.splitlines() if re.fullmatch(r"session \d+ open", line)]
            begun = [f"sim{place}" for place in range(1, 1 + len(re.findall(r"(?m)^sim \d+ start", text)))]
            shown = [it[0] for it in data["sessions"]]
            self.assertEqual(([it for it in shown if it not in begun], [it for it in shown if it in begun]), (opened, begun), path.name)
            # A change of a packet that isn't there belongs to no session.
            words = transcript.EVENTS.keys() | transcript.CHANGES.keys() | {"sim"}
            events = [line for line in text.splitlines() if line.split(" ")[0] in words]
            events = [line for line in events if line.split(" ")[0] not in transcript.CHANGES or not line.endswith(" nosuchpacket")]
            events = [line for line in events if not re.fullmatch(r"sim \d+ (agree|differ)", line)]
            self.assertEqual(sorted(row[2] for it in data["sessions"] for row in it[6]), sorted(events), path.name)
            self.assertEqual(data["lines"], text.count("\n"))

    def test_page_loads_nothing(self):
        page, text = page_of(text_of("session"))
        policy = next(it["content"] for tag, it in page.elements if it.get("http-equiv") == "Content-Security-Policy")
        self.assertTrue(policy.startswith("default-src 'none'; script-src 'sha256-"), policy)
        self.assertIn(report.hash_of(page.scripts[1]), policy)
        self.assertNotIn("unsafe", policy)
        self.assertEqual([it for _, it in page.elements if {"src", "href", "style"} & it.keys()], [])
        self.assertNotIn("{{", text)

    def test_texts_of_a_transcript_are_no_markup(self):
        plain = [tag for tag, _ in page_of(markup(b"abc"))[0].elements]
        for identity in (b"<script>alert(1)</script>", b"</script><img src=x onerror=alert(1)>", b"<!--<script>",
                         b"]]>&amp;\xe2\x80\xa8", b"{{DATA}}"):
            page, text = page_of(markup(identity), title=identity.decode())
            self.assertEqual([tag for tag, _ in page.elements], plain, identity)
            data = json.loads(page.scripts[0])
            self.assertIn(repr(identity.decode()), data["texts"])
            self.assertEqual(text.count("<script"), 2)

    def test_packet_has_its_fields_its_mac_and_its_keys(self):
        data = self.data("session-full-print")
        packet, texts = data["sessions"][0][8][2], data["texts"]
        self.assertEqual([(texts[name], start, end) for name, start, end, _ in packet[6]], [
            ("Code", 0, 1), ("Identifier", 1, 2), ("Length", 2, 4), ("Type", 4, 5), ("Subtype", 5, 6), ("Reserved", 6, 8),
            ("AT_RAND", 10, 28), ("AT_AUTN", 30, 48), ("AT_CHECKCODE", 50, 52), ("AT_MAC", 54, 72)])
        self.assertTrue(texts[packet[9]].endswith("it is right."))
        title, rows = data["authentications"][packet[8]]
        self.assertEqual(title, "full authentication, number 1")
        self.assertEqual([name for name, _ in rows], [
            "method", "identity", "RAND", "AUTN", "XRES", "CK", "IK", "MK = SHA-1(identity | IK | CK)", "keys are", "its ends",
            "K_encr", "K_aut", "MSK", "EMSK"])

    @needs_cryptography
    def test_each_mac_of_each_full_print_is_right(self):
        count = 0
        for path in EXPECTED:
            data = report.data_of(path.read_text(), {}, path.name)
            said = [data["texts"][packet[9]] for session in data["sessions"] for packet in session[8] if packet[9] >= 0]
            self.assertEqual([it for it in said if it.endswith("it is another one.")], [], path.name)
            count += sum(it.endswith("it is right.") for it in said)
        self.assertGreater(count, 20)

    def test_wrong_mac_is_told(self):
        text = text_of("session-full-print").replace("226101\n", "226100\n")
        data = report.data_of(text, {}, "run")
        self.assertTrue(data["texts"][data["sessions"][0][8][2][9]].endswith("it is another one."))

    def test_arrows_are_those_of_the_session(self):
        kinds = lambda name: [[arrow[0] for arrow in session[7]] for session in self.data(name)["sessions"]]
        self.assertEqual(kinds("session"), [[report.ARRIVES] * 5])
        self.assertEqual(kinds("lossy-link")[0].count(report.LOST), 2)
        crossed = kinds("crossed-sessions")
        self.assertTrue(all(report.AWAY in it and report.FOREIGN in it for it in crossed))

    def test_changed_packet_begins_at_no_end(self):
        data = report.data_of(CHANGED, {}, "run")
        session = data["sessions"][0]
        rows, ways, packets = session[6], session[7], session[8]
        self.assertEqual([row[3][0][1] for row in rows if row[1] == report.NETWORK],
                         ["tamper 1 4 17: packet 2", "tamper 1 5 00: nosuchplace", "cut 2 0: packet 3", "cut 1 5: nosuchplace", "cut 1 1: packet 4"])
        told = [(way[0], packets[way[1]][0], packets[way[1]][12]) for way in ways]
        self.assertEqual(told, [(report.CHANGED, 2, 1), (report.CHANGED, 3, 2), (report.LOST, 1, 0), (report.DROPPED, 4, 1)])
        self.assertEqual([packet[5] for packet in packets if packet[12]], ["0101000517", "", "01"])
        self.assertIn("packet changed", [data["texts"][place] for place in session[5]])

    @needs_cryptography
    def test_page_of_any_changed_packet_is_written(self):
        # A network that changes each byte of each packet of a run, and cuts each at each length.
        for name in ("session-full-print", "pseudonyms-full-print", "re-authentication-full-print"):
            lines, count = text_of(name).splitlines(), 0
            objects = list(objects_in(text_of(name)))
            last = max(it["packet"] for it in objects if it["kind"] == "packet" and it["job"] == 1 and it["round"] == 1)
            text, at = [], last
            for line, it in zip(lines, objects):
                if it["kind"] == "closed" and at > 0:
                    sent = {packet["packet"]: bytes.fromhex(packet["bytes"]) for packet in objects if packet["kind"] == "packet" and packet["round"] == 1}
                    for number, data in sent.items():
                        for place in range(len(data)):
                            changed = data[:place] + bytes([data[place] ^ 0x41]) + data[place + 1:]
                            text += [f"tamper {number} {place} {changed[place]:02x} made {at + 1}", f"packet {at + 1} {changed.hex()}",
                                     f"cut {number} {place} made {at + 2}", f"packet {at + 2} {data[:place].hex()}"]
                            at, count = at + 2, count + 2
                    at = 0
                text.append(line)
            data = report.data_of("".join(line + "\n" for line in text), {}, name)
            told = [packet for session in data["sessions"] for packet in session[8] if packet[12]]
            self.assertEqual(len(told), count, name)
            right = [packet[0] for packet in told if packet[9] >= 0 and data["texts"][packet[9]].endswith("it is right.")]
            self.assertEqual(right, [], name)

    def test_packet_that_reaches_many_sessions_has_those_of_its_own_and_some_more(self):
        lines = ["round 1", "job 1", *(f"session {number} open" for number in range(1, 21)), "start 1 sent 1",
                 *(f"deliver {number} peer 1 ignored notforme" for number in range(1, 21))]
        sessions = report.data_of("".join(line + "\n" for line in lines), {}, "run")["sessions"]
        first = [[number, 23 + number] for number in range(1, 9)]
        for session in sessions:
            own = [] if session[0] < 9 else [[session[0], 23 + session[0]]]
            self.assertEqual((session[8][0][11], session[8][0][13]), (first + own, 12 - len(own)), session[0])

    def test_sessions_are_found_by_what_happened(self):
        found = {it[0]: (it[4], [self.told[place] for place in it[5]]) for it in self.sessions("failing-sessions")}
        self.assertTrue(any("failure of the peer: wrongautn" in words for _, words in found.values()))
        self.assertEqual([it[4] for it in self.sessions("crossed-sessions")], ["differ", "differ"])
        self.assertEqual([it[4] for it in self.sessions("session")], ["agree"])

    def sessions(self, name):
        data = self.data(name)
        self.told = data["texts"]
        return data["sessions"]


class Numbers(unittest.TestCase):
    def steps(self, name, kind):
        subscribers = report.data_of(text_of(name), {}, name)["subscribers"]
        return [step for _, steps, _ in subscribers for step in steps if step[1] == kind]

    def test_refusal_has_its_cause(self):
        # Number 33 is accepted in line 36, and number 2 in line 37; 1 and 33 have IND 1.
        refused = [step[2:] for step in self.steps("out-of-order", REFUSED)]
        self.assertEqual(refused, [[1, "place", 33, 36, 1], [2, "place", 2, 37, 2]])
        self.assertEqual([step[2:] for step in self.steps("stale-vector", REFUSED)], [[1, "before", 500, 0]])
        self.assertEqual({step[3] for step in self.steps("far-numbers", REFUSED)}, {"far"})

    def test_moved_and_accepted_numbers_are_those_of_the_lines(self):
        self.assertEqual([step[2:] for step in self.steps("stale-vector", MOVED)], [[1, 500]])
        self.assertEqual([step[2] for step in self.steps("stale-vector", ACCEPTED)], [501, 502])

    def test_numbers_of_eps_and_5g_are_those_of_their_vectors(self):
        subscribers = report.data_of(FURTHER, {}, "run")["subscribers"]
        numbers = lambda kind: {imsi: [step[2] for step in steps if step[1] == kind] for imsi, steps, _ in subscribers}
        self.assertEqual(numbers(DRAWN), {"001010000000001": [7, 8, 9, 10], "001010000000002": [1]})
        self.assertEqual(numbers(ACCEPTED), {"001010000000001": [8, 9, 10], "001010000000002": []})

    def test_subscriber_is_told_by_the_numbers_only_if_it_can_be_one_alone(self):
        closed = [{"imsi": "1", "open": 0, "close": 5}, {"imsi": "2", "open": 3, "close": 9}, {"imsi": "3", "open": 20, "close": 21}]
        found = report_numbers.Intervals(closed)
        self.assertEqual([found.owner(number) for number in (0, 1, 3, 4, 5, 6, 9, 10, 20, 21, 22)],
                         [None, "1", "1", None, None, "2", "2", None, None, "3", None])

    def test_each_number_is_drawn_for_the_subscriber_whose_line_counts_it(self):
        for path in sorted(EXAMPLES.glob("*.scenario")):
            scenario = report_numbers.scenario_subscribers(path.read_text())
            for told in scenario, {}:
                subscribers = report.data_of(path.with_suffix(".expected").read_text(), told, path.name)["subscribers"]
                drawn = {imsi: sum(step[1] == DRAWN for step in steps) for imsi, steps, _ in subscribers}
                released = {imsi: sum(row[5] for row in closed) for imsi, _, closed in subscribers}
                if told or "" not in drawn:
                    self.assertEqual(drawn, released, path.name)

    @needs_cryptography
    def test_ends_of_each_authentication_have_equal_keys(self):
        for path in EXPECTED:
            data = report.data_of(path.read_text(), {}, path.name)
            said = {value for _, rows in data["authentications"] for name, value in rows if name == "its ends"}
            self.assertLessEqual(said, {"both have equal keys", "the server alone succeeded with it"}, path.name)

    def test_scenario_tells_the_devices(self):
        for path in sorted(EXAMPLES.glob("*.scenario")):
            scenario = report_numbers.scenario_subscribers(path.read_text())
            data = report.data_of(path.with_suffix(".expected").read_text(), scenario, path.name)
            rows = map(str.split, path.read_text().splitlines())
            sims = [row[1] for row in rows if len(row) == 4 and row[0] == "sim"]
            devices = {True: [], False: []}
            for it in data["sessions"]:
                devices[isinstance(it[0], int)].append(it[3])
            self.assertEqual(devices, {True: list(scenario.values()), False: sims}, path.name)

    def test_line_whose_session_has_no_number_of_a_transcript_tells_nothing(self):
        lines = [f"session {number} 001010000000001 a b c d e" for number in ("7", "1" * 5000, "\N{ARABIC-INDIC DIGIT ONE}", "x")]
        self.assertEqual(report_numbers.scenario_subscribers("\n".join(lines)), {7: "001010000000001"})


class Growth(unittest.TestCase):
    """Eight times the sessions take some 8 times the processor time, and not 64 times."""

    def seconds(self, count):
        jobs = (f"job {number}\nsession {number} open\nstart {number} sent 1\npacket 1 0101000501\ndeliver {number} peer 1 sent 2\n"
                f"packet 2 02010006013{number % 10}\ndeliver {number} server 2 drew {number} sent 3\ngiveup {number} peer ended failure givenup\n"
                for number in range(1, count + 1))
        closed = (f"closed {number:015} {number - 1} {number} 1 0 1 0\n" for number in range(1, count + 1))
        text = "".join(["round 1\n", *jobs, *closed, "premise held\n"])
        began = time.process_time()
        report.page_of(report.data_of(text, {}, "run"))
        return time.process_time() - began

    def test_page_of_many_sessions_of_many_subscribers(self):
        # Other work on the machine may lengthen one try, and hardly each.
        ratios = []
        while not ratios or ratios[-1] > 22 and len(ratios) < 4:
            short = min(self.seconds(250) for _ in range(3))
            ratios.append(self.seconds(2000) / short)
        self.assertLess(ratios[-1], 22, ratios)


class Scripts(unittest.TestCase):
    def test_report_is_written_and_what_is_no_transcript_is_told(self):
        run = lambda *words, **more: subprocess.run([TOOLS / "report", *words], capture_output=True, text=True, **more)
        done = run(EXAMPLES / "session.expected", "--scenario", EXAMPLES / "session.scenario")
        self.assertEqual((done.returncode, done.stderr), (0, ""))
        self.assertTrue(done.stdout.startswith("<!DOCTYPE html>"))
        with tempfile.TemporaryDirectory() as folder:
            path = os.fsencode(folder) + b"/a\xff"
            with open(path, "wb") as file:
                file.write((EXAMPLES / "session.expected").read_bytes())
            done = run(path)
        self.assertEqual((done.returncode, done.stderr), (0, ""))
        self.assertIn("<title>Run: a\N{REPLACEMENT CHARACTER}", done.stdout)
        done = run("-", input="hello\n")
        self.assertEqual((done.returncode, done.stdout, done.stderr), (2, "", "report: -: line 1: 'hello' is no line of a transcript\n"))


if __name__ == "__main__":
    run_main(unittest.main, __doc__)
