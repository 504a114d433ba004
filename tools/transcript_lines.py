"""Takes each line of a transcript apart, into an object of named fields. docs/TRANSCRIPT.md has the objects; tools/transcript
prints them, and tools/report shows them.
"""
import re

from transcript import Reader, Unreadable

# The exit statuses of `auc run`, with their names.
STATUSES = {0: "done", 1: "usage", 2: "subscribers-refused", 3: "scenario-refused", 4: "read-fault", 5: "write-fault",
            6: "store-fault", 7: "not-journal", 8: "store-full", 9: "too-long", 10: "no-memory"}
WRITE_FAULT = 5

# The forms of lines by their kind. A word in braces is a field, and one with `=` a field that has this very word.
LINES = {
    "round": ["round {round}"],
    "job": ["job {job}"],
    "vector": ["vector {imsi} {number}"],
    "bytes": ["bytes {rand} {autn} {xres} {ck} {ik}"],
    "withheld": ["withheld {imsi} {number} {stop}"],
    "restart": ["restart"],
    "exhausted": ["exhausted {imsi} {word}"],
    "sync": ["sync {imsi} {result=moved} {from} {to}", "sync {imsi} {result=inrange} {number} {seq}",
             "sync {imsi} {result=beyond} {number} {seq}", "sync {imsi} {result=wrongmac}"],
    "give": ["give {imsi} {number} {result=accepted}", "give {imsi} {number} {result=sync} {sqn}",
             "give {imsi} {number} {result=absent}"],
    "auts": ["auts {auts} {rand}"],
    "kasme": ["kasme {k_asme}"],
    "hxresstar": ["hxresstar {hxres_star}"],
    "fiveg": ["fiveg {imsi} {result=noseparation}", "fiveg {imsi} {result=servingrefused}", "fiveg {imsi} {result=homerefused}",
              "fiveg {imsi} {result=confirmed}"],
    "seaf": ["seaf {home} {device}"],
    "sites": ["sites {imsi} {event=ask} {site} sent {sent}",
              "sites {imsi} {event=deliver} {packet} {result=granted} {count} sent {sent}",
              "sites {imsi} {event=deliver} {packet} {result=again} {count} sent {sent}",
              *(f"sites {{imsi}} {{event=deliver}} {{packet}} {{result={word}}}" for word in ("old", "refused", "notmine", "nosuchpacket")),
              "sites {imsi} {event=deliver} {packet} {result=taken} {count}",
              "sites {imsi} {event=draw} {site} {result=number} {number}", "sites {imsi} {event=draw} {site} {result=empty}",
              "sites {imsi} {event=restart} {site}", "sites {imsi} {event=master}"],
    "sim": ["sim {imsi} {verdict=agree}", "sim {imsi} {verdict=differ}"],
    "session": ["session {session} open"],
    "verdict": ["session {session} {verdict=agree}", "session {session} {verdict=differ}"],
    "tamper": ["tamper {packet} {place} {byte} made {made}", "tamper {packet} {place} {byte} {refused=nosuchpacket}",
               "tamper {packet} {place} {byte} {refused=nosuchplace}"],
    "cut": ["cut {packet} {length} made {made}", "cut {packet} {length} {refused=nosuchpacket}",
            "cut {packet} {length} {refused=nosuchplace}"],
    "packet": ["packet {packet} {bytes}"],
    "keys": ["keys {k_encr} {k_aut} {k_re} {msk} {emsk}"],
    "closed": ["closed {imsi} {open} {close} {drawn} {skipped} {released} {withheld}"],
    "premise": ["premise {premise=held}", "premise {premise=broken} {job} {session} {end} {packet}"],
}
# The one line of a run that is refused before its first round.
REFUSED = {
    "usage": ["usage"],
    "refused": ["refused {file=subscribers} {row} {why}", "refused {file=scenario} {line_of_file} {why}",
                "refused {file=journal} {place}"],
}
NOTES = ["{note=moved} {from} {to}", "{note=inrange} {number} {seq}", "{note=beyond} {number} {seq}", "{note=badauts}",
         "{note=drew} {number}", "{note=exhausted} {word}", "{note=withheld} {number} {stop}", "{note=resumed} {counter}",
         "{note=accepted} {sqn}", "{note=sync} {sqn}", "{note=wrongmac}", "{note=counter} {counter}", "{note=small} {counter}"]
STEPS = ["", "ended {ended=success}", "ignored {ignored}", "{refused=nosuchpacket}", "{refused=nosuchend}", "{refused=started}",
         "ended {ended=failure} {why=beyond} {number} {seq}", "ended {ended=failure} {why=exhausted} {word}",
         "ended {ended=failure} {why=stopped} {number} {stop}", "ended {ended=failure} {why=clienterror} {code}",
         "ended {ended=failure} {why=notified} {code}", "ended {ended=failure} {why}"]

# What a field looks like, if it isn't a number.
TEXTS = {"imsi": "[0-9]{6,15}", "stop": "fault|full", "sqn": "[0-9a-f]{12}", "end": "server|peer", "why": "[a-z]+",
         "ignored": "[a-z]+", "auts": "[0-9a-f]{28}", "rand": "[0-9a-f]{32}", "autn": "[0-9a-f]{32}", "xres": "[0-9a-f]{16}",
         "ck": "[0-9a-f]{32}", "ik": "[0-9a-f]{32}", "bytes": "(?:[0-9a-f]{2})*", "byte": "[0-9a-f]{2}", "k_encr": "[0-9a-f]{32}",
         "k_aut": "[0-9a-f]{64}", "k_re": "[0-9a-f]{64}", "msk": "[0-9a-f]{128}", "emsk": "[0-9a-f]{128}", "k_asme": "[0-9a-f]{64}", "hxres_star": "[0-9a-f]{32}",
         "home": "[0-9a-f]{64}", "device": "[0-9a-f]{64}"}
NUMBER = "[0-9]{1,20}"
OUTSIDE_OF_JOBS = {"round", "restart", "closed", "premise"}


def pattern_of(form):
    def field(found):
        name, _, word = found[1].partition("=")
        return f"(?P<{name}>{word or TEXTS.get(name, NUMBER)})"
    return re.compile(re.sub(r"\{([^}]+)\}", field, form))


def patterns_by_word(forms_of):
    """The patterns of lines by their first words, each with its kind."""
    found = {}
    for kind, forms in forms_of.items():
        for form in forms:
            found.setdefault(form.split(" ")[0], []).append((kind, pattern_of(form)))
    return found


LINE_PATTERNS, REFUSED_PATTERNS = patterns_by_word(LINES), patterns_by_word(REFUSED)
NOTE_PATTERNS, STEP_PATTERNS = [pattern_of(it) for it in NOTES], [pattern_of(it) for it in STEPS]


def fields_of(match):
    """Of a match, its fields: numbers as numbers, and all else as it stands."""
    return {name: word if name in TEXTS or not word.isdecimal() else int(word) for name, word in match.groupdict().items()}


def read_by(patterns, text):
    """The fields of a text by the first pattern that it has."""
    found = next(filter(None, (it.fullmatch(text) for it in patterns)), None)
    if found is None:
        raise Unreadable(f"{text[:60]!r} has another form")
    return fields_of(found)


def read_as(patterns, text):
    """The same of a line, with its kind before them."""
    for kind, pattern in patterns.get(text.partition(" ")[0], []):
        found = pattern.fullmatch(text)
        if found:
            return {"kind": kind} | fields_of(found)
    raise Unreadable(f"{text[:60]!r} is no line of a transcript")


def whose(event):
    """The session and the end of an event. That of a `sim` line has the subscriber in place of a session's number."""
    session = event.session
    return ({"imsi": session.imsi} if session.imsi else {"session": session.number}) | {"end": event.end}


def fields_of_event(event):
    """What an event did: its notes taken apart, and then its step. One of a `sim` line has no notes."""
    found = {"kind": "event", "event": event.word} | whose(event)
    if event.word == "deliver":
        found["packet"] = int(event.text.split(" ")[3])
    if event.session.imsi:
        found["kind"] = "sim"
    else:
        found["notes"] = [read_by(NOTE_PATTERNS, note) for note in event.notes]
    if event.sent:
        found["sent"] = event.sent.number
    return found | read_by(STEP_PATTERNS, event.step)


class Lines:
    """Reads lines one after the other. Its reader has the sessions of them all."""

    def __init__(self):
        self.reader = Reader()
        # What a line `bytes` is of: the subscriber's or the session's number before it. What a line `auts` is of: the number that
        # was given, or the end that answered.
        self.drawn = self.refused = None
        # What a line on a key of EPS or on 5G is of: the vector that was released last in the job. Whether the line before is a
        # confirmed 5G authentication.
        self.released, self.confirmed = None, False

    def object_of(self, line, text):
        """The object of a line."""
        before = self.reader.event
        self.reader.read(line, text)
        event = self.reader.event
        found = fields_of_event(event) if event is not before and event else self.fields_of_line(text)
        if found["kind"] not in ("bytes", "auts", "packet", "keys"):
            self.drawn, self.refused = self.drawn_in(found), refused_in(found)
        if found["kind"] in ("job", "vector"):
            self.released = self.drawn
        self.confirmed = found["kind"] == "fiveg" and found["result"] == "confirmed"
        return {"line": line} | self.place_of(found) | found

    def fields_of_line(self, text):
        found = read_as(LINE_PATTERNS, text)
        if found["kind"] == "bytes":
            if self.drawn is None:
                raise Unreadable("the bytes are of no number")
            return found | self.drawn
        if found["kind"] == "auts":
            return found | self.refused
        if found["kind"] in ("kasme", "hxresstar", "fiveg", "seaf"):
            return found | self.vector_of(found)
        if found["kind"] in ("packet", "keys") and self.reader.event:
            return found | whose(self.reader.event)
        return found

    def vector_of(self, found):
        """The subscriber and the number of the vector that a line on a key of EPS or on 5G is of."""
        if self.released is None or found.get("imsi") not in (None, self.released["imsi"]):
            raise Unreadable(f"the line `{found['kind']}` is of no vector")
        if found["kind"] == "seaf" and not self.confirmed:
            raise Unreadable("the keys are of no 5G authentication")
        return self.released

    def drawn_in(self, found):
        """Of a line, what the bytes after it are of."""
        if found["kind"] == "vector":
            return {"imsi": found["imsi"], "number": found["number"]}
        drawn = next((it["number"] for it in found.get("notes", []) if it["note"] == "drew"), None)
        return None if drawn is None else {"session": found["session"], "number": drawn}

    def place_of(self, found):
        """The round and the job of a line. That of a verdict is its session's."""
        reader = self.reader
        if found["kind"] == "verdict":
            return {"round": reader.round, "job": reader.sessions[found["session"]].job}
        return {"round": reader.round, "job": None if found["kind"] in OUTSIDE_OF_JOBS else reader.job_number}


def refused_in(found):
    """Of a line with a synchronisation failure, what the AUTS after it is of: the subscriber and the number, or the session and the
    end."""
    if found["kind"] == "give" and found["result"] == "sync":
        return {"imsi": found["imsi"], "number": found["number"]}
    is_refused = any(note["note"] == "sync" for note in found.get("notes", []))
    return {"session": found["session"], "end": found["end"]} if is_refused else None


def refusal_in(text):
    """The object of a run that was refused before its first round; nothing if it wasn't."""
    if text.count("\n") != 1 or text.partition(" ")[0].strip() not in REFUSED_PATTERNS:
        return None
    return {"line": 1, "round": None, "job": None} | read_as(REFUSED_PATTERNS, text[:-1])


def objects_in(text, lines=None, status=0):
    """The objects of a transcript's lines. A last line without an end is one only if the output couldn't be written."""
    refusal = refusal_in(text)
    if refusal:
        yield refusal
        return
    lines, texts = lines or Lines(), text.split("\n")
    cut = texts.pop()
    for line, words in enumerate(texts, 1):
        try:
            yield lines.object_of(line, words)
        except Unreadable as reason:
            raise Unreadable(f"line {line}: {reason}") from None
    if cut and status != WRITE_FAULT:
        raise Unreadable(f"line {len(texts) + 1}: it has no end, so the output was cut there")
    if cut:
        yield {"line": len(texts) + 1, "round": lines.reader.round, "job": None, "kind": "cut", "text": cut}
