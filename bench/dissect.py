#!/usr/bin/env python3
"""Passes packets through tshark's EAP dissector: none is malformed, and each has the Code, Identifier, Length, Subtype and
attribute types that we wrote, in their order.

    bench/dissect.py [PROGRAM]      PROGRAM: crates/auc_cli/out/auc_cli, unless it is given

The packets are those that auc_packet_cli writes (the lines 'written HEX' of crates/auc_packet_cli/stdout), and each packet
of each example with a session, which is run with `print full`; these also in the captures that tools/pcap makes. A packet
with an AT_IDENTITY of no bytes is left out, because tshark calls it malformed, and so are copies that the network changed. The script needs tshark and text2pcap
(apt-get install tshark); if they are missing, it says so and ends.
"""
import shutil
import subprocess
import sys
import tempfile
from pathlib import Path

from measure import TOP, program

sys.path += [str(TOP / "examples"), str(TOP / "tools")]
from eap.attributes import AT_IDENTITY, places_in
from eap.messages import METHODS, SIM
from ends import run_main
from full import transcripts

# The dissector names what EAP-SIM has by itself, and what both methods of AKA have together.
FIELDS = ["eap.code", "eap.id", "eap.len", "eap.aka.subtype", "eap.aka.subtype.type", "eap.sim.subtype", "eap.sim.subtype.type",
          "_ws.malformed"]
CHANGES = "tamper", "cut"


def written(path):
    """The packets that auc_packet_cli wrote."""
    return [bytes.fromhex(line.split()[1]) for line in path.read_text().splitlines() if line.startswith("written ")]


def sent(transcript):
    """The packets that ends sent: not those that the network changed, which no dissector need take."""
    lines = transcript.splitlines()
    pairs = [(before, line) for before, line in zip(lines, lines[1:]) if line.startswith("packet ")]
    return [bytes.fromhex(line.split()[2]) for before, line in pairs if before.split()[0] not in CHANGES]


def has_changes(transcript):
    return any(line.split(" ")[0] in CHANGES for line in transcript.splitlines())


def attributes(packet):
    """The type and the value of each attribute."""
    is_message = len(packet) > 8 and packet[4] in METHODS
    return [(kind, packet[start:end]) for kind, start, end in places_in(packet, 8)] if is_message else []


def has_empty_identity(packet):
    return (AT_IDENTITY, b"\0\0") in attributes(packet)


def expected(packet):
    """What tshark has to show of a packet, field by field."""
    subtype = str(packet[5]) if len(packet) > 5 and packet[4] in METHODS else ""
    message, none = [subtype, ",".join(str(kind) for kind, _ in attributes(packet))], ["", ""]
    of_method = none + message if len(packet) > 5 and packet[4] == SIM else message + none
    return [str(packet[0]), str(packet[1]), str(int.from_bytes(packet[2:4], "big")), *of_method, ""]


def dump(packet):
    rows = [packet[start : start + 16] for start in range(0, len(packet), 16)]
    return "".join(f"{16 * place:06x} {row.hex(' ')}\n" for place, row in enumerate(rows)) + "\n"


def shown(capture):
    """What tshark shows of each frame of a capture, field by field."""
    asked = [word for field in FIELDS for word in ("-e", field)]
    command = ["tshark", "-r", capture, "-T", "fields", "-E", "separator=;", *asked]
    lines = subprocess.run(command, check=True, capture_output=True, text=True).stdout.splitlines()
    return [line.split(";") for line in lines]


def dissected(packets):
    with tempfile.TemporaryDirectory() as folder:
        text, capture = Path(folder) / "packets.txt", Path(folder) / "packets.pcap"
        text.write_text("".join(dump(packet) for packet in packets))
        subprocess.run(["text2pcap", "-q", "-P", "eap", text, capture], check=True, capture_output=True)
        return shown(capture)


def captured(transcript):
    """The same of the capture that tools/pcap makes of a transcript."""
    with tempfile.TemporaryDirectory() as folder:
        text, capture = Path(folder) / "transcript", Path(folder) / "capture.pcapng"
        text.write_text(transcript)
        subprocess.run([TOP / "tools/pcap", text, capture], check=True)
        return shown(capture)


def judge(name, packets):
    """Ends the script if tshark shows another packet than one that we wrote."""
    tried = [packet for packet in packets if not has_empty_identity(packet)]
    frames = dissected(tried)
    if len(frames) != len(tried):
        sys.exit(f"{name}: {len(tried)} packets were written, and {len(frames)} dissected")
    for packet, frame in zip(tried, frames):
        if frame != expected(packet):
            sys.exit(f"{name}: {packet.hex()} is shown as {dict(zip(FIELDS, frame))}")
    print(f"{name}: {len(tried)} packets of {len(packets)} dissected: none malformed, each attribute found")


def main():
    for tool in ("tshark", "text2pcap"):
        if shutil.which(tool) is None:
            print(f"{tool} is missing: nothing was dissected")
            return
    judge("auc_packet_cli", written(TOP / "crates/auc_packet_cli/stdout"))
    for name, transcript in transcripts(program()):
        packets = sent(transcript)
        judge(name, packets)
        # Each packet is in the capture at least once, and nothing else is but what the network changed.
        frames, wanted = captured(transcript), set(map(tuple, map(expected, packets)))
        others = set(map(tuple, frames)) - wanted
        if len(frames) < len(packets) or wanted - set(map(tuple, frames)) or others and not has_changes(transcript):
            sys.exit(f"{name}: the capture has other packets")


if __name__ == "__main__":
    run_main(main, __doc__)
