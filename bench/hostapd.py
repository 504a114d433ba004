"""Runs sessions between hostapd's server and wpa_supplicant's peer, for bench/sessions.py and bench/foreign_keys.py, and
either of them for bench/foreign_ends.py.

Both come from Debian's packages hostapd and eapoltest. hostapd runs as a RADIUS server on the loopback, and eapol_test as its
client with a peer. The vectors and the USIM are played by this script, over the sockets that both have for that: any values
do, as long as both ends get the same. In `sessions` each session of EAP-AKA is a full authentication, without pseudonyms; in
`log_of` those after the first are fast re-authentications, by either method.
"""
import os
import shutil
import signal
import socket
import subprocess
import tempfile
import threading
import time
from contextlib import contextmanager
from pathlib import Path

IMSI = "001010000000001"
SECRET = b"radius"
TOOLS = ("hostapd", "eapol_test")
# The leading digits of permanent identities, and those of names that a server gives.
PERMANENT, NAMES = {"AKA": "0", "AKA'": "6", "SIM": "1"}, "2478"
# AUTN of zeros, but for the separation bit of the AMF, without which a peer refuses EAP-AKA'.
AUTN = "00" * 6 + "80" + "00" * 9


def are_there():
    return all(shutil.which(tool) for tool in TOOLS)


def free_port():
    with socket.socket(socket.AF_INET, socket.SOCK_DGRAM) as probe:
        probe.bind(("127.0.0.1", 0))
        return probe.getsockname()[1]


def write_files(folder, port, method="AKA", renews=False):
    digit = PERMANENT[method]
    (folder / "clients").write_text(f"127.0.0.1 {SECRET.decode()}\n")
    (folder / "users").write_text("".join(f'"{first}"* {method}\n' for first in (digit, *NAMES)))
    (folder / "hostapd.conf").write_text(f"""driver=none
interface=lo
radius_server_clients={folder}/clients
radius_server_auth_port={port}
eap_server=1
eap_user_file={folder}/users
eap_sim_db=unix:{folder}/centre
eap_sim_id={3 if renews else 0}
""")
    (folder / "peer.conf").write_text(f"""ctrl_interface={folder}/ctrl
external_sim=1
fast_reauth={int(renews)}
network={{
    ssid="bench"
    key_mgmt=WPA-EAP
    eap={method}
    identity="{digit}{IMSI}"
}}
""")


def bound(path):
    it = socket.socket(socket.AF_UNIX, socket.SOCK_DGRAM)
    it.bind(str(path))
    return it


def play_centre(sockets):
    """Answers each request for a vector: RES, CK and IK are RAND, and AUTN is always the same."""
    for number in range(1, 2**32):
        asked, sender = sockets.recvfrom(4096)
        word, imsi = asked.decode().split()[:2]
        rand = number.to_bytes(16, "big").hex()
        if word == "AKA-REQ-AUTH":
            sockets.sendto(f"AKA-RESP-AUTH {imsi} {rand} {AUTN} {rand} {rand} {rand}".encode(), sender)


def same(kind, rand, autn):
    """What a USIM answers to a challenge, IK, CK and RES: RAND each."""
    return f"UMTS-AUTH:{rand}:{rand}:{rand}"


def play_usim(sockets, answer):
    """Answers each challenge, of one kind or another: `UMTS-AUTH` with RAND and AUTN, `GSM-AUTH` with each RAND."""
    while True:
        _, found, asked = sockets.recv(4096).decode().partition("CTRL-REQ-SIM-")
        if found:
            # The last value ends where the text for a user begins.
            network, kind, *values = asked.split(" ")[0].split(":")
            sockets.send(f"CTRL-RSP-SIM-{network}:{answer(kind, *values)}".encode())


def begin(play, *given):
    threading.Thread(target=play, args=given, daemon=True).start()


def wait_until(test, what, seconds=10):
    for _ in range(20 * seconds):
        if test():
            return
        time.sleep(0.05)
    raise SystemExit(f"{what} didn't begin")


def seconds_of(child):
    _, status, usage = os.wait4(child.pid, 0)
    child.returncode = os.waitstatus_to_exitcode(status)
    return usage.ru_utime + usage.ru_stime


def ran_peer(folder, port, count, answer=same):
    """Runs so many sessions at the peer, whose USIM gives these answers: its processor seconds."""
    log = folder / "peer.log"
    words = ["eapol_test", "-c", folder / "peer.conf", "-p", str(port), "-r", str(count - 1), "-t", str(30 + count), "-W"]
    with log.open("w") as out:
        child = subprocess.Popen(words, stdout=out, stderr=subprocess.STDOUT)
    wait_until((folder / "ctrl/test").exists, "eapol_test")
    usim = bound(folder / "usim")
    usim.connect(str(folder / "ctrl/test"))
    usim.send(b"ATTACH")
    begin(play_usim, usim, answer)
    seconds = seconds_of(child)
    # The keys that RADIUS told of a session are those of the peer.
    if child.returncode != 0 or f"MPPE keys OK: {count}  mismatch: 0" not in log.read_text(errors="replace"):
        raise SystemExit(f"eapol_test ended with status {child.returncode}, before {count} sessions succeeded")
    return seconds


@contextmanager
def serving(folder, *words):
    """Runs hostapd, or another program of these words, which has its processor seconds when it has ended."""
    log = folder / "server.log"
    with log.open("w") as out:
        server = subprocess.Popen([*words, folder / "hostapd.conf"], stdout=out, stderr=subprocess.STDOUT)
    try:
        wait_until(lambda: "AP-ENABLED" in log.read_text(errors="replace"), words[0])
        yield server
    finally:
        os.kill(server.pid, signal.SIGTERM)
        server.seconds = seconds_of(server)


def ran(folder, port, count, *words):
    """Runs so many sessions: the processor seconds of the server, which gets these words, and of the peer."""
    begin(play_centre, bound(folder / "centre"))
    with serving(folder, "hostapd", *words) as server:
        peer = ran_peer(folder, port, count)
    return server.seconds, peer


def sessions(count):
    """Runs so many full authentications: the processor seconds of the server and of the peer."""
    with tempfile.TemporaryDirectory(dir="/tmp") as name:
        folder, port = Path(name), free_port()
        write_files(folder, port)
        return ran(folder, port, count)


def log_of(count, method):
    """The server's log, with its keys, of so many sessions by a method, all but the first fast re-authentications."""
    with tempfile.TemporaryDirectory(dir="/tmp") as name:
        folder, port = Path(name), free_port()
        write_files(folder, port, method, renews=True)
        ran(folder, port, count, "-dd", "-K")
        return (folder / "server.log").read_text(errors="replace")
