"""The other implementations that bench/peers.py tries: hostapd's hlr_auc_gw over its text file and over SQLite, osmo-hlr, and
libosmogsm. Each of their processes is on the loopback alone, and has its files in a folder of the trial.

A client asks one process for vectors. `vectors()` gives those of one request, each as RAND and AUTN, or none if the request
was refused. `resynchronise(auts, rand)` hands an AUTS in, and gives the vectors that came with it.
"""
import ctypes
import ctypes.util
import os
import shutil
import socket
import sqlite3
import subprocess
import sys
import time
from contextlib import closing
from pathlib import Path

from measure import KEYS, TOP

sys.path.append(str(TOP / "tools"))
from eap.session import Subscriber

K, OPC, AMF, IMSI = KEYS[0], KEYS[2], KEYS[3], "001010000000001"
SUBSCRIBER = Subscriber(IMSI, bytes.fromhex(K), bytes.fromhex(OPC))
LAST = 2**48 - 1
# The longest wait for an answer, and for a process to begin.
LONGEST_WAIT = 20
# What brings hlr_auc_gw.
HOW = "bench/peers.py --help says how it is built"


def sqns_of(vectors):
    """The SQN of each vector."""
    return [int.from_bytes(SUBSCRIBER.functions(rand).sqn_of(autn), "big") for rand, autn in vectors]


def auts_of(rand, sqn):
    """AUTS of a USIM with this SQN_MS."""
    return SUBSCRIBER.functions(rand).auts(sqn.to_bytes(6, "big"))


def wait_for(path, child):
    until = time.monotonic() + LONGEST_WAIT
    while not os.path.exists(path):
        if child.poll() is not None or time.monotonic() > until:
            raise SystemExit(f"{child.args[0]} didn't begin")
        time.sleep(0.002)


# ---- hlr_auc_gw

class Gateway:
    """A process of hlr_auc_gw with these words, and its client."""

    def __init__(self, program, folder, number, *words):
        self.path, self.own = (str(Path(folder) / f"{name}{number}") for name in ("gateway", "client"))
        for path in (self.path, self.own):
            Path(path).unlink(missing_ok=True)
        self.child = subprocess.Popen([program, *words, "-s", self.path], stdout=subprocess.DEVNULL, stderr=subprocess.DEVNULL)
        self.socket = socket.socket(socket.AF_UNIX, socket.SOCK_DGRAM)
        self.socket.bind(self.own)
        self.socket.settimeout(LONGEST_WAIT)
        wait_for(self.path, self.child)
        self.socket.connect(self.path)

    def vectors(self):
        self.socket.send(f"AKA-REQ-AUTH {IMSI}".encode())
        words = self.socket.recv(1000).decode().split()
        return [(bytes.fromhex(words[2]), bytes.fromhex(words[3]))] if len(words) > 3 else []

    def resynchronise(self, auts, rand):
        self.socket.send(f"AKA-AUTS {IMSI} {auts.hex()} {rand.hex()}".encode())
        return []

    def end(self):
        self.child.kill()
        self.child.wait()
        self.socket.close()


class TextFile:
    """hlr_auc_gw over its Milenage file."""
    name = "hlr_auc_gw, text file"
    keeps, locked = True, None

    def __init__(self, program, folder):
        self.program, self.folder = str(program.resolve()), folder
        self.path = Path(folder) / "milenage"

    def store(self, sqn=0, imsis=(IMSI,)):
        self.path.write_text("".join(f"{it} {K} {OPC} {AMF} {sqn:012x}\n" for it in imsis))

    def start(self, number=0):
        return Gateway(self.program, self.folder, number, "-u", "-m", self.path)


class Sqlite(TextFile):
    """hlr_auc_gw over its SQLite database."""
    name = "hlr_auc_gw, SQLite"

    def store(self, sqn=0, imsis=(IMSI,)):
        # The gateway makes the table.
        self.start().end()
        rows = [(int(it), K, OPC, AMF, f"{sqn:012x}") for it in imsis]
        with closing(sqlite3.connect(self.path)) as database, database:
            database.executemany("INSERT INTO milenage VALUES (?, ?, ?, ?, ?, NULL)", rows)

    def start(self, number=0):
        return Gateway(self.program, self.folder, number, "-D", self.path)

    def locked(self):
        return held(self.path)


def held(path):
    """A connection that holds the lock of a database till it is closed."""
    database = sqlite3.connect(path, isolation_level=None)
    database.execute("BEGIN IMMEDIATE")
    return closing(database)


# ---- osmo-hlr

# Streams of IPA, the messages of its CCM, and what GSUP is among Osmocom's own streams.
CCM, OSMOCOM, PING, PONG, IDENTITY, GSUP = 0xFE, 0xEE, 0, 1, 5, 5
# The tags of an identity: the serial number, by which osmo-hlr tells its clients apart, the name, and the unit.
SERIAL, NAME, UNIT = 0, 1, 8
# The messages of GSUP, and their elements.
SEND_AUTH_INFO, SEND_AUTH_INFO_RESULT = 0x08, 0x0A
IMSI_TAG, TUPLE_TAG, RAND_TAG, AUTN_TAG, AUTS_TAG = 0x01, 0x03, 0x20, 0x25, 0x26
CONFIGURATION = """log stderr
 logging filter all 1
line vty
 bind {0}
ctrl
 bind {0}
hlr
 gsup
  bind ip {0}
"""
PORT = 4222


def element(tag, value):
    return bytes([tag, len(value)]) + value


def elements(data):
    """The elements of a message of GSUP, each as its tag and value."""
    at, found = 0, []
    while at < len(data):
        length = data[at + 1]
        found.append((data[at], data[at + 2:at + 2 + length]))
        at += 2 + length
    return found


def packed_digits(digits):
    """Two decimal digits a byte, the first in its low half; the last half is filled with ones."""
    filled = digits + "f" * (len(digits) % 2)
    return bytes.fromhex("".join(filled[at + 1] + filled[at] for at in range(0, len(filled), 2)))


class GsupClient:
    """A visited network that asks osmo-hlr over IPA on TCP. All have one name, so that they get one IND."""

    def __init__(self, address):
        self.socket = socket.create_connection((address, PORT), timeout=LONGEST_WAIT)
        self.file = self.socket.makefile("rb")
        self.received()
        tags = [(UNIT, b"0/0/0\0"), (SERIAL, b"peers\0"), (NAME, b"peers\0")]
        self.send(CCM, bytes([IDENTITY]) + b"".join(bytes([0, len(value) + 1, tag]) + value for tag, value in tags))

    def send(self, stream, body):
        self.socket.sendall(len(body).to_bytes(2, "big") + bytes([stream]) + body)

    def received(self):
        head = self.file.read(3)
        if len(head) < 3:
            raise EOFError("osmo-hlr ended the connection")
        return head[2], self.file.read(int.from_bytes(head[:2], "big"))

    def asked(self, *more):
        """The vectors that a request with these further elements gets."""
        self.send(OSMOCOM, b"".join([bytes([GSUP, SEND_AUTH_INFO]), element(IMSI_TAG, packed_digits(IMSI)), *more]))
        while True:
            stream, body = self.received()
            if stream == OSMOCOM and body[0] == GSUP:
                break
            if stream == CCM and body[0] == PING:
                self.send(CCM, bytes([PONG]))
        if body[1] != SEND_AUTH_INFO_RESULT:
            return []
        tuples = [dict(elements(value)) for tag, value in elements(body[2:]) if tag == TUPLE_TAG]
        return [(it[RAND_TAG], it[AUTN_TAG]) for it in tuples]

    def vectors(self):
        return self.asked()

    def resynchronise(self, auts, rand):
        return self.asked(element(AUTS_TAG, auts), element(RAND_TAG, rand))


class Hlr(GsupClient):
    """A process of osmo-hlr over a database, at an address of its own, and its client."""

    def __init__(self, folder, number, path):
        # Two benches at once have different addresses.
        address = f"127.44.{os.getpid() % 250}.{number + 1}"
        configuration, self.log = Path(folder) / f"{number}.cfg", open(Path(folder) / f"{number}.log", "a")
        configuration.write_text(CONFIGURATION.format(address))
        self.child = subprocess.Popen(["osmo-hlr", "-c", configuration, "-l", path], stdout=self.log, stderr=self.log)
        until = time.monotonic() + LONGEST_WAIT
        while True:
            try:
                return super().__init__(address)
            except ConnectionRefusedError:
                if self.child.poll() is not None or time.monotonic() > until:
                    raise SystemExit(f"osmo-hlr didn't begin: {Path(self.log.name).read_text()}") from None
                time.sleep(0.01)

    def end(self):
        self.child.kill()
        self.child.wait()
        self.file.close()
        self.socket.close()
        self.log.close()


class OsmoHlr:
    """osmo-hlr over its SQLite database, by GSUP. It gives 5 vectors a request."""
    name = "osmo-hlr"
    keeps = True

    def __init__(self, _, folder):
        self.folder, self.path = folder, Path(folder) / "hlr.db"

    @staticmethod
    def is_there():
        return shutil.which("osmo-hlr") and shutil.which("osmo-hlr-db-tool")

    def store(self, sqn=0):
        subprocess.run(["osmo-hlr-db-tool", "-l", self.path, "create"], check=True, capture_output=True)
        with closing(sqlite3.connect(self.path)) as database, database:
            database.execute("INSERT INTO subscriber (id, imsi) VALUES (1, ?)", (IMSI,))
            database.execute("INSERT INTO auc_3g (subscriber_id, algo_id_3g, k, opc, sqn) VALUES (1, 5, ?, ?, ?)", (K, OPC, sqn))

    def start(self, number=0):
        return Hlr(self.folder, number, self.path)

    def locked(self):
        return held(self.path)


# ---- libosmogsm

# The kind of a UMTS subscriber among those of osmo_sub_auth_type.
UMTS = 2


class Umts(ctypes.Structure):
    _fields_ = [("opc", ctypes.c_uint8 * 16), ("k", ctypes.c_uint8 * 16), ("amf", ctypes.c_uint8 * 2),
                ("sqn", ctypes.c_uint64), ("opc_is_op", ctypes.c_int), ("ind_bitlen", ctypes.c_uint),
                ("ind", ctypes.c_uint), ("sqn_ms", ctypes.c_uint64)]


class Subscriber(ctypes.Structure):
    """osmo_sub_auth_data."""
    _fields_ = [("type", ctypes.c_int), ("algo", ctypes.c_int), ("umts", Umts)]


class Vector(ctypes.Structure):
    """osmo_auth_vector."""
    _fields_ = [("rand", ctypes.c_uint8 * 16), ("autn", ctypes.c_uint8 * 16), ("ck", ctypes.c_uint8 * 16),
                ("ik", ctypes.c_uint8 * 16), ("res", ctypes.c_uint8 * 16), ("res_len", ctypes.c_uint8),
                ("kc", ctypes.c_uint8 * 8), ("sres", ctypes.c_uint8 * 4), ("auth_types", ctypes.c_uint32)]


def octets(data):
    return (ctypes.c_uint8 * len(data))(*data)


class Library:
    """libosmogsm. It keeps no numbers: its caller hands it one and gets the next."""
    name = "libosmogsm"
    keeps = False

    def __init__(self, _, folder):
        self.library = ctypes.CDLL(ctypes.util.find_library("osmogsm") or "libosmogsm.so.18")
        self.count = 0

    def store(self, sqn=0):
        umts = Umts(octets(bytes.fromhex(OPC)), octets(bytes.fromhex(K)), octets(bytes.fromhex(AMF)), sqn, 0, 5, 1, 0)
        self.subscriber = Subscriber(UMTS, self.library.osmo_auth_alg_parse(b"MILENAGE"), umts)

    def start(self, number=0):
        return self

    def made(self, call, *words):
        self.count += 1
        rand, vector = self.count.to_bytes(16, "big"), Vector()
        done = call(ctypes.byref(vector), ctypes.byref(self.subscriber), *map(octets, words), octets(rand))
        assert done >= 0, done
        return [(rand, bytes(vector.autn))]

    def vectors(self):
        return self.made(self.library.osmo_auth_gen_vec)

    def resynchronise(self, auts, rand):
        return self.made(self.library.osmo_auth_gen_vec_auts, auts, rand)

    def end(self):
        pass
