"""A PostgreSQL of Debian's for bench/sites.py: a server on the loopback in a folder of its own, that can be killed, started again,
and followed by a standby.

PostgreSQL refuses to run as root, so root lets the user postgres run it.
"""
import os
import shutil
import signal
import socket
import subprocess
import time
from pathlib import Path

HOME, USER, PASSWORD = Path("/usr/lib/postgresql"), "auc", "loopback"
LONGEST_START = 60


def programs():
    """The folder of the newest version's programs, if there is one."""
    found = sorted(HOME.glob("*/bin/postgres"), key=lambda path: int(path.parts[-3]))
    return found[-1].parent if found and shutil.which("psql") else None


def free_port():
    with socket.socket() as probe:
        probe.bind(("127.0.0.1", 0))
        return probe.getsockname()[1]


def as_server(words, **more):
    """A call as the user who may run the server."""
    if os.getuid() == 0:
        more = {**more, "user": "postgres", "group": "postgres", "extra_groups": []}
    return subprocess.Popen([str(word) for word in words], stdin=subprocess.DEVNULL, **more)


def ran(words, **more):
    with as_server(words, stdout=subprocess.PIPE, stderr=subprocess.STDOUT, text=True, **more) as child:
        text = child.communicate()[0]
    if child.returncode:
        raise SystemExit(f"{words[0]} ended with status {child.returncode}: {text}")


def children_of(number):
    """The processes that a process has begun. It can be gone."""
    try:
        return [int(it) for it in Path(f"/proc/{number}/task/{number}/children").read_text().split()]
    except OSError:
        return []


class Server:
    """A server whose data stand in a folder."""

    def __init__(self, folder, name="primary"):
        self.folder, self.name, self.port, self.child = folder, name, free_port(), None
        self.data = folder / name
        self.environment = {**os.environ, "PGPASSWORD": PASSWORD}

    def make(self):
        if os.getuid() == 0:
            # The folder of a trial is its maker's alone.
            self.folder.chmod(0o711)
            home = self.folder / "server"
            home.mkdir()
            shutil.chown(home, "postgres", "postgres")
            self.data = home / self.name
        word = self.folder / "password"
        word.write_text(PASSWORD)
        word.chmod(0o644)
        ran([programs() / "initdb", "-D", self.data, "-U", USER, "--auth=scram-sha-256", f"--pwfile={word}"])

    def follow(self, other):
        """Makes a standby of another server, whose commits wait for it from then on."""
        self.data = other.data.parent / self.name
        ran([programs() / "pg_basebackup", "-D", self.data, "-R", "-X", "stream", "-d",
             f"host=127.0.0.1 port={other.port} user={USER} password={PASSWORD} application_name={self.name}"])
        self.start()
        for statement in (f"ALTER SYSTEM SET synchronous_standby_names = '{self.name}'", "SELECT pg_reload_conf()"):
            other.ask(statement)
        self.wait_until(lambda: other.ask("SELECT count(*) FROM pg_stat_replication WHERE sync_state = 'sync'") == "1")

    def promote(self):
        ran([programs() / "pg_ctl", "promote", "-D", self.data, "-w"])

    def start(self):
        words = [programs() / "postgres", "-D", self.data, "-c", "listen_addresses=127.0.0.1", "-c", f"port={self.port}", "-c",
                 "unix_socket_directories=", "-c", "max_connections=50", "-c", "dynamic_shared_memory_type=mmap"]
        with open(self.folder / f"{self.name}.log", "a") as log:
            while True:
                self.child = as_server(words, stdout=log, stderr=log)
                self.wait_until(lambda: self.child.poll() is not None or self.ask("SELECT 1") == "1")
                if self.child.poll() is None:
                    return
                # The memory of the killed one is still in use.
                time.sleep(0.1)

    def wait_until(self, test):
        until = time.monotonic() + LONGEST_START
        while not test():
            if time.monotonic() > until:
                raise SystemExit(f"the server doesn't answer: {(self.folder / f'{self.name}.log').read_text()[-1000:]}")
            time.sleep(0.05)

    def place(self):
        return f"postgresql://{USER}@127.0.0.1:{self.port}/postgres"

    def ask(self, statement):
        words = ["psql", "-X", "-A", "-t", "-q", "-w", "-c", statement, self.place()]
        return subprocess.run(words, env=self.environment, capture_output=True, text=True).stdout.strip()

    def kill(self):
        """Kills the server and each process of it, so that nothing of it is written any more."""
        numbers = children_of(self.child.pid)
        self.child.kill()
        for number in numbers:
            try:
                os.kill(number, signal.SIGKILL)
            except ProcessLookupError:
                pass
        self.child.wait()

    def end(self):
        if self.child and self.child.poll() is None:
            self.child.send_signal(signal.SIGINT)
            self.child.wait(LONGEST_START)
