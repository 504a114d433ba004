"""What trials of scripts and of the program share: the program, a run in an empty folder, where two texts
differ, a script without `.py` as a module, and a subscriber."""
import os
import subprocess
import sys
import tempfile
from contextlib import contextmanager
from importlib.machinery import SourceFileLoader
from importlib.util import module_from_spec, spec_from_loader
from itertools import zip_longest
from pathlib import Path

from eap.session import Subscriber
from ends import Missing
from gateway_centre import HEADER as FIELDS

TOOLS = Path(__file__).resolve().parent
BUILT = TOOLS.parent / "crates/auc_cli/out/auc_cli"
# The header of a file of subscribers, and the fields of one after its IMSI.
HEADER, K, OPC = ",".join(FIELDS), Subscriber().k.hex(), Subscriber().opc.hex()
KEYS = K, "opc", OPC, "8000", "0", "0"


def runnable(path, how="`rt run` in crates/auc_cli proves and builds the program"):
    """The program at a path, as a word of a command. It has to be there."""
    if not os.path.isfile(path) or not os.access(path, os.X_OK):
        raise Missing(path, how)
    return str(Path(path).resolve())


@contextmanager
def folder_with(files=()):
    """A new folder with some files, given by their names and texts, until the end of the block."""
    with tempfile.TemporaryDirectory() as name:
        for file, text in dict(files).items():
            (Path(name) / file).write_bytes(text if isinstance(text, bytes) else text.encode())
        yield Path(name)


def ran_in_new_folder(words, files=(), **more):
    """A run in a new folder with some files, so that it finds no journal of an earlier one: its status and
    what it wrote."""
    with folder_with(files) as folder:
        return subprocess.run(words, cwd=folder, capture_output=True, **more)


def difference(ours, theirs):
    """The number of the first line in which two texts differ, and what stands there in each, or None if
    nothing does; nothing if they are the same."""
    if ours == theirs:
        return None
    pairs = list(zip_longest(ours.splitlines(), theirs.splitlines()))
    places = (place for place, (mine, other) in enumerate(pairs) if mine != other)
    place = next(places, len(pairs))
    return place + 1, *(pairs[place] if place < len(pairs) else (None, None))


def loaded(name):
    """A script of tools/ as a module."""
    loader = SourceFileLoader(f"{name}_tool", str(TOOLS / name))
    module = module_from_spec(spec_from_loader(loader.name, loader))
    sys.modules[loader.name] = module
    loader.exec_module(module)
    return module
