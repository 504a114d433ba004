"""Runs the examples that have a session, each with the bytes of its packets. Scripts in bench/ and docs/ use it."""
import sys
from pathlib import Path

HERE = Path(__file__).resolve().parent
sys.path.append(str(HERE.parent / "tools"))
from trial import ran_in_new_folder


def with_full_print(lines):
    return "".join(line + "\n" for line in ["print full", *[line for line in lines if line.split()[:1] != ["print"]]])


def ran(program, scenario):
    """What the program prints of a scenario."""
    done = ran_in_new_folder([program, "run", "scenario"], {"scenario": scenario}, text=True)
    if done.returncode:
        sys.exit(f"status {done.returncode} of\n{scenario}")
    return done.stdout


def transcripts(program):
    """The name of each example with a session, also of EAP-SIM, and its transcript with `print full`."""
    for path in sorted(HERE.glob("*.scenario")):
        lines = path.read_text().splitlines()
        if any(line.startswith(("session ", "sim ")) for line in lines):
            yield path.stem, ran(program, with_full_print(lines))
