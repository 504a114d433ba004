"""Installs the proved program with its script, tools, pages and examples under a prefix, and takes it away again.

What is installed is one tree: a path from the prefix for each file and link. It is the same one in a prefix, in an archive of
bench/release.py, and in an installed copy, which can install itself elsewhere. `lib/auc/installed.json` lists it with the
checksum of each file, names the program's sources, and has the folders that were made. Its presence tells the script that
it is an installed one.
"""
import contextlib
import fcntl
import json
import os
import shutil
import subprocess
from dataclasses import asdict, dataclass
from pathlib import Path

from . import build, release, sources
from .places import INSTALLED, IS_INSTALLED, TOP, Stopped, manifest, say, version

HOME = "lib/auc"
MANIFEST = f"{HOME}/installed.json"
PROGRAM = f"{HOME}/program"
PAGES = "share/doc/auc"
TOOLS = ("import", "chart", "pcap", "report", "transcript", "gateway", "master", "usim", "seqs", "foreign")
MODULES = ("ends.py", "transcript.py", "transcript_lines.py", "report_numbers.py", "report_packets.py", "report_page.html",
           "ladders.py", "picture.py", "gateway_centre.py", "gateway_leases.py", "gateway_stock.py", "import_stores.py",
           "foreign_ours.py", "foreign_radius.py", "foreign_trial.py", "foreign_verdict.py")
# Folders of which each module is installed.
PACKAGES = ("launcher", "eap")
PLAIN, RUN = 0o644, 0o755


@dataclass(frozen=True)
class File:
    content: bytes
    mode: int = PLAIN

    def sum(self):
        return release.sha256(self.content)


# ---- the tree: files, and the targets of links, by their paths from the prefix


def file_of(path, mode=PLAIN):
    return File(path.read_bytes(), mode)


def pages():
    """The documents and examples, in the folders that they have in the repository."""
    patterns = ("README.md", "CHANGELOG.md", "LICENSE", "docs/*.md", "docs/charts/*.svg", "docs/pictures/*.png", "examples/*.scenario",
                "examples/*.blocks", "examples/*.expected", "examples/*.csv")
    found = [it for pattern in patterns for it in TOP.glob(pattern)]
    return {f"{PAGES}/{it.relative_to(TOP)}": file_of(it) for it in found}


def tree_of_checkout(program, facts):
    """What is installed of these sources, with a program and what is known of it."""
    packages = [it for package in PACKAGES for it in TOP.glob(f"tools/{package}/*.py")]
    modules = [*(f"tools/{it}" for it in MODULES), *(str(it.relative_to(TOP)) for it in packages)]
    tree = {
        PROGRAM: File(program, RUN),
        f"{HOME}/auc": file_of(TOP / "auc", RUN),
        **{f"{HOME}/tools/{it}": file_of(TOP / "tools" / it, RUN) for it in TOOLS},
        **{f"{HOME}/{it}": file_of(TOP / it) for it in modules},
        "share/man/man1/auc.1": file_of(TOP / "docs/auc.1"),
        "share/bash-completion/completions/auc": file_of(TOP / "tools/completion.bash"),
        **pages(),
        "bin/auc": f"../{HOME}/auc",
        **{f"bin/auc-{it}": f"../{HOME}/tools/{it}" for it in TOOLS},
    }
    return {**tree, MANIFEST: manifest_of(tree, asdict(facts))}


def manifest_of(tree, facts, folders=()):
    files = {path: it.sum() for path, it in sorted(tree.items()) if isinstance(it, File) and path != MANIFEST}
    links = {path: it for path, it in sorted(tree.items()) if isinstance(it, str)}
    known = {**facts, "files": files, "links": links, "folders": sorted(folders)}
    return File((json.dumps(known, indent=1) + "\n").encode())


def tree_of_copy():
    """What is installed of an installed copy: the same, if nobody changed it."""
    prefix, known = TOP.parents[1], manifest_in(TOP.parents[1])
    if not known:
        raise Stopped(f"{TOP} was moved out of its prefix, so nothing is installed of it")
    tree = {path: file_of(prefix / path, (prefix / path).stat().st_mode & RUN) for path in known["files"]}
    changed = [path for path, it in tree.items() if it.sum() != known["files"][path]]
    if changed:
        raise Stopped(f"{prefix / changed[0]} was changed since it was installed, so nothing is installed of it")
    return {**tree, **known["links"], MANIFEST: manifest_of({**tree, **known["links"]}, facts_in(known))}


def facts_in(known):
    return {name: known[name] for name in release.Release.__dataclass_fields__}


def kit():
    asked = shutil.which("rt") and subprocess.run(["rt", "version"], stdout=subprocess.PIPE, universal_newlines=True)
    return asked.stdout.strip() if asked and asked.returncode == 0 else "a kit that isn't on the PATH any more"


def tree_at_hand():
    """What this copy installs. Nothing is built for it. The program is one for the default processor, since the tree may go to
    another machine."""
    if IS_INSTALLED:
        return tree_of_copy()
    packed, own = release.read(), build.current(portable=True)
    if packed and packed.is_of_sources_at_hand():
        return tree_of_checkout(release.program_of(packed), packed)
    if not own:
        raise Stopped("no program was proved from these sources, so there is none to install; `./auc prove` proves and builds it")
    program, said = own.read_bytes(), ["proved and built by `./auc prove` or the gate, and not released"]
    facts = release.Release(version(), sources.checksum(), release.sha256(program), kit(), said)
    return tree_of_checkout(program, facts)


# ---- a prefix


def root_of(prefix):
    """Where a prefix stands now: under the folder DESTDIR of the environment, if a package is made."""
    return Path(os.environ.get("DESTDIR", "") + os.path.abspath(prefix))


def is_inside(path):
    return not path.startswith("/") and ".." not in path.split("/")


def manifest_in(root):
    """What was installed there; nothing if nothing was."""
    try:
        known = manifest(root / MANIFEST)
    except FileNotFoundError:
        return None
    if not all(map(is_inside, [*known["files"], *known["links"], *known["folders"]])):
        raise Stopped(f"{root / MANIFEST} names files that aren't under {root}")
    return known


def paths_in(known):
    return {*known["files"], *known["links"], MANIFEST} if known else set()


def beside(path):
    return path.with_name(f".{path.name}.auc-new")


def make_folders(root, paths):
    """Makes the folders that the paths need, the prefix itself among them: those that weren't there, from the prefix."""
    made = [it for it in sorted(folders_of(paths)) if not (root / it).exists()]
    for folder in made:
        (root / folder).mkdir(parents=True)
    return made


def folders_of(paths):
    return {str(it) for path in paths for it in Path(path).parents}


@contextlib.contextmanager
def naming(path):
    """Has a fault name this file if it names none, as that of a full disk does."""
    try:
        yield
    except OSError as error:
        error.filename = error.filename or path
        raise


def write_beside(path, entry):
    """Puts a file or link beside its place."""
    with contextlib.suppress(FileNotFoundError):
        beside(path).unlink()
    if isinstance(entry, str):
        beside(path).symlink_to(entry)
    else:
        with naming(beside(path)):
            beside(path).write_bytes(entry.content)
        beside(path).chmod(entry.mode)


def put(root, path, entry):
    write_beside(root / path, entry)
    os.replace(beside(root / path), root / path)


@contextlib.contextmanager
def alone(root):
    """Lets one call at a time change what is installed under a prefix."""
    held = os.open(root / HOME, os.O_RDONLY | os.O_DIRECTORY)
    try:
        fcntl.flock(held, fcntl.LOCK_EX)
        yield
    finally:
        os.close(held)


def forget_bytecode(root, paths):
    """Removes what Python keeps beside the modules of an installed copy."""
    modules = [root / it for it in paths if it.startswith(f"{HOME}/")]
    for path in modules:
        for kept in path.parent.glob(f"__pycache__/{path.stem}.*.pyc"):
            kept.unlink()
    for folder in {it.parent / "__pycache__" for it in modules}:
        with contextlib.suppress(OSError):
            folder.rmdir()


def refuse_others(root, tree, own):
    """Refuses to replace what another program put there."""
    for path in tree:
        if path not in own and os.path.lexists(root / path):
            raise Stopped(f"{root / path} is there, and isn't of an earlier install: nothing was changed")


def install(root, tree):
    """Installs a tree: it replaces an earlier one whole. What runs goes on with the file that it has open.

    Everything is written beside its place first. The manifest names the files of both from before the first of them is
    replaced until the last one is, so that a call that is killed can be made again or taken back.
    """
    refuse_others(root, tree, paths_in(manifest_in(root)))
    made = make_folders(root, tree)
    with alone(root):
        before = manifest_in(root) or {"files": {}, "links": {}, "folders": []}
        known = json.loads(tree[MANIFEST].content)
        folders = {*before["folders"], *made}
        both = {**known, "folders": sorted(folders), "earlier": {**before["files"], **before["links"]}}
        both.update((name, {**before[name], **known[name]}) for name in ("files", "links"))
        put(root, MANIFEST, File(json.dumps(both).encode()))
        entries = {path: it for path, it in tree.items() if path != MANIFEST}
        for path, entry in entries.items():
            write_beside(root / path, entry)
        for path in entries:
            os.replace(beside(root / path), root / path)
        for path in paths_in(before) - {*tree}:
            with contextlib.suppress(FileNotFoundError):
                (root / path).unlink()
        forget_bytecode(root, paths_in(both))
        put(root, MANIFEST, manifest_of(entries, facts_in(known), folders))
    remove_empty(root, folders - folders_of(tree))


def remove_empty(root, folders):
    for folder in sorted(folders, key=len, reverse=True):
        with contextlib.suppress(OSError):
            (root / folder).rmdir()


def is_own(path, known, name):
    """Whether a file or link is still what was installed: now, or before an install that didn't come to its end."""
    if path.is_symlink():
        found = os.readlink(path)
    else:
        found = release.sha256(path.read_bytes()) if path.is_file() else None
    return found and found in [known.get(it, {}).get(name) for it in ("files", "links", "earlier")]


def remove(root):
    """Takes away what was installed, and nothing else: the names that stay because somebody changed them."""
    known = manifest_in(root)
    if not known:
        raise Stopped(f"nothing is installed in {root}: it has no {MANIFEST}")
    kept = []
    with alone(root):
        for name in sorted(paths_in(known)):
            with contextlib.suppress(FileNotFoundError):
                beside(root / name).unlink()
            if name != MANIFEST and os.path.lexists(root / name):
                if is_own(root / name, known, name):
                    (root / name).unlink()
                else:
                    kept.append(name)
        forget_bytecode(root, paths_in(known))
        (root / MANIFEST).unlink()
    remove_empty(root, known["folders"])
    return kept


# ---- the words


def install_words(words):
    """Does what the words after `install` say: the exit status."""
    root = root_of(words[-1])
    os.umask(0o777 & ~RUN)
    if words[0] == "--remove":
        for name in remove(root):
            say(f"{root / name} was changed since it was installed, so it stays")
        say(f"what was installed in {root} is taken away")
        return 0
    tree = tree_at_hand()
    install(root, tree)
    say(f"version {version()} is installed in {root}; its command is {root / 'bin/auc'}")
    return 0


def standing():
    """What is known of the program of an installed copy, in a sentence."""
    known, program = manifest(INSTALLED), TOP / "program"
    if not program.is_file() or release.sha256(program.read_bytes()) != known["program"]:
        return f"not proved: {program} isn't the program that was installed"
    return (
        f"the proved program of version {known['version']}, built with {known['kit']} from the sources with the checksum"
        f" {known['sources']}; the gate said: {known['verdict'][-1]}"
    )


def stop_building():
    """Says why an installed copy neither proves nor builds, and what to do."""
    known = manifest(INSTALLED)
    raise Stopped(
        "this is an installed copy, which has no sources, so it neither proves nor builds. Take the project's repository, from"
        f" where this copy came, and call `./auc prove` there; the sources of version {known['version']} have the checksum"
        f" {known['sources']}"
    )
