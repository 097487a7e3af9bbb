"""Builds C programs over the evaluator's C functions, for x86-64 Linux."""

import hashlib
import os
import shutil
import subprocess
import sys

from rust import ORACLE, ROOT

LIBRARY = os.path.join(ROOT, "target", "staticlib", "libembed.a")
MADE = os.path.join(ROOT, "crates", "embed_c", "out", "libembed_c.a")
FOLDER = os.path.join(ROOT, "target", "player")
OPTIONS = ["-O2", "-Wall", "-Wextra"]


def reached(name):
    """The crates of the repository that a crate reaches, itself first."""
    with open(os.path.join(ROOT, "crates.txt"), encoding="utf-8") as listed:
        lines = [line.split("#")[0].partition(":") for line in listed]
    needs = {crate.split()[0]: rest.split() for crate, _, rest in lines if crate.strip()}
    found = [name]
    for crate in found:
        found += [need for need in needs[crate] if need in needs and need not in found]
    return found


def digest():
    """A digest of all that the library is built from."""
    whole = hashlib.sha256(subprocess.run(["rt", "version"], capture_output=True, check=True).stdout)
    for crate in sorted(reached("embed_c")):
        for folder, folders, names in os.walk(os.path.join(ROOT, "crates", crate)):
            folders[:] = sorted(one for one in folders if one != "out")
            for name in sorted(names):
                path = os.path.join(folder, name)
                with open(path, "rb") as file:
                    whole.update(f"{os.path.relpath(path, ROOT)}\n".encode() + hashlib.sha256(file.read()).digest())
    return whole.hexdigest()


def library():
    """The archive of the proved evaluator, proved and built again where a file of it has changed."""
    now, note = digest(), LIBRARY + ".from"
    if os.path.exists(LIBRARY) and os.path.exists(note):
        with open(note, encoding="ascii") as kept:
            if kept.read() == now:
                return LIBRARY
    made = subprocess.run(["rt", "lib"], cwd=os.path.join(ROOT, "crates", "embed_c"), capture_output=True, text=True)
    if made.returncode:
        sys.exit(made.stdout + made.stderr)
    os.makedirs(os.path.dirname(LIBRARY), exist_ok=True)
    shutil.copy(MADE, LIBRARY)
    with open(note, "w", encoding="ascii") as kept:
        kept.write(now)
    return LIBRARY


def linked(source, archive, program, *more):
    """A C file linked with an archive, or more of them: the words that run it."""
    os.makedirs(os.path.dirname(program), exist_ok=True)
    subprocess.run(["cc", *OPTIONS, "-o", program, source, archive, *more], check=True)
    return [program]


def player(archive, folder):
    return linked(os.path.join(ORACLE, "player", "player.c"), archive, os.path.join(folder, "player"))
