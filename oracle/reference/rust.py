"""Builds the published evaluator between the stubs, unchanged by its digests, and asks it."""

import hashlib
import os
import shutil
import subprocess
import sys

from compare import until_dot

ORACLE = os.path.dirname(os.path.dirname(os.path.abspath(__file__)))
ROOT = os.path.dirname(ORACLE)
BUILD = os.path.join(ROOT, "target", "oracle")
SOURCE = os.path.join(ROOT, "..", "shared", "docs", "src")

# Where each stub stands among the published files.
STUBS = {"ast": ["ast"], "label": ["label"], "asn": ["asn"], "value": ["value"], "typechecker": ["typechecker"],
         "runtime": ["runtime/mod"], "lower": ["lir/lower"], "empty": ["lir/print", "lir/test_eval"]}


def copied(source, to):
    """Copies the published files, unchanged by their digests, between the stubs into a new folder."""
    for folder in ("src/lir", "src/runtime"):
        os.makedirs(os.path.join(to, folder))
    with open(os.path.join(ORACLE, "judge", "published.sha256"), encoding="ascii") as listed:
        for line in listed:
            digest, name = line.split()
            with open(os.path.join(source, name), "rb") as published:
                data = published.read()
            if hashlib.sha256(data).hexdigest() != digest:
                sys.exit(f"{name} is not the published file")
            with open(os.path.join(to, name), "wb") as copy:
                copy.write(data)
    for stub, places in STUBS.items():
        for place in places:
            shutil.copy(os.path.join(ORACLE, "judge", "stubs", stub + ".rs"), os.path.join(to, "src", place + ".rs"))


def compiled(to, log, options):
    """The program of src/main.rs, with this file as the crate `log`."""
    subprocess.run(["rustc", "--edition", "2024", log, "--crate-type", "proc-macro", "--crate-name", "log", "--out-dir", to], check=True)
    extern = [name for name in os.listdir(to) if name.startswith("liblog")][0]
    program = os.path.join(to, "judge")
    subprocess.run(["rustc", "--edition", "2024", "--crate-name", "judge", "--cfg", "test", *options,
                    "--extern", f"log={os.path.join(to, extern)}", os.path.join(to, "src", "main.rs"), "-o", program], check=True)
    return program


def build(source):
    """The judge: the published evaluator with overflow checks and debug assertions, and the probe in its `trace!`."""
    shutil.rmtree(BUILD, ignore_errors=True)
    copied(source, BUILD)
    for name in ("main", "probe", "program"):
        shutil.copy(os.path.join(ORACLE, "judge", name + ".rs"), os.path.join(BUILD, "src"))
    checks = ["-C", "opt-level=2", "-C", "overflow-checks=on", "-C", "debug-assertions=on"]
    return compiled(BUILD, os.path.join(ORACLE, "judge", "log.rs"), checks)


def answered(judge, made):
    """Each case with what the judge tells."""
    given = list(made)
    lines = iter(subprocess.run([judge], input="\n".join(given) + "\n", capture_output=True, text=True, check=True).stdout.splitlines())
    return [(case, until_dot(lines)) for case in given]
