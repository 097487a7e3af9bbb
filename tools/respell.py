#!/usr/bin/env python3
"""Gives this repository's own definitions and lemmas the library's spelling: words in snake case, facts in camel case.

usage: tools/respell.py [--list]     at the top, once, right after the kit's port.py; --list prints the table alone

A word in camel case becomes snake case (`kindOf`, `kind_of`), or camel case with a capital where it is a fact.
A dash stays where it joins two words that are defined (`sets-append`), and becomes `_` elsewhere.
In .rt files only clauses and `ghost use` lines are read; functions, C names and text keep their names.
"""
import glob
import re
import sys

WORD = r"[^\s(){}\[\],;.:\"'`⌜⌝]+[^\s(){}\[\],;.:\"`⌜⌝]*"
TOKEN = re.compile(WORD)
DEFINED = re.compile(r"^(\s*)(?:(?:abbrev|unfoldable|pub)\s+)*(?:(?:data|record)\s+)?([^\s:(){}]+)((?:\s*[({].*?[)}])*)\s:\s(.*)$")
CONSTRUCTORS = re.compile(r"^\s+((?:[^\s:(){}]+\s+)+):\s")
CAMEL = re.compile(r"^[a-z][a-z0-9_]*[A-Z]")
# words of the library that laws are named after
LIBRARY = set("append length take drop set map reverse sum all get get_or add sub mul div rem and or not".split())


def antt_files():
    return sorted(glob.glob("crates/*/specs/**/*.antt", recursive=True) + glob.glob("crates/*/proofs/**/*.antt", recursive=True))


def is_own(path):
    """A file of definitions or lemmas, not the proof of one function."""
    return not re.search(r"/(Proof|Answers|Invariants)\.antt$", path)


def snake(name):
    name = re.sub(r"([a-z0-9])([A-Z])", r"\1_\2", name)
    return re.sub(r"_[A-Z]", lambda m: m.group(0).lower(), name)


def collect():
    """Every name defined here: whether it is a fact, and whether it is defined in specs/."""
    names, facts, words = set(), set(), set()
    for path in filter(is_own, antt_files()):
        for line in open(path, encoding="utf-8"):
            if line.startswith("use ") or line.lstrip().startswith("--"):
                continue
            m = DEFINED.match(line)
            found = [m.group(2)] if m else []
            many = CONSTRUCTORS.match(line)
            if many:
                found += many.group(1).split()
            names.update(found)
            if m and re.search(r"(^|→ )Type 0\s*$", m.group(4)):
                facts.add(m.group(2))
            if "/specs/" in path:
                words.update(found)
    return names, facts, words


def borrowed():
    """The names that some file takes from the library: they stay."""
    names = set()
    for path in antt_files():
        text = open(path, encoding="utf-8").read()
        for module, listed in re.findall(r"^use ([^\s{]+)\.\{([^}]*)\}", text, re.M):
            if not re.match(r"Rattle\.(?!std\.)", module):
                names.update(n.split(" as ")[0].strip() for n in listed.split(","))
    return names


def spelling(name, facts, spelt):
    if name in facts and name[0].islower() or "-" in name and name[0].isupper():
        return "".join(p[:1].upper() + p[1:] for p in re.split(r"[-_]", snake(name)))
    if "-" not in name:
        return snake(name) if CAMEL.match(name) else name
    parts = [snake(p) for p in name.split("-")]
    joins = len(parts) == 2 and parts[0] in spelt and parts[1] in spelt
    return ("-" if joins else "_").join(parts)


def table():
    """Old name to new; where a lemma falls together with a word, the lemma gets `_lem`."""
    names, facts, words = collect()
    spelt = {snake(w) for w in words} | LIBRARY
    new, olds = {}, {}
    for n in sorted(names - borrowed()):
        if re.match(r"^[A-Za-z]", n):
            new[n] = spelling(n, facts, spelt)
            olds.setdefault(new[n], []).append(n)
    for out, many in olds.items():
        if len(many) > 1:
            kept = sorted(many, key=lambda n: (n not in words, not CAMEL.match(n), n))[0]
            for n in many:
                if n != kept:
                    new[n] = out + "_lem"
            print("falls together:", out, "is", kept, "and others get _lem:", *many, file=sys.stderr)
    return {n: o for n, o in new.items() if n != o}


def turn(text, new, locals_too):
    """The text with each word of the table respelt; a module's path and a step of `c` keep their names."""
    def one(m):
        w = m.group(0)
        if m.start() and text[m.start() - 1] == ".":
            head = re.search(r"([^\s(){}\[\],;]+)\.$", text[: m.start()])
            if head and (head.group(1).startswith("Rattle") or "-" in w and re.match(r"^(c|l|r|tie|goal|w)\b", head.group(1))):
                return w
        if w in new:
            return new[w]
        return snake(w) if locals_too and CAMEL.match(w) and "-" not in w else w
    return TOKEN.sub(one, text)


def turn_clauses(text, new):
    """The clauses and the `ghost use` lines of a source, respelt."""
    out, at = [], 0
    for m in re.finditer(r"^ghost use [^;]*;|\b(?:requires|ensures)\*?(?: \w+)? \{|^\s*(?:ghost|invariant)\b[^{\n]*\{", text, re.M):
        if m.start() < at:
            continue
        end = m.end()
        if text[end - 1] == "{":
            depth = 1
            while depth:
                depth += {"{": 1, "}": -1}.get(text[end], 0)
                end += 1
        out.append(text[at : m.start()])
        out.append(turn(text[m.start() : end], new, True))
        at = end
    return "".join(out) + text[at:]


def main():
    new = table()
    if "--list" in sys.argv:
        for n, o in sorted(new.items()):
            print(n, o)
        return
    for path in antt_files():
        text = open(path, encoding="utf-8").read()
        lines = [turn(l, new, not l.lstrip().startswith("--")) for l in text.split("\n")]
        open(path, "w", encoding="utf-8").write("\n".join(lines))
    plain = {n: o for n, o in new.items() if not o.endswith("_lem")}
    for path in sorted(glob.glob("crates/*/src/**/*.rt", recursive=True)):
        text = open(path, encoding="utf-8").read()
        open(path, "w", encoding="utf-8").write(turn_clauses(text, plain))
    named = {n: o for n, o in new.items() if "-" in n or not o.endswith("_lem")}
    for path in sorted(glob.glob("*.md") + glob.glob("docs/*.md") + glob.glob("*/README.md")):
        text = open(path, encoding="utf-8").read()
        open(path, "w", encoding="utf-8").write(re.sub(r"`[^`\n]+`", lambda m: turn(m.group(0), named, False), text))


main()
