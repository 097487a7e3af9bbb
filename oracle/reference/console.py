"""Answers console lines by the reference machine: `console.py < SCRIPT` prints what `lir console` is to print.

Written from the words of the commands and from `machine.py`, with the tables' ends (64 frames, 4,096 pointers) as counts beside the lists.
"""

import re
import sys

import image
from image import KINDS, WIDTHS
from machine import FRAMES, NOT_SOUND, POINTERS, SHORT_TABLE, Frame, Machine, Refusal, prepared

SHORT_BUFFER, LINE, ANY = 42, 262144, 2**64 - 1


class Bad(Exception):
    """A word that cannot be read, counted from 0."""


class Words:
    def __init__(self, line):
        self.words, self.at = line.split(b" "), 0

    def next(self, test, value):
        word = self.words[self.at] if self.at < len(self.words) else b""
        if not test(word):
            raise Bad(self.at)
        self.at += 1
        return value(word)

    def name(self, names):
        return self.next(lambda word: word in names, bytes.decode)

    def number(self, most=ANY):
        return self.next(lambda word: re.fullmatch(rb"0|[1-9][0-9]*", word) and int(word) <= most, int)

    def frame(self, depth):
        return self.number(depth - 1)

    def variable(self):
        if self.words[self.at:self.at + 1] == [b"-"]:
            self.at += 1
            return None
        return self.number(ANY - 1)

    def hex(self):
        return self.next(lambda word: re.fullmatch(rb"-|([0-9a-fA-F]{2})+", word), lambda word: b"" if word == b"-" else bytes.fromhex(word.decode()))

    def value(self):
        tag = self.next(lambda word: word.decode("latin1") in KINDS[1:], lambda word: KINDS.index(word.decode()))
        return (tag, self.number((1 << (32 if KINDS[tag] == "Char" else WIDTHS[tag])) - 1))

    def values(self, most):
        values = [self.value()]
        while self.at < len(self.words) and len(values) < most:
            values.append(self.value())
        return values

    def end(self):
        if self.at < len(self.words):
            raise Bad(self.at)


def shown(value):
    return "none" if value is None else f"{KINDS[value[0]]} {value[1]}"


def dashed(texts, sign=" "):
    return sign.join(texts) if texts else "-"


class Console:
    def __init__(self):
        self.image = b""
        self.fresh()

    def fresh(self):
        self.machine, self.depth, self.count = Machine(), 1, 0

    def line(self, line):
        try:
            if len(line) > LINE:
                raise Bad(0)
            return self.command(Words(line))
        except Bad as bad:
            return f"cannot read: word {bad.args[0] + 1}"
        except image.Refused as refused:
            return f"image refused {refused.number} at {refused.place}"
        except Refusal as refusal:
            return f"refused {refusal.number}"

    def command(self, words):
        names = b"image fresh allocate write read start step run live rewrite dump poke".split()
        return getattr(self, "do_" + words.name(names))(words)

    # A table that is over its end is no sound state.

    def sound(self):
        if self.depth > FRAMES or self.count > POINTERS:
            raise Refusal(NOT_SOUND)

    def moved(self):
        self.depth, self.count = len(self.machine.frames), len(self.machine.pointers)

    def program(self):
        program = image.load(self.image)
        if isinstance(program, tuple):
            raise image.Refused(*program)
        return prepared(program)

    def do_image(self, words):
        data = words.hex()
        words.end()
        self.image = data
        return f"image {len(data)} bytes"

    def do_fresh(self, words):
        words.end()
        self.fresh()
        return "ok"

    def do_allocate(self, words):
        size = words.number()
        words.end()
        self.sound()
        number = self.machine.host_allocate(size)
        self.moved()
        return f"pointer {number}"

    def do_write(self, words):
        number, data = words.number(), words.hex()
        words.end()
        self.sound()
        self.machine.host_write(number, data)
        return "ok"

    def do_read(self, words):
        number, size = words.number(), words.number(32768)
        words.end()
        program = self.program()
        self.sound()
        return "bytes " + (self.machine.host_read(program, number, size).hex() or "-")

    def do_start(self, words):
        number, values = words.number(), words.values(65)
        words.end()
        program = self.program()
        self.sound()
        self.machine.start(program, number, values[0], values[1:])
        self.moved()
        return "ok"

    def run(self, budget):
        program = self.program()
        try:
            self.sound()
        except Refusal as refusal:
            return ("refused", refusal.number, 0)
        answer = self.machine.run(program, budget)
        self.moved()
        return answer

    def do_step(self, words):
        words.end()
        kind, *rest = self.run(1)
        if kind == "refused":
            raise Refusal(rest[0])
        return "stepped" if kind == "paused" else f"returned {shown(rest[0])}"

    def do_run(self, words):
        budget = words.number(2**32 - 1)
        words.end()
        kind, *rest = self.run(budget)
        if kind == "returned":
            rest[0] = shown(rest[0])
        return " ".join([kind, *map(str, rest[:-1]), "steps", str(rest[-1])])

    def do_live(self, words):
        room = words.number(4096)
        words.end()
        self.sound()
        if not self.machine.sound():
            raise Refusal(NOT_SOUND)
        records = self.machine.live()
        if room < len(records):
            raise Refusal(SHORT_TABLE)
        return f"live {len(records)}" + "".join(" " + " ".join(str(int(field)) for field in record) for record in records)

    def do_rewrite(self, words):
        room = words.number(32768)
        words.end()
        written = image.write(self.program())
        if room < len(written):
            raise Refusal(SHORT_BUFFER)
        return "bytes " + (written.hex() or "-")

    def do_dump(self, words):
        words.end()
        m = self.machine
        frames = [f"{f.id}:{f.return_place}:{'-' if f.return_variable is None else f.return_variable}:"
                  + dashed([str(len(data)) for data in f.allocations], ",") for f in m.frames]
        pointers = [f"c{p[1]}" if p[0] == "constant" else "l" + ":".join(map(str, p)) for p in m.pointers]
        variables = [f"{place}={KINDS[value[0]]}:{value[1]}" for place, value in enumerate(m.variables) if value is not None]
        data = b"".join(bytes(data) for f in m.frames for data in f.allocations)
        return (f"state {int(m.running)} {m.place} {m.counter} | {' '.join(frames)} | {self.count} {dashed(pointers)} | "
                f"{dashed(variables)} | {len(data)} {data.hex() or '-'}")

    def do_poke(self, words):
        what = words.name(b"counter next running var unset frame id place rvar local const".split())
        m = self.machine
        if what == "counter":
            change = lambda n=words.number(): setattr(m, "counter", n)
        elif what == "next":
            change = lambda n=words.number(): setattr(m, "place", n)
        elif what == "running":
            change = lambda n=words.number(1): setattr(m, "running", bool(n))
        elif what == "var":
            change = lambda i=words.number(255), value=words.value(): m.variables.__setitem__(i, value)
        elif what == "unset":
            change = lambda i=words.number(255): m.variables.__setitem__(i, None)
        elif what == "frame":
            change = lambda id=words.number(), place=words.number(), v=words.variable(): self.push(Frame(id, place, v))
        elif what in ("id", "place", "rvar"):
            field = {"id": "id", "place": "return_place", "rvar": "return_variable"}[what]
            frame, value = words.frame(self.depth), words.variable() if what == "rvar" else words.number()
            change = lambda: setattr(m.frames[frame], field, value) if frame < FRAMES else None
        elif what == "local":
            change = lambda p=tuple(words.number() for _ in range(4)): self.point(p, 1)
        else:
            change = lambda k=words.number(), n=words.number(): self.point(("constant", k), n)
        words.end()
        change()
        return "ok"

    def push(self, frame):
        if self.depth < FRAMES:
            self.machine.frames.append(frame)
        self.depth += 1

    def point(self, pointer, times):
        self.machine.pointers += [pointer] * min(times, max(0, POINTERS - self.count))
        self.count = min(self.count + times, ANY)


def main():
    console = Console()
    text = sys.stdin.buffer.read()
    for line in text.removesuffix(b"\n").split(b"\n") if text else []:
        print(console.line(line))


if __name__ == "__main__":
    main()
