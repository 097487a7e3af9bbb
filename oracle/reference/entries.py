"""Writes entries.txt: sequences of entries that the Rust cannot show, answered by the reference machine alone (see oracle/README.md).

P11, pauses and goings-on, a state moved to another image, refused images, starts of a running machine, Chars that are no scalar values,
bits that are no value's, live lists and written images with room and without.
"""

import os
import random

import image
from image import ASSIGN, CHAR, CONSTANT_ADDRESS, COPY, DROP, OFFSET, POINTER, READ, RETURN, WIDTHS, WRITE
from image_cases import P1
from machine import SHORT_TABLE, U8, U16, Machine, Refusal, prepared
from maker import Maker
from play import Teller, host, optional, value_of
from sweep import BACK, LEFT, TO, simple

SHORT_BUFFER = 42


class Play:
    """A machine and the image that its entries take."""

    def __init__(self):
        self.machine, self.image = Machine(), b""

    def answer(self, word):
        """The line that answers a word; every word is done, whatever those before it gave."""
        kind, rest = word[0], word[1:]
        if kind in "aw":
            return "H " + host(self.machine, None, word)
        if kind == "k":
            return "H " + self.live(int(rest))
        program = image.load(self.image)
        if isinstance(program, tuple):
            return ("A" if kind in "sg" else "H") + f" refused {program[0]} at {program[1]}"
        if kind == "x":
            written = image.write(program)
            return "H " + (f"ok {written.hex()}" if int(rest) >= len(written) else f"refused {SHORT_BUFFER}")
        program = prepared(program)
        if kind == "r":
            return "H " + host(self.machine, program, word)
        return "A " + (self.start(program, rest) if kind == "s" else self.run(program, int(rest)))

    def live(self, room):
        records = self.machine.live()
        if room < len(records):
            return f"refused {SHORT_TABLE}"
        return " ".join(["ok"] + [",".join(str(int(field)) for field in record) for record in records])

    def start(self, program, rest):
        function, values = rest.split("=")
        context, *arguments = [value_of(text) for text in values.split(",")]
        try:
            self.machine.start(program, int(function), context, arguments)
        except Refusal as refusal:
            return f"refused {refusal.number}"
        return "started"

    def run(self, program, budget):
        kind, *rest = self.machine.run(program, budget)
        if kind == "returned":
            rest[0] = optional(rest[0])
        return " ".join([kind, *map(str, rest)])

    def record(self, words):
        lines = ["C " + " ".join(words)]
        for word in words:
            if word[0] == "i":
                self.image = bytes.fromhex(word[1:])
            else:
                lines.append(self.answer(word))
        return "\n".join(lines + ["Z " + Teller().tell(self.machine)]) + "\n"


def pieces(maker, chance):
    """A start, and the run in pieces with host calls between."""
    words = [word.rsplit("=", 1)[0] if word[0] == "s" else word for word in maker.starts()]
    again = [word for word in words if word[0] == "s"]
    for _ in range(chance.randint(2, 8)):
        words.append(chance.choice([f"g{chance.choice([0, 1, 2, 3, 5, 8, 13, 40, 100])}"] * 8 + again + [
            f"k{chance.choice([0, 1, 3, 8, 20, 60])}", "k4096", f"a{chance.choice([0, 1, 8, 32768])}", f"w{chance.randrange(9)}=0102",
            f"r{chance.randrange(9)}=2", f"r{chance.randrange(4)}=0"]))
    return words


def sequences(seed, count):
    chance = random.Random(seed)
    bad = [b"", P1[:7], P1 + b"\0", b"\x02" + P1[1:], P1[:14] + b"\x16" + P1[15:]]
    for number in range(count):
        maker = Maker(chance)
        whole = image.write(maker.program())
        words = ["i" + whole.hex()] + pieces(maker, chance)
        if number % 3 == 0:
            other = image.write(Maker(chance).program())
            at = chance.randrange(2, len(words) + 1)
            words[at:at] = ["i" + other.hex(), "g3", "r0=1", "r1=1"]
        if number % 5 == 0:
            wrong = chance.choice(bad)
            at = chance.randrange(1, len(words))
            words[at:at] = ["i" + wrong.hex(), chance.choice(["g3", "r0=1", "s0=14:0", "x100"]), "i" + whole.hex()]
        if number % 7 == 0:
            words += [f"x{len(whole) + extra}" for extra in (-1, 0, 1)]
        yield words


def numbers():
    """P11: 300 is AC 02; 80 00 in its place is refused with 2."""
    good = simple([(RETURN, (U16, 300))], 0)
    assert good.count("ac02") == 1
    yield ["i" + good, "s0=14:0", "g1", "x100"]
    yield ["i" + good.replace("ac02", "8000"), "s0=14:0", "g1", "x100"]


def named():
    """Chars, idle and running machines, wrong functions and counts: each check before the ones that come later."""
    p1 = "i" + P1.hex()
    yield [p1, "g0", "g5", "s0=14:0,2:1", "s0=14:0,2:1", "s1=14:0", "g0", "g1", "s0=12:55296", "g5", "g5", "s0=14:0,2:9", "g9"]
    for bits in (0xD7FF, 0xD800, 0xDBFF, 0xDFFF, 0xE000, 0x10FFFF, 0x110000, 2**32 - 1):
        yield [p1, f"s0=14:0,12:{bits}", "g3", "k0"]
        yield [p1, f"s0=12:{bits},2:1", "g3"]
        yield [p1, f"s1=12:{bits},2:1", f"s0=12:{bits}", f"s0=12:{bits},12:{bits}"]
    yield [p1, "x23", "x24", "x0", "x100", "k0", "a8", "k0", "k1", "k2"]
    yield ["i", "x0", "s0=14:0", "g0", "r0=1", "k0", "a1", "w0=01", "w0=0102", "w1=01"]


def widest():
    """The largest bits of each kind, and the next ones where a number can say them: in an image, and as an argument."""
    for tag in range(1, len(WIDTHS)):
        most = 0x10FFFF if tag == CHAR else 2 ** WIDTHS[tag] - 1
        for bits in sorted({most, min(most + 1, 2**64 - 1)}):
            yield ["i" + simple([(RETURN, (tag, bits))], 0), "s0=14:0", "g1", "i" + P1.hex(), f"s0=14:0,{tag}:{bits}", "g1"]


def moved():
    """A constant's pointer, used with an image that has fewer constants."""
    first = "i" + simple([(CONSTANT_ADDRESS, TO, 1), BACK], 0, [b"a", b"bc"])
    for use in [(READ, 5, (0, TO), U8), (COPY, LEFT, (0, TO), 1), (COPY, LEFT, (0, TO), 9), (COPY, (0, TO), LEFT, 1), (WRITE, (0, TO), (U8, 1)),
                (OFFSET, 5, (0, TO), 0), (DROP, (0, TO)), (RETURN, (0, TO))]:
        for constants in ([], [b"a"], [b"a", b""], [b"a", b"xyz"]):
            drop = (DROP, (U8, 0))
            second = "i" + simple([drop, (ASSIGN, 2, (POINTER, 0), POINTER), use, (RETURN, None)], 0, constants)
            yield [first, "a8", "s0=14:0", "g1", second, "r1=0", "r1=1", "r1=3", "w1=01", "g1", "g1", "k2", "k1", first, "r1=2", "r1=3"]


def main():
    records = [Play().record(words) for words in [*numbers(), *named(), *widest(), *moved(), *sequences(11, 400)]]
    records = [record for record in records if len(record) < 4000]
    with open(os.path.join(os.path.dirname(os.path.abspath(__file__)), "entries.txt"), "w", encoding="ascii") as out:
        out.writelines(records)
    tally = {}
    for record in records:
        for line in record.splitlines():
            words = line.split(" ")
            if words[0] in "AH":
                key = "image" if words[3:4] == ["at"] else words[2] if words[1] == "refused" else words[1]
                tally[key] = tally.get(key, 0) + 1
    print(f"{len(records)} records, {sum(map(len, records))} bytes;", ", ".join(f"{key} {tally[key]}" for key in sorted(tally)))


if __name__ == "__main__":
    main()
