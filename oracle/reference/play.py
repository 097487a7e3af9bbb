"""Plays cases on the machine of machine.py and tells every state: a case a line in, see oracle/README.md."""

import sys

import image
from machine import Machine, Refusal, prepared


def optional(value):
    return "-" if value is None else f"{value[0]}:{value[1]}"


class Teller:
    """Tells a state as what changed since it was told last."""

    def __init__(self):
        self.counter, self.frames, self.bytes, self.pointers, self.variables = 0, [], [], [], [None] * 256

    def tell(self, m):
        words = [str(m.place)]
        if m.counter != self.counter:
            self.counter = m.counter
            words.append(f"c{m.counter}")
        if len(m.frames) != len(self.frames):
            words.append(f"d{len(m.frames)}")
        self.tell_frames(m, words)
        if m.pointers != self.pointers:
            self.tell_pointers(m, words)
        if m.variables != self.variables:
            for number, (value, old) in enumerate(zip(m.variables, self.variables)):
                if value != old:
                    words.append(f"v{number}={optional(value)}")
            self.variables = list(m.variables)
        return " ".join(words)

    def tell_frames(self, m, words):
        del self.frames[len(m.frames):]
        del self.bytes[len(m.frames):]
        for index, frame in enumerate(m.frames):
            variable = "-" if frame.return_variable is None else frame.return_variable
            record = f"f{index}={frame.id},{frame.return_place},{variable},{len(frame.allocations)}"
            if index == len(self.frames):
                self.frames.append(None)
                self.bytes.append([])
            if self.frames[index] != record:
                self.frames[index] = record
                words.append(record)
            told = self.bytes[index]
            del told[len(frame.allocations):]
            for j, data in enumerate(frame.allocations):
                if j == len(told):
                    told.append(bytes(data))
                elif told[j] != data:
                    told[j] = bytes(data)
                else:
                    continue
                words.append(f"m{index}.{j}={data.hex()}")

    def tell_pointers(self, m, words):
        if len(m.pointers) != len(self.pointers):
            words.append(f"n{len(m.pointers)}")
        for number, pointer in enumerate(m.pointers):
            if number < len(self.pointers) and self.pointers[number] == pointer:
                continue
            held = f"c{pointer[1]}" if pointer[0] == "constant" else ",".join(map(str, pointer))
            words.append(f"l{number}={held}")
        self.pointers = list(m.pointers)


def value_of(text):
    tag, bits = text.split(":")
    return (int(tag), int(bits))


def start(m, program, teller, word, lines):
    """A start and its run; the answer."""
    function, values, budget = word.split("=")
    context, *arguments = [value_of(text) for text in values.split(",")]
    try:
        m.start(program, int(function), context, arguments)
    except Refusal as refusal:
        return f"refused {refusal.number} 0"
    kind, *rest = m.run(program, int(budget), lambda m: lines.append("S " + teller.tell(m)))
    if kind == "returned":
        rest[0] = optional(rest[0])
    return " ".join([kind, *map(str, rest)])


def host(m, program, word):
    """A host call; its answer."""
    first, _, rest = word[1:].partition("=")
    try:
        if word[0] == "a":
            return f"ok {m.host_allocate(int(first))}"
        if word[0] == "w":
            m.host_write(int(first), bytes.fromhex(rest))
            return "ok"
        return f"ok {m.host_read(program, int(first), int(rest)).hex()}".rstrip()
    except Refusal as refusal:
        return f"refused {refusal.number}"


def played(case):
    """The machine as a case leaves it, and the lines that the case gives."""
    first, *words = case.split()
    program = prepared(image.load(bytes.fromhex(first)))
    m, teller, lines = Machine(), Teller(), []
    for word in words:
        if word[0] == "s":
            if m.running:
                continue
            answer = start(m, program, teller, word[1:], lines)
            lines.append("A " + answer)
            lines.append("F " + teller.tell(m))
            if answer.startswith("refused"):
                break
        else:
            lines.append("H " + host(m, program, word))
    return m, lines + ["."]


def play(case):
    return played(case)[1]


def main():
    for case in sys.stdin:
        sys.stdout.write("\n".join(play(case)) + "\n")


if __name__ == "__main__":
    main()
