"""Writes the images of examples/, each with a start line and what `lir run` answers to it by the reference machine."""

import os

import image
from console import Console
from image import (
    ADD, ASSIGN, CALL, CONSTANT_ADDRESS, COPY, INT_CMP, JUMP, KINDS, POINTER, READ, RETURN, SWITCH, WRITE,
)
from image_cases import P1
from sweep import function

U8, U32, U64 = KINDS.index("U8"), KINDS.index("U32"), KINDS.index("U64")
EXAMPLES = os.path.join(os.path.dirname(os.path.abspath(__file__)), "..", "..", "examples")


def variable(number):
    return (0, number)


def program(variables, constants, functions, blocks):
    return image.write({"variables": variables, "constants": constants, "functions": functions, "blocks": blocks})


# A helper writes a count into a slot of its own and hands back the slot's address. Variable 2 is what it handed back, 3 its slot, 4 what is read.
MARCH = program(5, [], [function(entry=0), function(entry=1, slots=[(3, 8)])], [
    [(CALL, (2, POINTER), None, 1, [], None), (READ, 4, variable(2), U64), (RETURN, variable(4))],
    [(WRITE, variable(3), (U64, 600)), (RETURN, variable(3))],
])

# The same, but a second helper's frame stands where the first one's stood, with a slot of the same size, when the address is used.
REUSED = program(6, [], [function(entry=0), function(entry=1, slots=[(3, 8)]), function(entry=2, slots=[(5, 8)])], [
    [(CALL, (2, POINTER), None, 1, [], None), (CALL, (4, U64), None, 2, [], None), (RETURN, variable(4))],
    [(WRITE, variable(3), (U64, 600)), (RETURN, variable(3))],
    [(READ, 4, variable(2), U64), (RETURN, variable(4))],
])

# The helper fills a slot of its caller's instead, which is the repair.
REPAIRED = program(6, [], [function(entry=0, slots=[(2, 8)]), function(entry=1, parameters=[3])], [
    [(CALL, None, None, 1, [variable(2)], None), (READ, 4, variable(2), U64), (RETURN, variable(4))],
    [(WRITE, variable(3), (U64, 600)), (RETURN, None)],
])

# 1 + 2 + .. + n, n the argument in variable 2: variable 3 counts, 4 sums, 5 is the test.
SUM = program(6, [], [function(entry=0, parameters=[2])], [
    [(ASSIGN, 3, (U32, 0), U32), (ASSIGN, 4, (U32, 0), U32), (JUMP, 1)],
    [(INT_CMP, 5, 2, variable(3), variable(2)), (SWITCH, variable(5), [(1, 2)], 3)],
    [(ADD, 3, variable(3), (U32, 1)), (ADD, 4, variable(4), variable(3)), (JUMP, 1)],
    [(RETURN, variable(4))],
])

# Two bytes of a constant are copied into a slot and read there as one number.
CONSTANT = program(5, [bytes([44, 1, 9])], [function(entry=0, slots=[(2, 2)])], [
    [(CONSTANT_ADDRESS, 3, 0), (COPY, variable(2), variable(3), 2), (READ, 4, variable(2), KINDS.index("U16")), (RETURN, variable(4))],
])

CASES = [
    ("p1", P1, "0 2 U64 0 U8 41"),
    ("march", MARCH, "0 100 U64 0"),
    ("reused", REUSED, "0 100 U64 0"),
    ("repaired", REPAIRED, "0 100 U64 0"),
    ("sum", SUM, "0 1000 U64 0 U32 10"),
    ("constant", CONSTANT, "0 100 U64 0"),
    ("cut", P1[:-1], "0 2 U64 0 U8 41"),
]


def answered(data, line):
    """What `lir run` answers: a start and a run on fresh memory."""
    console, (number, budget, *values) = Console(), line.split(" ")
    console.image = data
    started = console.line(" ".join(["start", number, *values]).encode())
    if started.startswith("refused"):
        return started + " steps 0"
    return console.line(b"run " + budget.encode()) if started == "ok" else started


def checked(data):
    """What `lir check` answers."""
    loaded = image.load(data)
    if isinstance(loaded, tuple):
        return f"image refused {loaded[0]} at {loaded[1]}"
    counts = [loaded["variables"]] + [len(loaded[part]) for part in ("constants", "functions", "blocks")] + [len(image.flat(loaded)[0])]
    return "taken " + " ".join(f"{name} {count}" for name, count in zip(("variables", "constants", "functions", "blocks", "instructions"), counts))


def main():
    os.makedirs(EXAMPLES, exist_ok=True)
    for name, data, line in CASES:
        with open(os.path.join(EXAMPLES, name + ".image"), "wb") as out:
            out.write(data)
        for ending, text in (("start", line), ("answer", answered(data, line)), ("check", checked(data))):
            with open(os.path.join(EXAMPLES, f"{name}.{ending}"), "w") as out:
                out.write(text + "\n")


if __name__ == "__main__":
    main()
