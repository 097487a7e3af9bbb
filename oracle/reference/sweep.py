"""Cases that sweep single instructions over kinds and edge values (see oracle/README.md)."""

import random

from image import (
    ADD, ASN, ASSIGN, CALL, CHAR, CONSTANT_ADDRESS, COPY, DIV, DROP, FDIV, FLOAT_CMP, INITIALIZE, INT_CMP, JUMP, MOD, MUL,
    NEGATE, NOT, OFFSET, POINTER, READ, RETURN, SUB, SWITCH, WIDTHS, WRITE, write,
)
from machine import BOOL, F32, F64, FLOATS, I8, SIGNED, U16, U64, U8, UNSIGNED

KINDS = range(1, 15)
TYPES = [tag for tag in KINDS if tag not in (CHAR, ASN)]
INTEGERS = UNSIGNED + SIGNED

EDGE_FLOATS = {
    F32: [0, 0x80000000, 1, 0x80000003, 0x007FFFFF, 0x00800000, 0x3F800000, 0xC0000000, 0x40400000, 0x7F7FFFFF, 0x7F800000,
          0xFF800000, 0x7FC00000, 0x7F800001, 0xFFC12345],
    F64: [0, 1 << 63, 1, (1 << 63) | 3, (1 << 52) - 1, 1 << 52, 0x3FF << 52, 0xC00 << 52, 0x4008 << 48, (0x7FF << 52) - 1,
          0x7FF << 52, 0xFFF << 52, 0x7FF8 << 48, (0x7FF << 52) | 1, 0xFFF8123456789ABC],
}


def edges(tag):
    """Bits at the edges of a kind's range."""
    if tag in FLOATS:
        return EDGE_FLOATS[tag]
    top = 1 << WIDTHS[tag]
    if tag == CHAR:
        return [0, 0x41, 0xD7FF, 0xE000, 0x10FFFF]
    if tag in SIGNED:
        return [0, 1, 2, 7, top // 2 - 1, top // 2, top // 2 + 1, top - 1, top - 7]
    return [0, 1] if tag == BOOL else [0, 1, 2, 7, top // 2 - 1, top // 2, top - 2, top - 1]


def text(value):
    return f"{value[0]}:{value[1]}"


def start_word(function, values, budget):
    return f"s{function}={','.join(map(text, values))}={budget}"


def started(*arguments, budget=9):
    """The start of function 0 with the usual context."""
    return start_word(0, [CONTEXT, *arguments], budget)


def function(**given):
    return {"kind": 0, "entry": 0, "return": 0, "context": 1, "pointer": 0, "parameters": [], "slots": [], **given}


def simple(instructions, parameters=2, constants=(), variables=8, slots=()):
    """One function with parameters in variables 2, 3, ...; the return variable is 0, the context 1."""
    return write({"variables": variables, "constants": list(constants), "blocks": [instructions],
                  "functions": [function(parameters=list(range(2, 2 + parameters)), slots=list(slots))]}).hex()


CONTEXT = (POINTER, 0)
LEFT, RIGHT, TO = (0, 2), (0, 3), 4
BACK = (RETURN, (0, TO))


def binary_forms():
    yield from [(INT_CMP, TO, comparison, LEFT, RIGHT) for comparison in range(10)]
    yield from [(FLOAT_CMP, TO, comparison, LEFT, RIGHT) for comparison in range(6)]
    yield from [(opcode, TO, LEFT, RIGHT) for opcode in (ADD, SUB, MUL, FDIV)]
    yield from [(opcode, TO, flag, LEFT, RIGHT) for opcode in (DIV, MOD) for flag in (0, 1)]


def sweep_binary():
    values = [(tag, bits) for tag in KINDS for bits in edges(tag)]
    few = [(tag, edges(tag)[k]) for tag in KINDS for k in (0, -1)]
    for form in binary_forms():
        whole = simple([form, BACK])
        for left in values:
            for right in values:
                same_family = any(left[0] in f and right[0] in f for f in (UNSIGNED, SIGNED, FLOATS)) or left[0] == right[0]
                if same_family or (left in few and right in few):
                    yield f"{whole} {started(left, right)}"


def sweep_unary():
    for tag in KINDS:
        for bits in edges(tag):
            value = (tag, bits)
            for form in ([(opcode, TO, LEFT)] for opcode in (NOT, NEGATE)):
                yield f"{simple(form + [BACK], 1)} {started(value)}"
            for kind in TYPES:
                yield f"{simple([(ASSIGN, TO, value, kind), BACK], 0)} {started()}"
            yield f"{simple([(RETURN, LEFT)], 1)} {started(value)}"
            yield f"{simple([(DROP, LEFT), (RETURN, None)], 1)} {start_word(0, [value, value], 9)}"
            yield from sweep_switch(value)
    for form in [(ASSIGN, TO, (0, 7), 2), (NOT, TO, (0, 7)), (NEGATE, TO, (0, 7)), (OFFSET, TO, (0, 7), 1), (READ, TO, (0, 7), 2), (RETURN, (0, 7)),
                 (WRITE, (0, 7), (2, 1)), (WRITE, (0, 2), (0, 7)), (WRITE, (2, 1), (0, 7)), (COPY, (0, 7), (0, 2), 1), (COPY, (0, 2), (0, 7), 1),
                 (COPY, (2, 1), (0, 7), 1), (DROP, (0, 7)), (ADD, TO, (0, 7), (0, 6)), (ADD, TO, (2, 1), (0, 7)), (ADD, TO, (1, 1), (0, 7)),
                 (INT_CMP, TO, 0, (0, 7), (0, 6)), (INT_CMP, TO, 2, (12, 1), (0, 7)), (FLOAT_CMP, TO, 0, (0, 7), (2, 1)), (FDIV, TO, (2, 1), (0, 7)),
                 (SWITCH, (0, 7), [], 0)]:
        yield f"{simple([form, BACK], 1)} a8 {started((POINTER, 0))}"


def sweep_switch(value):
    blocks = [[(SWITCH, LEFT, [(2**32 + 1, 2), (1, 1), (7, 2), (7, 1), (value[1], 3), (2**64 - 1, 1)], 4)]]
    blocks += [[(RETURN, (2, k))] for k in range(4)] + [[]]
    whole = write({"variables": 4, "constants": [], "functions": [function(parameters=[2])], "blocks": blocks}).hex()
    yield f"{whole} {started(value)}"


def sweep_memory():
    """Reads, writes and copies at every offset near every bound, through local and constant pointers."""
    data = bytes([1, 0, 2, 1, 255, 128, 0, 1, 7, 3])
    for length in (0, 1, 2, 4, 7, 8, 9):
        filled = f"a{length} w0={data[:length].hex()}"
        for offset in (0, 1, 2, 3, 4, 5, 6, 7, 8, 9, 12, 16, 2**32 - 1):
            move = (OFFSET, TO, LEFT, offset)
            for kind in TYPES:
                yield f"{simple([move, (READ, 5, (0, TO), kind), (RETURN, (0, 5))], 1)} {filled} {started((POINTER, 0))}"
            for kind in KINDS:
                value = (kind, edges(kind)[-1])
                whole = simple([move, (WRITE, (0, TO), value), (RETURN, None)], 1)
                yield f"{whole} {filled} {started((POINTER, 0))} r0={length}"
            for size in (0, 1, 2, 3, 4, 5, 8, 9):
                two = started((POINTER, 0), (POINTER, 1))
                yield f"{simple([move, (COPY, RIGHT, (0, TO), size), (RETURN, None)], 2)} {filled} a9 {two} r1=9"
                yield f"{simple([move, (COPY, (0, TO), RIGHT, size), (RETURN, None)], 2)} {filled} a9 w1={data[:9].hex()} {two} r0={length}"
                yield f"{simple([move, (COPY, (0, TO), LEFT, size), (RETURN, None)], 1)} {filled} {started((POINTER, 0))} r0={length}"
    for length in (0, 1, 2, 4, 8, 9):
        constants = [b"", data[:length], data]
        for kind in TYPES:
            whole = simple([(CONSTANT_ADDRESS, TO, 1), (READ, 5, (0, TO), kind), (RETURN, (0, 5))], 0, constants)
            yield f"{whole} {started()} r0={length} r0={length + 1}"
        for size in (0, 1, 3, 4, 8, 9):
            whole = simple([(CONSTANT_ADDRESS, TO, 1), (COPY, LEFT, (0, TO), size), (RETURN, None)], 1, constants)
            yield f"{whole} a9 {started((POINTER, 0))} r0=9"
    constant = (CONSTANT_ADDRESS, TO, 0)
    for form in [(WRITE, (0, TO), (2, 1)), (OFFSET, 5, (0, TO), 0), (COPY, (0, TO), LEFT, 1), (COPY, (0, TO), LEFT, 9), (COPY, LEFT, (0, TO), 1)]:
        yield f"{simple([constant, form, (RETURN, None)], 1, [data])} a8 {started((POINTER, 0))} w1=01 r1=4 r0=8"


def sweep_pointers():
    """Each instruction that takes a pointer, over every kind and pointer numbers near the count."""
    for value in [(tag, bits) for tag in KINDS for bits in (edges(tag) if tag == POINTER else edges(tag)[:2])]:
        for form in [(OFFSET, TO, LEFT, 1), (READ, TO, LEFT, 2), (WRITE, LEFT, (2, 1)), (COPY, LEFT, (14, 0), 1), (COPY, (14, 0), LEFT, 1),
                     (COPY, LEFT, (14, 0), 9), (COPY, LEFT, (2, 0), 1), (COPY, (14, 0), LEFT, 3)]:
            yield f"{simple([form, (RETURN, None)], 1)} a8 a3 {started(value)}"
    for size in (0, 1, 2, 3, 8, 255, 256, 257, 32768):
        for count in (0, 1, 2, 3, 8, 255, 256):
            first = bytes(k % 256 for k in range(1, count + 1)) if count < 256 else bytes(range(256))
            yield f"{simple([(INITIALIZE, TO, size, first), BACK], 0)} {started()} r0={size}"


def sweep_papers():
    """P1 to P7 and P9 of document 01."""
    whole = "010300010100000001000102000208020002020105010002"
    for argument, budget in ((41, 2), (41, 1), (41, 0), (255, 2)):
        yield f"{whole} {started((U8, argument), budget=budget)}"
    for form, values in (((NEGATE, TO, LEFT), [(I8, 129)]), ((NEGATE, TO, LEFT), [(I8, 128)]), ((DIV, TO, 1, LEFT, RIGHT), [(I8, 249), (I8, 2)]),
                         ((MOD, TO, 1, LEFT, RIGHT), [(I8, 249), (I8, 2)]), ((MOD, TO, 1, LEFT, RIGHT), [(I8, 128), (I8, 255)]),
                         ((INT_CMP, TO, 0, LEFT, RIGHT), [(U64, 5), (U64, 5)])):
        yield f"{simple([form, BACK], len(values))} {started(*values)}"
    for size, offset in ((4, 4), (4, 2), (4, 6), (0, 0), (0, 8), (0, 9)):
        moved = simple([(OFFSET, TO, LEFT, offset), (COPY, LEFT, (0, TO), size), (RETURN, None)], 1)
        yield f"{moved} a8 {started((POINTER, 0))} r1={size}"
    yield f"{simple([(READ, TO, LEFT, BOOL), BACK], 1)} a1 w0=02 {started((POINTER, 0))}"
    yield from sweep_switch((U8, 7))


def sweep_named():
    """P8 and P10 of document 01, and pointers of returned frames used from every depth."""
    yield from sweep_papers()
    two = {"return": 8, "context": 9}
    swapped = write({"variables": 10, "constants": [], "functions": [function(), function(entry=1, parameters=[2, 3], **two)],
                     "blocks": [[(CALL, (4, U8), None, 1, [(U8, 1), (U8, 2)], None), (RETURN, None)], [(SWITCH, RIGHT, [(2, 2)], 3)],
                                [(CALL, (5, U8), None, 1, [RIGHT, LEFT], None), (RETURN, LEFT)], [(RETURN, RIGHT)]]}).hex()
    yield f"{swapped} {started()}"
    uses = [(READ, 5, (0, 4), U8), (WRITE, (0, 4), (U8, 1)), (OFFSET, 5, (0, 4), 0), (COPY, (0, 4), (14, 0), 1), (COPY, (14, 0), (0, 4), 1),
            (COPY, (0, 4), (14, 0), 9), (DROP, (0, 4))]
    third = {"return": 6, "context": 7}
    for use in uses:
        for slots in ([], [(3, 8)], [(3, 0)]):
            functions = [function(), function(entry=1, slots=[(4, 8)], **two), function(entry=2, slots=slots, **third)]
            for before in ([], [(CALL, None, None, 1, [], None)], [(CALL, None, None, 1, [], None), (CALL, None, None, 2, [], None)],
                           [(CALL, None, None, 1, [], None), use]):
                blocks = [before + [(RETURN, None)], [(RETURN, None)], [use, (RETURN, None)]]
                whole = write({"variables": 10, "constants": [], "functions": functions, "blocks": blocks}).hex()
                yield f"{whole} a8 {started(budget=20)} r1=1 w1=02 r0=8"
    kept = write({"variables": 10, "constants": [], "functions": [function(), function(entry=1, slots=[(4, 8)], **two)],
                  "blocks": [[(INITIALIZE, 5, 8, b""), (CALL, None, None, 1, [], None), (CALL, None, None, 1, [], None), (RETURN, None)],
                             [(READ, 3, (0, 5), U64), (ASSIGN, 5, (0, 4), POINTER), (RETURN, None)]]}).hex()
    yield f"{kept} {started(budget=20)}"


def sweep_calls():
    """A call with and without each of its parts, to callees of each shape."""
    for to in (None, (6, 2)):
        for context in (None, (3, 77), (0, 7)):
            for arguments in ([], [(2, 5)], [(2, 5), (0, 2)], [(2, 5), (0, 2), (0, 7)], [(0, 7)]):
                for pointer in (None, 3, 7):
                    yield from called(to, context, arguments, pointer)


def called(to, context, arguments, pointer):
    for kind, parameters, slots in ((0, [10, 11], []), (0, [10, 11], [(10, 4), (12, 8)]), (1, [], [(12, 4)])):
        for back in (None, (0, 10), (2, 9), (0, 12)):
            functions = [function(parameters=[2], slots=[(3, 8)]),
                         function(kind=kind, entry=1, pointer=kind, parameters=parameters, slots=slots, **{"return": 8, "context": 9})]
            blocks = [[(ASSIGN, 6, (4, 6), 4), (CALL, to, context, 1, arguments, pointer), (DROP, (0, 7)), (RETURN, (0, 6))],
                      [(ASSIGN, 5, (2, 1), 2), (RETURN, back)]]
            whole = write({"variables": 13, "constants": [], "functions": functions, "blocks": blocks}).hex()
            yield f"{whole} {started((2, 3), budget=20)}"


def sweep_starts():
    """Starts of each shape with each number of arguments, labels that lead past the end, budgets about the count."""
    for kind in (0, 1):
        for pointer in ((0, 1) if kind == 0 else (1,)):
            for parameters in (([], [2], [2, 3]) if kind == 0 else ([],)):
                for slots in ([], [(0, 4)], [(1, 1), (2, 2), (2, 3)]):
                    whole = write({"variables": 4, "constants": [], "blocks": [[], [(DROP, (0, 0)), (RETURN, (0, 1))], []],
                                   "functions": [function(kind=kind, pointer=pointer, parameters=parameters, slots=slots, entry=1)]}).hex()
                    for count in range(5):
                        word = start_word(0, [(U64, 9)] + [(U8, k) for k in range(count)], 5)
                        yield f"{whole} a4 {word} {word}"
                    yield f"{whole} {start_word(1, [CONTEXT], 5)}"
    for blocks in ([[]], [[], []], [[(JUMP, 1)], []], [[(DROP, (2, 0))]], [[(JUMP, 1)], [(JUMP, 0)]], [[(RETURN, None)]]):
        whole = write({"variables": 2, "constants": [], "functions": [function()], "blocks": blocks}).hex()
        for budget in range(4):
            yield f"{whole} {started(budget=budget)}"


def sweep_limits():
    """The limits that are ours, from both sides."""
    loop = [[(CALL, None, None, 0, [], None), (RETURN, None)]]
    for slots in ([], [(1, 0)] * 8, [(1, 512)], [(1, 513)]):
        whole = write({"variables": 2, "constants": [b"x"], "functions": [function(slots=slots)], "blocks": loop}).hex()
        yield f"{whole} {started(budget=100)}"
    for body in ([(OFFSET, 2, (14, 0), 1)], [(CONSTANT_ADDRESS, 2, 0)], [(INITIALIZE, 2, 0, b"")], [(INITIALIZE, 2, 64, b"")], [(INITIALIZE, 2, 65, b"ab")]):
        whole = write({"variables": 3, "constants": [b"x"], "functions": [function()], "blocks": [body + [(JUMP, 0)]]}).hex()
        yield f"{whole} a8 {started(budget=9000)}"
    for size in (32767, 32768, 32769, 2**20):
        yield f"{simple([(RETURN, None)], 0)} a{size}"
        yield f"{simple([(RETURN, None)], 0)} a1 a{size - 1} a0 a1"
        yield f"{simple([(INITIALIZE, 2, min(size, 32768), b'')] * 2, 0)} a{max(0, size - 32768)} {started(budget=5)}"
    many = " ".join(["a0"] * 511)
    for rest in ("a0 a0", "a0", "r511=0"):
        yield f"{simple([(RETURN, None)], 0)} {many} {rest}"
    for slots in ([(1, 1)], [(1, 1)] * 2, [(1, 32768)]):
        yield f"{simple([(RETURN, None)], 0, slots=slots)} {many} {started(budget=5)}"
    for sizes in ([32768], [32767, 1], [32768, 0], [32767, 2], [1] * 16, [16384, 16384, 1]):
        yield f"{simple([(RETURN, None)], 0, slots=[(1, size) for size in sizes])} {started(budget=5)}"


def sweep_floats():
    """Quotients of random bits: of any size, near one, and near the smallest numbers."""
    chance = random.Random(3)
    for kind, width, top in ((F32, 23, 255), (F64, 52, 2047)):
        forms = [(FDIV, TO, LEFT, RIGHT), (FLOAT_CMP, TO, 2, LEFT, RIGHT), (NEGATE, TO, LEFT)]
        wholes = [simple([form, BACK]) for form in forms]
        for k in range(1500):
            small = [chance.randrange(1, 2 * width), chance.randrange(top // 2, top // 2 + 2 * width)]
            exponents = [small, [top // 2, top // 2 + chance.randrange(-2, 3)], [chance.randrange(top), chance.randrange(top)]][k % 3]
            fractions = [chance.getrandbits(width) & -(1 << chance.randrange(width + 1)) for _ in range(2)]
            left, right = [(kind, chance.getrandbits(1) << (WIDTHS[kind] - 1) | e << width | f) for e, f in zip(exponents, fractions)]
            yield f"{wholes[0 if k % 10 else k // 10 % 3]} {started(left, right)}"


def sweep_switches():
    """Switches of many branches, one of them with a number or a label on either side of 128, the first that takes two bytes."""
    for count in (7, 8, 9, 64):
        for place in (0, 3, count - 1):
            for wide, in_label in [(wide, in_label) for wide in (127, 128, 129, 256) for in_label in (False, True) if wide < 130 or not in_label]:
                branches = [(k, k + 1) for k in range(count)]
                branches[place] = (place, wide) if in_label else (wide, place + 1)
                blocks = [[(SWITCH, LEFT, branches, 130)]] + [[(RETURN, None)]] * 130
                whole = write({"variables": 4, "constants": [], "functions": [function(parameters=[2])], "blocks": blocks}).hex()
                for value in ((U8, 0), (U8, 1), (U8, place), (U8, count - 1), (U8, 130), (U16, wide)):
                    yield f"{whole} {started(value)}"


def sweep_kept():
    """Each value of each type written and read back, every NaN among them."""
    for kind in TYPES:
        for bits in edges(kind):
            yield f"{simple([(INITIALIZE, 5, 8, b''), (WRITE, (0, 5), (kind, bits)), (READ, TO, (0, 5), kind), BACK], 0)} {started()}"


def sweep():
    for group in (sweep_named, sweep_calls, sweep_starts, sweep_limits, sweep_pointers, sweep_unary, sweep_memory, sweep_floats, sweep_binary, sweep_switches,
                  sweep_kept):
        yield from group()
