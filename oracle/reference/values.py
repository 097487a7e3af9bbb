"""Lists of single instructions that compute or choose, with the answers of the published Rust: how they are made, and read as records.

python3 oracle/reference/values.py [--source PATH], as oracle/run, writes kinds.txt and rounding.txt of crates/value_tests/data: the same bytes again.
A line is OPCODE HOW KIND BITS KIND BITS KIND BITS, in hexadecimal: HOW is a comparison's number, else 0; then the two operands, or the one
operand twice; then the answer, kind 0 and the number for a refusal.
"""

import argparse
import math
import os
import struct
import sys

from compare import difference
from image import ADD, DIV, FDIV, FLOAT_CMP, INT_CMP, MOD, MUL, NEGATE, NOT, RETURN, SUB, SWITCH, WIDTHS, write
from machine import EXPONENT, F32, F64, FLOATS, FRACTION, SIGNED
from play import played
from rust import ROOT, SOURCE, answered, build
from sweep import BACK, CONTEXT, KINDS, LEFT, RIGHT, TO, edges, function, simple, started, text

DATA = os.path.join(ROOT, "crates", "value_tests", "data")


def two(tag):
    """Two values of a kind: 1 and infinity, the least and -1, or the first and the last."""
    if tag in FLOATS:
        return [(tag, EXPONENT[tag] // 2 << FRACTION[tag]), (tag, EXPONENT[tag] << FRACTION[tag])]
    if tag in SIGNED:
        return [(tag, 1 << (WIDTHS[tag] - 1)), (tag, (1 << WIDTHS[tag]) - 1)]
    return [(tag, edges(tag)[0]), (tag, edges(tag)[-1])]


def every(tag):
    return [(tag, bits) for bits in edges(tag)]


def kinds():
    """Instructions with two operands over every pair of kinds, floats of both widths compared, and those with one operand over every kind."""
    values = [value for tag in KINDS for value in two(tag)]
    hows = {INT_CMP: 10, FLOAT_CMP: 6}
    for opcode in (INT_CMP, FLOAT_CMP, ADD, SUB, MUL, DIV, MOD, FDIV):
        for how in range(hows.get(opcode, 1)):
            yield from ((opcode, how, left, right) for left in values for right in values)
    for how in range(hows[FLOAT_CMP]):
        for single in every(F32):
            for double in every(F64):
                yield from ((FLOAT_CMP, how, single, double), (FLOAT_CMP, how, double, single))
    for opcode in (SWITCH, NOT, NEGATE):
        yield from ((opcode, 0, value, value) for tag in KINDS for value in every(tag))


# The least float is 2 to this power; how it is packed.
LEAST, PACKED = {F32: -149, F64: -1074}, {F32: "<f", F64: "<d"}


def float_bits(kind, number, scale):
    """The bits of number * 2 ^ scale, which is a float of this kind."""
    return int.from_bytes(struct.pack(PACKED[kind], math.ldexp(number, scale)), "little")


def odd_halves(kind):
    """Odd numbers m: m / 2 of the least float is half-way between two floats, up to the first normal number."""
    digits = FRACTION[kind] + 1
    return [1, 3, 5, 7, 97, 2 ** (digits - 1) - 1, 2 ** (digits - 1) + 1, 2**digits - 3, 2**digits - 1]


def ties(kind):
    """Quotients that tie, as m * odd / odd. No normal number does: it would have one digit more than a float has, and so would the dividend."""
    least, most = LEAST[kind], 2 ** (FRACTION[kind] + 1) - 1
    for m in odd_halves(kind):
        for odd in sorted({1, 3, (most // m + 1) // 2 * 2 - 1}):
            for scale in (least, least // 3) if m * odd <= most else ():
                yield float_bits(kind, m * odd, scale), float_bits(kind, odd, scale - least + 1)


def near_ties(kind):
    """Quotients a / b with a * 2 ^ turns one off m * b: as near to a tie as can be, so that they tie where they are first rounded to all digits."""
    least, half, lift = LEAST[kind], 2 ** FRACTION[kind], -LEAST[kind] // 2
    for m in odd_halves(kind):
        turns = m.bit_length()
        for off in (-1, 1):
            b = half + (-off * pow(m, -1, 2**turns) - half) % 2**turns
            if b < 2 * half:
                a = (m * b + off) >> turns
                yield float_bits(kind, a, lift + least - 1 + turns), float_bits(kind, b, lift)


def rounding():
    """FDiv at ties and near them, of either sign, and two quotients that rounding twice gives one less."""
    for kind in FLOATS:
        for left, right in [*ties(kind), *near_ties(kind)]:
            yield from ((FDIV, 0, (kind, sign << (WIDTHS[kind] - 1) | left), (kind, right)) for sign in (0, 1))
    yield FDIV, 0, (F32, 0x37543571), (F32, 0x7F0C0397)
    yield FDIV, 0, (F64, 0x3CE6482514737C67), (F64, 0x7FC345508063E136)


LISTS = {"kinds.txt": kinds, "rounding.txt": rounding}


def program(opcode, how, bits):
    """The instruction in a program that returns its result; a Switch has these bits for its one branch, and returns its operand there."""
    if opcode == SWITCH:
        blocks = [[(SWITCH, LEFT, [(bits, 1)], 2)], [(RETURN, LEFT)], [(RETURN, None)]]
        return write({"variables": 8, "constants": [], "functions": [function(parameters=[2, 3])], "blocks": blocks}).hex()
    middle = (how,) if opcode in (INT_CMP, FLOAT_CMP, DIV, MOD) else ()
    return simple([(opcode, TO, LEFT) if opcode in (NOT, NEGATE) else (opcode, TO, *middle, LEFT, RIGHT), BACK])


def case(opcode, how, left, right):
    return f"{program(opcode, how, left[1])} {started(left, right)}"


def answer(told):
    """The answer that the judge's lines tell, or None for a NaN quotient."""
    kind, *words = [line for line in told if line[0] == "A"][0].split(" ")[1:]
    if kind == "out":
        return None
    return (0, int(words[0])) if kind == "refused" else tuple(map(int, words[0].split(":")))


def record(line):
    """The record of a line, as in the stored lists."""
    opcode, how, *rest = (int(word, 16) for word in line.split(" "))
    left, right, found = zip(rest[::2], rest[1::2])
    given = f"c1 d1 f0=0,0,-,0 v1={text(CONTEXT)} v2={text(left)} v3={text(right)}"
    if found[0] == 0:
        said, state = f"refused {found[1]} 0", f"0 {given}"
    else:
        said, state = f"returned {text(found)} 2", f"1 {given}" + ("" if opcode == SWITCH else f" v{TO}={text(found)}")
    return ["C " + case(opcode, how, left, right), "A " + said, "Z " + state]


def records(name):
    with open(os.path.join(DATA, name), encoding="ascii") as listed:
        return [record(line) for line in listed.read().splitlines()]


def lines(judge, made):
    """The lines of these instructions, as the judge answers. NaN quotients are left out: the Rust does not settle their bits."""
    made = list(made)
    for given, (played_case, theirs) in zip(made, answered(judge, [case(*given) for given in made])):
        if difference(theirs, played(played_case)[1][:-1]):
            sys.exit(f"differs: {played_case}")
        found = answer(theirs)
        if found:
            opcode, how, left, right = given
            yield " ".join(f"{number:x}" for number in (opcode, how, *left, *right, *found)) + "\n"


def main():
    arguments = argparse.ArgumentParser()
    arguments.add_argument("--source", default=SOURCE)
    judge = build(arguments.parse_args().source)
    for name, made in LISTS.items():
        listed = list(lines(judge, made()))
        with open(os.path.join(DATA, name), "w", encoding="ascii") as out:
            out.writelines(listed)
        print(f"{name}: {len(listed)} lines, {sum(map(len, listed))} bytes")


if __name__ == "__main__":
    main()
