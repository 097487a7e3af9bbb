"""Writes image_cases.txt: images with the answer that image.py gives, one case a line (see oracle/README.md)."""

import os
import random
import sys

import image
from image import answer, write, write_number as n

P1 = bytes.fromhex("01 03 00 01 01 00 00 00 01 00 01 02 00 02 08 02 00 02 02 01 05 01 00 02")
HERE = os.path.dirname(os.path.abspath(__file__))

# Byte values that stand at the edge of some field's range.
EDGES = [0, 1, 2, 5, 6, 9, 10, 11, 12, 13, 14, 15, 16, 17, 21, 22, 0x40, 0x41, 0x7F, 0x80, 0x81, 0xFF]


def expand(text):
    """The image of a case: pieces joined by +, each HEX or HEX*COUNT; - is the empty image."""
    whole = b""
    for piece in ("" if text == "-" else text).split("+"):
        digits, _, count = piece.partition("*")
        whole += bytes.fromhex(digits) * (int(count) if count else 1)
    return whole


def text_of(pieces):
    """Pieces are bytes, or (bytes, count)."""
    parts, plain = [], b""
    for piece in pieces:
        data, count = piece if isinstance(piece, tuple) else (piece, 1)
        if count <= 1:
            plain += data * count
        else:
            parts += [plain.hex()] * (plain != b"") + [f"{data.hex()}*{count}"]
            plain = b""
    parts += [plain.hex()] * (plain != b"")
    return "+".join(parts) or "-"


def header(variables, constants, functions, blocks, version=1):
    return n(version) + n(variables) + n(constants) + n(functions) + n(blocks)


def p1_cases():
    yield [P1]
    for length in range(len(P1)):
        yield [P1[:length]]
    for place in range(len(P1)):
        for byte in range(256):
            yield [P1[:place] + bytes([byte]) + P1[place + 1:]]
    for rest in (b"\0", b"\x80", P1):
        yield [P1 + rest]


def over_count(good, piece, count):
    """The same piece count and count + 1 times, the header told so."""
    yield good(count) + [(piece, count)]
    yield good(count + 1) + [(piece, count + 1)]
    yield good(count) + [(piece, count + 1)]
    yield good(count) + [(piece, count - 1)]


def header_cases():
    for version in (0, 1, 2, 127, 128, 2**32 + 1, 2**64 - 1):
        yield [n(version) + bytes(4)]
    for count in (0, 1, 255, 256, 257, 300, 2**32, 2**64 - 1):
        yield [header(count, 0, 0, 0)]
    for limit, at in ((64, 0), (64, 1), (512, 2)):
        for count in (limit - 1, limit, limit + 1, 2**64 - 1):
            counts = [0, 0, 0]
            counts[at] = count
            yield [header(1, *counts)]
    function = bytes(8)
    yield from over_count(lambda count: [header(1, count, 0, 0)], n(0), 64)
    yield from over_count(lambda count: [header(1, 0, 0, count)], n(0), 512)
    for count in (64, 65):
        yield [header(1, 0, count, 1), (bytes([0, 0, 0, 0, 0, 0, 0]), count), n(0)]
        yield [header(256, 0, count, 512), (function[:5] + n(0) + n(0), count), (n(0), 512)]
    for variables in (0, 1, 256):
        yield [header(variables, 0, 1, 1), bytes(7), n(0)]
    yield [header(0, 0, 0, 1), n(0)]
    yield [header(1, 0, 1, 0), bytes(7)]


def number_cases():
    """Long and malformed numbers, first as a version, then as bits of a U64 operand, then as a branch number."""
    forms = [n(2**k + d) for k in (7, 14, 32, 56, 63) for d in (-1, 0, 1)]
    forms += [n(2**64 - 1), n(2**64 - 2)]
    forms += [b"\xff" * 9 + bytes([last]) for last in (0, 1, 2, 3, 0x7F, 0x80, 0x81, 0xFF)]
    forms += [b"\x80" * 9 + bytes([last]) for last in (0, 1, 2, 0x80)]
    forms += [b"\x80" * k + b"\0" for k in range(1, 12)]
    forms += [b"\x80" * k for k in range(1, 13)] + [b"\xff" * k for k in (1, 8, 9, 10, 11)]
    forms += [b"\x81\0", b"\xac\2", b"\xac\2\0", b"\xac\x82\0", b"\x80\1", b"\x85\0"]
    drop = header(1, 0, 0, 1) + n(1) + n(21) + n(5)
    switch = header(1, 0, 0, 1) + n(1) + n(1) + bytes([0, 0, 1])
    opcode = header(1, 0, 0, 1) + n(1)
    for form in forms:
        yield [form]
        yield [form, bytes(4)]
        yield [drop, form]
        yield [drop, form, b"\0"]
        yield [switch, form, bytes(2)]
        yield [opcode, form, bytes(3)]


def constant_cases():
    byte = b"\xa5"
    for length in (0, 1, 127, 128, 8191, 8192, 8193, 2**32, 2**63, 2**64 - 1):
        yield [header(0, 1, 0, 0), n(length), (byte, min(length, 8200))]
        yield [header(0, 2, 0, 0), n(1), byte, n(length), (byte, min(length, 8200))]
        yield [header(0, 1, 0, 0), n(length)]
    for last in (127, 128, 129, 2**64 - 128, 2**64 - 8064, 2**64 - 1):
        yield [header(0, 64, 0, 0), (n(128) + byte * 128, 63), n(last), (byte, min(last, 200))]
    yield [header(0, 3, 0, 0), n(8192), (byte, 8192), n(0), n(0)]
    yield [header(0, 3, 0, 0), n(8192), (byte, 8192), n(0), n(1), byte]
    yield [header(0, 2, 0, 0), n(8192), (byte, 8191)]
    yield [header(0, 2, 0, 0), n(4), byte * 3]
    yield [header(0, 1, 0, 0), n(1), byte * 2]


def function_image(fields, variables=4, blocks=2, rest=None):
    return [header(variables, 0, 1, blocks), b"".join(n(f) for f in fields), bytes(blocks) if rest is None else rest]


def function_cases():
    for kind in (0, 1, 2, 128):
        for flag in (0, 1, 2, 128):
            for parameters in ([0], [1, 3], [16], [17], [2**64 - 1]):
                yield function_image([kind, 0, 0, 0, flag, *parameters, 0])
    for at in range(3):
        for number in (0, 1, 2, 3, 4, 128, 2**32, 2**64 - 1):
            fields = [0, 0, 0, 0, 0, 0, 0]
            fields[1 + at] = number
            yield function_image(fields)
    for count in (0, 1, 15, 16, 17, 128):
        yield function_image([0, 0, 0, 0, 0, count] + [3] * count + [0])
        yield function_image([0, 0, 0, 0, 0, count] + [4] * count + [0])
        yield function_image([0, 0, 0, 0, 0, 0, count] + [3, 8] * count)
        yield function_image([1, 0, 0, 0, 1, 0, count] + [3, 8] * count)
    for size in (0, 1, 127, 128, 32767, 32768, 32769, 2**32, 2**64 - 1):
        yield function_image([0, 0, 0, 0, 0, 0, 2, 1, 8, 2, size])
        yield function_image([0, 0, 0, 0, 0, 0, 1, 4, size])
    yield function_image([0, 1, 0, 0, 0, 0, 0])
    yield function_image([0, 2, 0, 0, 0, 0, 0])
    full = [0, 1, 2, 3, 1, 16] + [1] * 16 + [16] + [2, 32768] * 16
    whole = function_image(full)
    yield whole
    for end in range(len(whole[1])):
        yield [whole[0], whole[1][:end]]


def block_image(instructions, variables=4, constants=1, functions=1, blocks=2, count=None):
    """One block with the instructions, the others empty."""
    head = [header(variables, constants, functions, blocks), n(0) * constants, bytes(7) * functions]
    counted = n(instructions[1] if isinstance(instructions, tuple) else 1) if count is None else n(count)
    return head + [counted, instructions, bytes(blocks - 1)]


def operand_cases():
    for tag in list(range(0, 18)) + [127, 128, 2**64 - 1]:
        for bits in (0, 1, 2, 3, 4, 0x7F, 0x80, 0xFF, 0x100, 0xFFFF, 0x10000, 2**31, 2**32 - 1, 2**32, 2**63, 2**64 - 1,
                     0xD7FF, 0xD800, 0xDBFF, 0xDFFF, 0xE000, 0x10FFFF, 0x110000, 0x1FFFFF, 0x200000):
            yield block_image(n(21) + n(tag) + n(bits))
    for tag in list(range(0, 18)) + [128, 140, 2**64 - 1]:
        yield block_image(n(2) + n(0) + n(1) + n(0) + n(tag))
        yield block_image(n(19) + n(0) + n(0) + n(0) + n(tag))
        yield block_image(n(4) + n(1) + n(0) + n(tag) + bytes(4))


# One instruction of each opcode and shape, with two-byte numbers where a field has room for them.
SAMPLES = [
    (0, 1), (1, (4, 300), [(7, 1), (2**64 - 1, 0), (7, 0)], 1), (1, (0, 3), [], 0), (2, 3, (12, 0xE000), 14), (3, 2, 0),
    (4, (1, 9), (14, 5), 0, [(0, 0), (2, 255)], 3), (4, None, None, 0, [], None), (4, (3, 1), None, 0, [(1, 1)], None),
    (5, None), (5, (0, 2)), (6, 1, 9, (5, 300), (0, 2)), (7, 1, 5, (10, 0x3F800000), (11, 0x3FF0000000000000)),
    (8, 2, (0, 1), (6, 255)), (9, 2, (3, 65535), (0, 1)), (10, 0, (8, 2**32 - 1), (9, 2**64 - 1)),
    (11, 1, 0, (7, 300), (0, 3)), (12, 1, 1, (0, 3), (4, 300)), (13, 1, (10, 1), (10, 2)), (14, 3, (1, 1)), (15, 3, (6, 128)),
    (16, 2, (0, 1), 2**32 - 1), (17, 2, 300, b"\x80\x01\xff"), (17, 2, 0, b""), (18, (0, 1), (13, 2**32 - 1)),
    (19, 3, (14, 2), 11), (20, (0, 0), (0, 1), 300), (21, (0, 3)),
]


def instruction_cases():
    """Each sample whole, cut short, and with each byte changed to the edge values."""
    for sample in SAMPLES:
        raw = image.write_instruction(sample)
        yield block_image(raw)
        for end in range(len(raw)):
            yield block_image(raw)[:3] + [n(1), raw[:end]]
            for byte in sorted(set(EDGES + [raw[end] ^ 1, (raw[end] + 1) % 256, raw[end] | 0x80])):
                yield block_image(raw[:end] + bytes([byte]) + raw[end + 1:])
    for field in (2**32 - 1, 2**32, 2**64 - 1):
        yield block_image(n(16) + bytes(3) + n(field))
        yield block_image(n(20) + bytes(4) + n(field))
    for count in (0, 1, 16, 17, 127, 2**64 - 1):
        yield block_image(n(4) + bytes(3) + n(count) + bytes([2, 1]) * min(count, 17) + b"\0")
    for count in (0, 1, 63, 64, 65, 127, 2**64 - 1):
        yield block_image(n(1) + bytes(2) + n(count) + bytes([9, 1]) * min(count, 65) + b"\1")
    for size in (0, 1, 255, 256, 32767, 32768, 32769, 2**64 - 1):
        yield block_image(n(17) + n(0) + n(size) + n(0))
    for count in (0, 1, 255, 256, 257, 2**64 - 1):
        yield block_image(n(17) + n(0) + n(8) + n(count) + b"\x5a" * min(count, 257))
        yield block_image(n(17) + n(0) + n(8) + n(count) + b"\x5a" * (min(count, 257) - 1) + b"")
    for count in (1, 2, 255, 256):
        raw = n(17) + n(0) + n(8) + n(count) + b"\x5a" * (count - 1)
        yield block_image(raw)[:3] + [n(1), raw]
    for opcode in list(range(0, 24)) + [127, 128, 2**32, 2**64 - 1]:
        yield block_image(n(opcode) + bytes(12))


def count_cases():
    """Totals of instructions and of image bytes, from both sides."""
    drop = bytes([21, 2, 0])
    for first in (0, 1, 4095, 4096):
        for second in (0, 1, 4095 - first, 4096 - first, 4097 - first, 2**64 - first, 2**64 - 1):
            if 0 <= second < 2**64:
                yield [header(0, 0, 0, 2), n(first), (drop, first), n(second), (drop, min(second, 4097))]
    for count in (4095, 4096, 4097, 2**64 - 1):
        yield [header(0, 0, 0, 1), n(count), (drop, min(count, 4097))]
    full = [n(1024), (drop, 1024)] * 4
    yield [header(0, 0, 0, 4)] + full
    yield [header(0, 0, 0, 512), (n(8) + drop * 8, 512)]
    yield [header(0, 0, 0, 512), (n(8) + drop * 8, 511), n(9), (drop, 9)]
    yield [header(0, 0, 0, 5)] + full + [n(0)]
    yield [header(0, 0, 0, 5)] + full + [n(1), drop]
    fill = n(17) + bytes(2) + n(250) + b"\x11" * 250
    for total in (32766, 32767, 32768, 32769, 32770):
        head = header(1, 1, 0, 1)
        constant = 8040
        count = 97
        used = len(head) + 2 + constant + len(n(count)) + (count - 1) * len(fill)
        left = total - used
        last = n(17) + bytes(2) + n(left - 5) + b"\x22" * (left - 5) if 128 <= left - 5 <= 256 else None
        assert last is not None and len(last) == left, left
        yield [head, n(constant), (b"\x33", constant), n(count), (fill, count - 1), last]
    for length in (32767, 32768, 32769, 40000):
        yield [(b"\0", length)]
        yield [(b"\x80", length)]
        yield [P1, (b"\0", length - len(P1))]


def random_cases(seed, count):
    """Images of random instructions with one random byte changed, put in or left out."""
    chance = random.Random(seed)
    for _ in range(count):
        body = [chance.choice(SAMPLES) for _ in range(chance.randint(1, 4))]
        program = {"variables": 4, "constants": [b"ab"], "blocks": [body, []],
                   "functions": [{"kind": 0, "entry": 1, "return": 0, "context": 1, "pointer": 0, "parameters": [2], "slots": [(3, 300)]}]}
        raw = bytearray(write(program))
        place = chance.randrange(len(raw))
        kind = chance.randrange(3)
        if kind == 0:
            raw[place] = chance.randrange(256)
        elif kind == 1:
            raw.insert(place, chance.randrange(256))
        else:
            del raw[place]
        yield [bytes(raw)]


def all_cases():
    for group in (p1_cases(), header_cases(), number_cases(), constant_cases(), function_cases(), operand_cases(),
                  instruction_cases(), count_cases(), random_cases(1, 2000)):
        yield from group


def main():
    lines, seen = [], set()
    for pieces in all_cases():
        text = text_of(pieces)
        if text in seen:
            continue
        seen.add(text)
        whole = expand(text)
        number, place = answer(whole)
        if number == 0:
            assert write(image.load(whole)) == whole
        lines.append(f"{text} {number} {place}\n")
    target = sys.argv[1] if len(sys.argv) > 1 else os.path.join(HERE, "image_cases.txt")
    with open(target, "w", encoding="ascii") as out:
        out.writelines(lines)
    tally = {}
    for line in lines:
        number = line.split()[1]
        tally[number] = tally.get(number, 0) + 1
    print(len(lines), "cases;", ", ".join(f"{number}: {tally[number]}" for number in sorted(tally)))


if __name__ == "__main__":
    main()
