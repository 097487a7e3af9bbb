"""The program image of document 01, read and written: bytes in, a program or (number, place) out.

Written from document 01 (sections "The program image" and "Refusal numbers") and the project's readings of it, plain rather than fast.
"""

OUT_OF_BYTES, MALFORMED, UNKNOWN, OVER_LIMIT, BEYOND_COUNT, LEFT_OVER = 1, 2, 3, 4, 5, 6

IMAGE_LIMIT = 32768
VARIABLES, CONSTANTS, FUNCTIONS, BLOCKS = 256, 64, 64, 512
CONSTANT_BYTES, INSTRUCTIONS = 8192, 4096
PARAMETERS, SLOTS, ARGUMENTS, BRANCHES = 16, 16, 16, 64
SIZE, INITIAL_BYTES = 32768, 256

KINDS = ["Variable", "Bool", "U8", "U16", "U32", "U64", "I8", "I16", "I32", "I64", "F32", "F64", "Char", "Asn", "Pointer"]
WIDTHS = [None, 1, 8, 16, 32, 64, 8, 16, 32, 64, 32, 64, 21, 32, 64]
CHAR, ASN, POINTER = 12, 13, 14

# Opcode by opcode: its name and its fields in order.
OPCODES = [
    ("Jump", ["label"]),
    ("Switch", ["operand", "branches", "label"]),
    ("Assign", ["variable", "operand", "type"]),
    ("ConstantAddress", ["variable", "constant"]),
    ("Call", ["result?", "operand?", "function", "operands", "variable?"]),
    ("Return", ["operand?"]),
    ("IntCmp", ["variable", "integer comparison", "operand", "operand"]),
    ("FloatCmp", ["variable", "float comparison", "operand", "operand"]),
    ("Add", ["variable", "operand", "operand"]),
    ("Sub", ["variable", "operand", "operand"]),
    ("Mul", ["variable", "operand", "operand"]),
    ("Div", ["variable", "flag", "operand", "operand"]),
    ("Mod", ["variable", "flag", "operand", "operand"]),
    ("FDiv", ["variable", "operand", "operand"]),
    ("Not", ["variable", "operand"]),
    ("Negate", ["variable", "operand"]),
    ("Offset", ["variable", "operand", "u32"]),
    ("Initialize", ["variable", "size", "bytes"]),
    ("Write", ["operand", "operand"]),
    ("Read", ["variable", "operand", "type"]),
    ("Copy", ["operand", "operand", "u32"]),
    ("Drop", ["operand"]),
]
(JUMP, SWITCH, ASSIGN, CONSTANT_ADDRESS, CALL, RETURN, INT_CMP, FLOAT_CMP, ADD, SUB, MUL, DIV, MOD, FDIV, NOT, NEGATE, OFFSET, INITIALIZE,
 WRITE, READ, COPY, DROP) = range(22)


class Refused(Exception):
    def __init__(self, number, place):
        super().__init__(number, place)
        self.number, self.place = number, place


def fits(tag, bits):
    """Whether a value of this kind has these bits."""
    if tag == CHAR:
        return bits <= 0xD7FF or 0xE000 <= bits <= 0x10FFFF
    return bits < 1 << WIDTHS[tag]


class Reader:
    """Reads fields one after another; a refusal bears the place where its field begins."""

    def __init__(self, image):
        self.image, self.at = image, 0

    def number(self):
        start, value = self.at, 0
        for group in range(10):
            if start + group >= len(self.image):
                raise Refused(OUT_OF_BYTES, start)
            byte = self.image[start + group]
            value |= (byte & 0x7F) << (7 * group)
            if byte < 0x80:
                shortest = group == 0 or byte != 0
                if not shortest or value > 2**64 - 1:
                    raise Refused(MALFORMED, start)
                self.at = start + group + 1
                return value
        raise Refused(MALFORMED, start)

    def number_where(self, good, number):
        """A number that must be good, else this refusal at its first byte."""
        start = self.at
        value = self.number()
        if not good(value):
            raise Refused(number, start)
        return value

    def known(self, good):
        return self.number_where(good, UNKNOWN)

    def up_to(self, limit):
        return self.number_where(lambda n: n <= limit, OVER_LIMIT)

    def below(self, count):
        return self.number_where(lambda n: n < count, BEYOND_COUNT)

    def flag(self):
        return self.known(lambda n: n <= 1)

    def raw(self, length):
        start = self.at
        if start + length > len(self.image):
            raise Refused(OUT_OF_BYTES, start)
        self.at = start + length
        return bytes(self.image[start:self.at])

    def header(self):
        self.known(lambda n: n == 1)
        self.variables = self.up_to(VARIABLES)
        self.constants = self.up_to(CONSTANTS)
        self.functions = self.up_to(FUNCTIONS)
        self.blocks = self.up_to(BLOCKS)

    def operand(self):
        tag = self.known(lambda n: n <= POINTER)
        if tag == 0:
            return (0, self.below(self.variables))
        return (tag, self.known(lambda bits: fits(tag, bits)))

    def type(self):
        return self.known(lambda n: 1 <= n <= POINTER and n not in (CHAR, ASN))

    def branch(self):
        return (self.number(), self.below(self.blocks))

    def result(self):
        return (self.below(self.variables), self.type())

    def optional(self, field):
        return field() if self.flag() else None

    def list_of(self, limit, item):
        return [item() for _ in range(self.up_to(limit))]

    def field(self, shape):
        if shape.endswith("?"):
            return self.optional(lambda: self.field(shape[:-1]))
        return {
            "label": lambda: self.below(self.blocks),
            "variable": lambda: self.below(self.variables),
            "constant": lambda: self.below(self.constants),
            "function": lambda: self.below(self.functions),
            "operand": self.operand,
            "type": self.type,
            "result": self.result,
            "flag": self.flag,
            "u32": lambda: self.known(lambda n: n < 1 << 32),
            "integer comparison": lambda: self.known(lambda n: n <= 9),
            "float comparison": lambda: self.known(lambda n: n <= 5),
            "size": lambda: self.up_to(SIZE),
            "bytes": lambda: self.raw(self.up_to(INITIAL_BYTES)),
            "operands": lambda: self.list_of(ARGUMENTS, self.operand),
            "branches": lambda: self.list_of(BRANCHES, self.branch),
        }[shape]()

    def instruction(self):
        opcode = self.known(lambda n: n < len(OPCODES))
        return (opcode, *[self.field(shape) for shape in OPCODES[opcode][1]])

    def function(self):
        kind = self.flag()
        entry = self.below(self.blocks)
        returned = self.below(self.variables)
        context = self.below(self.variables)
        pointer = self.known(lambda n: n == 1 if kind == 1 else n <= 1)
        parameters = self.list_of(0 if kind == 1 else PARAMETERS, lambda: self.below(self.variables))
        slots = self.list_of(SLOTS, lambda: (self.below(self.variables), self.up_to(SIZE)))
        return {"kind": kind, "entry": entry, "return": returned, "context": context, "pointer": pointer,
                "parameters": parameters, "slots": slots}

    def program(self):
        if len(self.image) > IMAGE_LIMIT:
            raise Refused(OVER_LIMIT, 0)
        self.header()
        constants, total = [], 0
        for _ in range(self.constants):
            length = self.up_to(CONSTANT_BYTES - total)
            total += length
            constants.append(self.raw(length))
        functions = [self.function() for _ in range(self.functions)]
        blocks, total = [], 0
        for _ in range(self.blocks):
            count = self.up_to(INSTRUCTIONS - total)
            total += count
            blocks.append([self.instruction() for _ in range(count)])
        if self.at < len(self.image):
            raise Refused(LEFT_OVER, self.at)
        return {"variables": self.variables, "constants": constants, "functions": functions, "blocks": blocks}


def load(image):
    """The program of this image, or its refusal (number, place)."""
    try:
        return Reader(image).program()
    except Refused as refused:
        return (refused.number, refused.place)


def answer(image):
    """(0, 0) where the image is taken, else (number, place)."""
    program = load(image)
    return program if isinstance(program, tuple) else (0, 0)


def flat(program):
    """The flat list of instructions, and each label's place in it."""
    instructions, labels = [], []
    for block in program["blocks"]:
        labels.append(len(instructions))
        instructions.extend(block)
    return instructions, labels


def write_number(value):
    groups = [value & 0x7F]
    while value > 0x7F:
        value >>= 7
        groups.append(value & 0x7F)
    return bytes([group | 0x80 for group in groups[:-1]] + groups[-1:])


def write_field(shape, value):
    if shape.endswith("?"):
        return b"\0" if value is None else b"\1" + write_field(shape[:-1], value)
    if shape in ("operand", "result", "branch"):
        return write_number(value[0]) + write_number(value[1])
    if shape == "bytes":
        return write_number(len(value)) + value
    if shape in ("operands", "branches"):
        item = "operand" if shape == "operands" else "branch"
        return write_number(len(value)) + b"".join(write_field(item, one) for one in value)
    return write_number(value)


def write_instruction(instruction):
    opcode, *fields = instruction
    shapes = OPCODES[opcode][1]
    return write_number(opcode) + b"".join(write_field(*pair) for pair in zip(shapes, fields, strict=True))


def write_function(function):
    numbers = [function[name] for name in ("kind", "entry", "return", "context", "pointer")]
    numbers += [len(function["parameters"]), *function["parameters"], len(function["slots"])]
    numbers += [number for slot in function["slots"] for number in slot]
    return b"".join(write_number(number) for number in numbers)


def write(program):
    """The image of this program."""
    counts = [1, program["variables"]] + [len(program[part]) for part in ("constants", "functions", "blocks")]
    parts = [write_number(count) for count in counts]
    parts += [write_field("bytes", constant) for constant in program["constants"]]
    parts += [write_function(function) for function in program["functions"]]
    for block in program["blocks"]:
        parts.append(write_number(len(block)))
        parts += [write_instruction(instruction) for instruction in block]
    return b"".join(parts)
