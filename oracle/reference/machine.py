"""The machine of document 01 as plain data: start, step, run, host calls, soundness, the live list.

Written from document 01 (sections "Refusal numbers" to "The live list") and the project's readings of it, in its order of checks. A value is (tag, bits).
"""

import struct

from image import (
    ADD, ASN, ASSIGN, CALL, CHAR, CONSTANT_ADDRESS, COPY, DIV, DROP, FDIV, FLOAT_CMP, INITIALIZE, INT_CMP, JUMP, MOD, MUL,
    NEGATE, NOT, OFFSET, POINTER, RETURN, SUB, SWITCH, WIDTHS, WRITE, fits, flat,
)

BOOL, U8, U16, U32, U64, I8, I16, I32, I64, F32, F64 = range(1, 12)
UNSIGNED, SIGNED, FLOATS = (U8, U16, U32, U64), (I8, I16, I32, I64), (F32, F64)
EQUATABLE = (BOOL, U8, U16, U32, I8, I16, I32, F32, F64, ASN, POINTER)
SWITCHABLE = (BOOL, U8, U16, U32)

(NOT_SOUND, ALREADY_RUNNING, IDLE, NO_FUNCTION, WRONG_ARGUMENTS, NO_SCALAR) = range(10, 16)
(NO_INSTRUCTION, UNSET, WRONG_KIND, OUTSIDE_WIDTH, BY_ZERO, NO_POINTER, CONSTANT_POINTER, DEAD_FRAME, NO_ALLOCATION,
 BEYOND_LENGTH, UNALIGNED, NO_BOOL, NO_PLACE, OFFSET_SUM, TOO_MANY_BYTES, NO_FRAME, NO_ID, NO_RECORD, NO_BYTES,
 NO_NUMBER, NO_CONSTANT, SHORT_TABLE) = range(20, 42)

FRAMES, LAST_ID, ALLOCATIONS, LIVE_BYTES, POINTERS, PLACES = 64, 2**32 - 1, 512, 32768, 4096, 4096


class Refusal(Exception):
    def __init__(self, number):
        super().__init__(number)
        self.number = number


def need(test, number):
    if not test:
        raise Refusal(number)


def whole(value):
    """The integer that a value's bits stand for."""
    tag, bits = value
    return bits - (1 << WIDTHS[tag]) if tag in SIGNED and bits >> (WIDTHS[tag] - 1) else bits


def integer(tag, number):
    """The value of this kind, or 23 where the number is outside its width."""
    width = WIDTHS[tag]
    low, high = (-(1 << (width - 1)), 1 << (width - 1)) if tag in SIGNED else (0, 1 << width)
    need(low <= number < high, OUTSIDE_WIDTH)
    return (tag, number % (1 << width))


def arithmetic(opcode, left, right):
    """Add, Sub, Mul, Div, Mod."""
    need(left[0] == right[0] and left[0] in UNSIGNED + SIGNED, WRONG_KIND)
    a, b = whole(left), whole(right)
    if opcode == ADD:
        return integer(left[0], a + b)
    if opcode == SUB:
        return integer(left[0], a - b)
    if opcode == MUL:
        return integer(left[0], a * b)
    need(b != 0, BY_ZERO)
    quotient = abs(a) // abs(b) if (a < 0) == (b < 0) else -(abs(a) // abs(b))
    divided = integer(left[0], quotient)
    return divided if opcode == DIV else integer(left[0], a - b * quotient)


# A float's width of fraction, and its largest exponent field.
FRACTION = {F32: 23, F64: 52}
EXPONENT = {F32: 255, F64: 2047}


def parts(value):
    """Sign, exponent field and fraction of a float."""
    tag, bits = value
    return bits >> (WIDTHS[tag] - 1), (bits >> FRACTION[tag]) & EXPONENT[tag], bits & ((1 << FRACTION[tag]) - 1)


def divide_floats(left, right):
    """The quotient rounded once to nearest, ties to even, by whole-number quotient and remainder."""
    need(left[0] == right[0] and left[0] in FLOATS, WRONG_KIND)
    tag, width, top = left[0], FRACTION[left[0]], EXPONENT[left[0]]
    (s1, e1, f1), (s2, e2, f2) = parts(left), parts(right)
    sign = (s1 ^ s2) << (WIDTHS[tag] - 1)
    infinity, nan = top << width, (top << width) | (1 << (width - 1))
    zero1, zero2 = e1 == 0 and f1 == 0, e2 == 0 and f2 == 0
    if (e1 == top and f1) or (e2 == top and f2) or (e1 == top and e2 == top) or (zero1 and zero2):
        return (tag, nan)
    if e1 == top or zero2:
        return (tag, sign | infinity)
    if e2 == top or zero1:
        return (tag, sign)
    m1, m2 = (f1 | (1 << width) if e1 else f1), (f2 | (1 << width) if e2 else f2)
    return (tag, sign | rounded(m1, m2, max(e1, 1) - max(e2, 1), width, top))


def rounded(m1, m2, scale, width, top):
    """The bits of m1 / m2 * 2^scale, m1 and m2 above zero, scale counted in exponent fields."""
    bias = top >> 1
    exponent = m1.bit_length() - m2.bit_length() + scale
    if m1 << max(0, m2.bit_length() - m1.bit_length()) < m2 << max(0, m1.bit_length() - m2.bit_length()):
        exponent -= 1
    unit = max(exponent, 1 - bias) - width
    shift = scale - unit
    quotient, remainder = divmod(m1 << max(0, shift), m2 << max(0, -shift))
    divisor = m2 << max(0, -shift)
    if 2 * remainder > divisor or (2 * remainder == divisor and quotient & 1):
        quotient += 1
    if quotient >> width == 0:
        return quotient
    bits = ((unit + width + bias - 1) << width) + quotient
    return min(bits, top << width)


def real(value):
    """The number that a float's bits stand for, widened exactly."""
    tag, bits = value
    return struct.unpack("<f", struct.pack("<I", bits))[0] if tag == F32 else struct.unpack("<d", struct.pack("<Q", bits))[0]


def equal(left, right):
    need(left[0] == right[0] and left[0] in EQUATABLE, WRONG_KIND)
    return real(left) == real(right) if left[0] in FLOATS else left[1] == right[1]


def ordered(order, family, left, right):
    """order: 0 less, 1 less or equal, 2 greater, 3 greater or equal."""
    need(left[0] in family and right[0] in family, WRONG_KIND)
    a, b = (real(left), real(right)) if family == FLOATS else (whole(left), whole(right))
    return (a < b, a <= b, a > b, a >= b)[order]


def compare(opcode, comparison, left, right):
    """IntCmp: Eq Ne ULt ULe UGt UGe SLt SLe SGt SGe. FloatCmp: Eq Ne Lt Le Gt Ge."""
    if comparison < 2:
        return (BOOL, int(equal(left, right) == (comparison == 0)))
    family = FLOATS if opcode == FLOAT_CMP else UNSIGNED if comparison < 6 else SIGNED
    return (BOOL, int(ordered((comparison - 2) % 4, family, left, right)))


def negate(value):
    tag, bits = value
    if tag in FLOATS:
        return (tag, bits ^ (1 << (WIDTHS[tag] - 1)))
    need(tag in SIGNED, WRONG_KIND)
    return integer(tag, -whole(value))


def size_of(tag):
    return {BOOL: 1, CHAR: 4, ASN: 4}.get(tag) or WIDTHS[tag] // 8


def bytes_of(value):
    return value[1].to_bytes(size_of(value[0]), "little")


def value_from(tag, data):
    bits = int.from_bytes(data, "little")
    need(tag != BOOL or bits <= 1, NO_BOOL)
    return (tag, bits)


class Frame:
    def __init__(self, id, return_place, return_variable):
        self.id, self.return_place, self.return_variable, self.allocations = id, return_place, return_variable, []


class Machine:
    """Fresh memory is idle: a root frame, counter 1, next place 0, no pointer, no variable set."""

    def __init__(self):
        self.running, self.place, self.counter = False, 0, 1
        self.frames = [Frame(0, 0, None)]
        self.pointers = []          # ("constant", k) or (frame index, frame id, allocation, offset)
        self.variables = [None] * 256

    # Memory.

    def allocate(self, size):
        """A zero-filled allocation in the top frame; its pointer's number."""
        need(sum(len(frame.allocations) for frame in self.frames) < ALLOCATIONS, NO_RECORD)
        need(sum(len(data) for frame in self.frames for data in frame.allocations) + size <= LIVE_BYTES, NO_BYTES)
        need(len(self.pointers) < POINTERS, NO_NUMBER)
        top = self.frames[-1]
        top.allocations.append(bytearray(size))
        return self.give((len(self.frames) - 1, top.id, len(top.allocations) - 1, 0))

    def give(self, pointer):
        need(len(self.pointers) < POINTERS, NO_NUMBER)
        self.pointers.append(pointer)
        return len(self.pointers) - 1

    def given(self, number):
        need(number < len(self.pointers), NO_POINTER)
        return self.pointers[number]

    def allocation_of(self, pointer):
        index, id, allocation, _ = pointer
        need(index < len(self.frames) and self.frames[index].id == id, DEAD_FRAME)
        need(allocation < len(self.frames[index].allocations), NO_ALLOCATION)
        return self.frames[index].allocations[allocation]

    def local(self, pointer, size):
        """The allocation that this pointer may access with this size, and the offset."""
        data, offset = self.allocation_of(pointer), pointer[3]
        need(offset + size <= len(data), BEYOND_LENGTH)
        need(offset % size == 0 if size else offset == 0, UNALIGNED)
        return data, offset

    def read(self, program, number, size):
        pointer = self.given(number)
        if pointer[0] == "constant":
            need(pointer[1] < len(program["constants"]), NO_CONSTANT)
            need(size <= len(program["constants"][pointer[1]]), BEYOND_LENGTH)
            return program["constants"][pointer[1]][:size]
        data, offset = self.local(pointer, size)
        return bytes(data[offset:offset + size])

    def write(self, number, new):
        pointer = self.given(number)
        need(pointer[0] != "constant", CONSTANT_POINTER)
        data, offset = self.local(pointer, len(new))
        data[offset:offset + len(new)] = new

    def offset_by(self, number, offset):
        pointer = self.given(number)
        need(pointer[0] != "constant", CONSTANT_POINTER)
        need(pointer[3] + offset < 2**64, OFFSET_SUM)
        return self.give((*pointer[:3], pointer[3] + offset))

    # One step.

    def operand(self, operand):
        tag, bits = operand
        if tag:
            return operand
        need(self.variables[bits] is not None, UNSET)
        return self.variables[bits]

    def pointer(self, operand):
        tag, number = self.operand(operand)
        need(tag == POINTER, WRONG_KIND)
        return number

    def kept(self):
        return (self.running, self.place, self.counter, list(self.frames), [len(frame.allocations) for frame in self.frames],
                len(self.pointers), list(self.variables))

    def put_back(self, kept):
        """Undoes what start or Call did since: they change no byte that stood."""
        self.running, self.place, self.counter, self.frames, made, given, self.variables = kept
        for frame, count in zip(self.frames, made):
            del frame.allocations[count:]
        del self.pointers[given:]

    def whole_or_nothing(self, action):
        kept = self.kept()
        try:
            action()
        except Refusal:
            self.put_back(kept)
            raise

    def make_slots(self, function):
        for variable, size in function["slots"]:
            self.variables[variable] = (POINTER, self.allocate(size))

    def call(self, program, to, context, number, arguments, return_pointer):
        function = program["functions"][number]
        need(len(self.frames) < FRAMES, NO_FRAME)
        need(self.counter < LAST_ID, NO_ID)
        self.frames.append(Frame(self.counter, self.place + 1, None if to is None else to[0]))
        self.counter += 1
        self.make_slots(function)
        if return_pointer is not None:
            self.variables[function["return"]] = self.operand((0, return_pointer))
        if context is not None:
            self.variables[function["context"]] = self.operand(context)
        for parameter, argument in zip(function["parameters"], arguments):
            self.variables[parameter] = self.operand(argument)
        self.place = program["labels"][function["entry"]]

    def returned(self, operand):
        """True where the run ends; the value is then in self.answer."""
        value = None if operand is None else self.operand(operand)
        if len(self.frames) == 1:
            self.answer, self.running = value, False
            return
        frame = self.frames[-1]
        need(value is None or frame.return_variable is not None, NO_PLACE)
        self.frames.pop()
        if value is not None:
            self.variables[frame.return_variable] = value
        self.place = frame.return_place

    def switch(self, labels, operand, branches, default):
        tag, bits = self.operand(operand)
        need(tag in SWITCHABLE, WRONG_KIND)
        chosen = [label for number, label in branches if number == bits]
        self.place = labels[chosen[0] if chosen else default]

    def copy(self, program, to, source, size):
        to = self.pointer(to)
        source = self.pointer(source)
        self.write(to, self.read(program, source, size))

    def write_value(self, to, what):
        to = self.pointer(to)
        self.write(to, bytes_of(self.operand(what)))

    def initialize(self, size, data):
        need(len(data) <= size, TOO_MANY_BYTES)
        number = self.allocate(size)
        self.write(number, data)
        return (POINTER, number)

    def result(self, program, opcode, fields):
        """The value that an instruction with a target sets."""
        if opcode == ASSIGN:
            return self.operand(fields[0])
        if opcode == CONSTANT_ADDRESS:
            return (POINTER, self.give(("constant", fields[0])))
        if opcode in (INT_CMP, FLOAT_CMP):
            left, right = self.operand(fields[1]), self.operand(fields[2])
            return compare(opcode, fields[0], left, right)
        if opcode in (ADD, SUB, MUL, DIV, MOD, FDIV):
            left, right = self.operand(fields[-2]), self.operand(fields[-1])
            return divide_floats(left, right) if opcode == FDIV else arithmetic(opcode, left, right)
        if opcode == NOT:
            value = self.operand(fields[0])
            need(value[0] == BOOL, WRONG_KIND)
            return value
        if opcode == NEGATE:
            return negate(self.operand(fields[0]))
        if opcode == OFFSET:
            return (POINTER, self.offset_by(self.pointer(fields[0]), fields[1]))
        if opcode == INITIALIZE:
            return self.initialize(*fields)
        return value_from(fields[1], self.read(program, self.pointer(fields[0]), size_of(fields[1])))

    def step(self, program):
        """One instruction done, or Refusal and nothing changed. The machine runs."""
        need(self.place < len(program["flat"]), NO_INSTRUCTION)
        opcode, *fields = program["flat"][self.place]
        if opcode == JUMP:
            self.place = program["labels"][fields[0]]
        elif opcode == SWITCH:
            self.switch(program["labels"], *fields)
        elif opcode == CALL:
            self.whole_or_nothing(lambda: self.call(program, *fields))
        elif opcode == RETURN:
            self.returned(*fields)
        else:
            if opcode == WRITE:
                self.write_value(*fields)
            elif opcode == COPY:
                self.copy(program, *fields)
            elif opcode != DROP:
                self.variables[fields[0]] = self.result(program, opcode, fields[1:])
            self.place += 1

    # Entries. A program here is an accepted image, taken apart by `prepared`.

    def sound(self):
        frames, ids = self.frames, [frame.id for frame in self.frames]
        data = [len(data) for frame in frames for data in frame.allocations]
        return (1 <= len(frames) <= FRAMES and ids[0] == 0 and all(a < b for a, b in zip(ids, ids[1:] + [self.counter]))
                and self.counter <= LAST_ID and len(data) <= ALLOCATIONS and sum(data) <= LIVE_BYTES
                and len(self.pointers) <= POINTERS
                and all(frame.return_variable is None or frame.return_variable < 256 for frame in frames)
                and self.place <= PLACES and all(frame.return_place <= PLACES for frame in frames)
                and all(value is None or fits(*value) for value in self.variables)
                and (self.running or len(frames) == 1))

    def start(self, program, number, context, arguments):
        need(self.sound(), NOT_SOUND)
        need(not self.running, ALREADY_RUNNING)
        need(number < len(program["functions"]), NO_FUNCTION)
        function = program["functions"][number]
        need(len(arguments) == len(function["parameters"]) + function["pointer"], WRONG_ARGUMENTS)
        need(all(fits(*value) for value in [context, *arguments]), NO_SCALAR)

        def begin():
            self.variables = [None] * 256
            self.variables[function["context"]] = context
            rest = list(arguments)
            if function["pointer"]:
                self.variables[function["return"]] = rest.pop(0)
            for parameter, value in zip(function["parameters"], rest):
                self.variables[parameter] = value
            self.make_slots(function)
            self.place, self.running = program["labels"][function["entry"]], True

        self.whole_or_nothing(begin)

    def run(self, program, budget, before=lambda machine: None):
        """("returned", value or None, steps), ("paused", steps) or ("refused", number, steps)."""
        if not self.sound():
            return ("refused", NOT_SOUND, 0)
        if not self.running:
            return ("refused", IDLE, 0)
        steps = 0
        while True:
            before(self)
            if steps == budget:
                return ("paused", steps)
            try:
                self.step(program)
            except Refusal as refusal:
                return ("refused", refusal.number, steps)
            steps += 1
            if not self.running:
                return ("returned", self.answer, steps)

    def host_allocate(self, size):
        need(self.sound(), NOT_SOUND)
        return self.allocate(size)

    def host_write(self, number, data):
        need(self.sound(), NOT_SOUND)
        self.write(number, data)

    def host_read(self, program, number, size):
        need(self.sound(), NOT_SOUND)
        return self.read(program, number, size)

    def live(self):
        """The live list: live or not, frame index, allocation, offset, for each pointer number."""
        records = []
        for pointer in self.pointers:
            if pointer[0] == "constant":
                records.append((False, 0, 0, 0))
                continue
            try:
                self.allocation_of(pointer)
                records.append((True, pointer[0], pointer[2], pointer[3]))
            except Refusal:
                records.append((False, pointer[0], pointer[2], pointer[3]))
        return records


def prepared(program):
    """A program with its flat list of instructions and each label's place."""
    instructions, labels = flat(program)
    return {**program, "flat": instructions, "labels": labels}
