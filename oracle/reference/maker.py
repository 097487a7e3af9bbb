"""Random programs in the oracle's domain, with their starts (see oracle/README.md)."""

import random
import struct

from image import (
    ADD, ASSIGN, CALL, CHAR, CONSTANT_ADDRESS, COPY, DIV, DROP, FDIV, FLOAT_CMP, INITIALIZE, INT_CMP, JUMP, MOD, MUL, NEGATE,
    NOT, OFFSET, POINTER, READ, RETURN, SUB, SWITCH, WIDTHS, WRITE, fits, write,
)
from machine import BOOL, F32, FLOATS, I64, SIGNED, SWITCHABLE, U64, U8, UNSIGNED
from sweep import INTEGERS, KINDS, TYPES, edges, function, start_word


# How often an instruction is drawn: once for each time it stands here.
OFTEN = [
    ASSIGN, ASSIGN, CONSTANT_ADDRESS, CALL, CALL, CALL, CALL, CALL, CALL, INT_CMP, INT_CMP, FLOAT_CMP, ADD, ADD, SUB, SUB, MUL,
    DIV, MOD, FDIV, NOT, NEGATE, OFFSET, OFFSET, INITIALIZE, WRITE, WRITE, WRITE, READ, READ, READ, COPY, COPY, DROP,
]


class Maker:
    """One random program: each variable has a kind that instructions mostly keep to, so that runs are long."""

    def __init__(self, chance):
        self.chance, self.inside = chance, 0
        self.layout()

    def often(self, share):
        return self.chance.random() < share

    def layout(self):
        chance = self.chance
        self.kind_of, self.functions = [], []
        for _ in range(chance.choice([1, 2, 2, 3, 3, 4])):
            item = self.often(0.08) and bool(self.functions)
            parameters = [] if item else [self.variable() for _ in range(chance.choice([0, 1, 1, 2, 3]))]
            self.functions.append(function(kind=int(item), pointer=int(item or self.often(0.3)), parameters=parameters,
                                           context=self.variable(POINTER if self.often(0.6) else None), **{"return": self.variable(POINTER)}))
        self.temporaries = [self.variable() for _ in range(chance.randint(3, 8))]
        self.temporaries += [self.variable(kind) for kind in (POINTER, POINTER, BOOL, chance.choice(INTEGERS))]
        if self.often(0.02):
            while len(self.kind_of) < 256:
                self.temporaries.append(self.variable())
        chance.shuffle(self.temporaries)
        everyone = range(len(self.kind_of))
        self.gives = [chance.choice(self.kind_of) for _ in self.functions]
        self.held = {kind: [v for v in everyone if self.kind_of[v] == kind] for kind in KINDS}
        for each in self.functions:
            pool = self.temporaries if self.often(0.9) else list(everyone)
            each["slots"] = [(chance.choice([v for v in pool if self.kind_of[v] == POINTER] or pool), self.size())
                             for _ in range(chance.choice([0, 0, 1, 2, 3]))]
        self.constants = [bytes(chance.choice([0, 1, 1, 2, 255]) for _ in range(chance.choice([0, 1, 2, 4, 8, 8, 16])))
                          for _ in range(chance.choice([0, 1, 2, 3]))]

    def variable(self, kind=None):
        self.kind_of.append(kind or self.chance.choice([*KINDS, *INTEGERS, POINTER, POINTER]))
        return len(self.kind_of) - 1

    def size(self):
        if self.often(0.02):
            return self.chance.choice([100, 1000, 16384, 32768])
        return self.chance.choice([0, 1, 2, 4, 8, 8, 8, 16, 24])

    def bits(self, kind):
        chance = self.chance
        if kind == POINTER:
            return chance.choice([0, 1, 2, 3, 4, 5, 8, 12]) if self.often(0.95) else chance.choice(edges(kind))
        if kind == BOOL:
            return chance.randrange(2)
        if kind in FLOATS:
            if self.often(0.4):
                return chance.choice(edges(kind))
            if self.often(0.3):
                return chance.getrandbits(WIDTHS[kind])
            small = chance.choice([0.5, 1.0, 2.0, 3.0, -7.0, 10.0, 0.1])
            return struct.unpack("<I", struct.pack("<f", small))[0] if kind == F32 else struct.unpack("<Q", struct.pack("<d", small))[0]
        if self.often(0.85):
            small = chance.choice([0, 1, 1, 2, 3, 5, 7])
            return (-small) % (1 << WIDTHS[kind]) if kind in SIGNED and self.often(0.4) else small
        if self.often(0.5):
            return chance.choice(edges(kind))
        bits = chance.getrandbits(WIDTHS[kind])
        return bits if fits(kind, bits) else 0x41

    def literal(self, kind):
        return (kind, self.bits(kind))

    def operand(self, kind):
        if self.often(0.006):
            kind = self.chance.choice(KINDS)
        if self.often(0.006):
            return (0, self.chance.randrange(len(self.kind_of)))
        holders = self.held[kind]
        share = 0.97 if kind == POINTER else 0.6
        return (0, self.chance.choice(holders)) if holders and self.often(share) else self.literal(kind)

    def target(self, kind):
        holders = self.held[kind]
        return self.chance.choice(holders) if holders and self.often(0.97) else self.chance.choice(self.temporaries)

    def present(self, kinds):
        """A kind of these, one that some variable has where possible."""
        held = [kind for kind in kinds if self.held[kind]]
        return self.chance.choice(held if held and self.often(0.85) else list(kinds))

    def type(self, kind):
        return kind if kind in TYPES and self.often(0.9) else self.chance.choice(TYPES)

    def instruction(self):
        chance = self.chance
        opcode = chance.choice(OFTEN)
        if opcode == ASSIGN:
            to = chance.randrange(len(self.kind_of))
            return (ASSIGN, to, self.operand(self.kind_of[to]), self.type(self.kind_of[to]))
        if opcode == CONSTANT_ADDRESS:
            return (CONSTANT_ADDRESS, self.target(POINTER), chance.randrange(len(self.constants))) if self.constants else (DROP, (0, 0))
        if opcode == CALL:
            return self.call()
        if opcode in (INT_CMP, FLOAT_CMP):
            return self.comparison(opcode)
        if opcode in (ADD, SUB, MUL):
            kind = self.present(INTEGERS)
            return (opcode, self.target(kind), self.operand(kind), self.operand(kind))
        if opcode in (DIV, MOD):
            kind = self.present(INTEGERS)
            right = self.operand(kind) if self.often(0.5) else (kind, chance.choice([1, 2, 3, 7, (1 << WIDTHS[kind]) - 1]))
            return (opcode, self.target(kind), chance.randrange(2), self.operand(kind), right)
        if opcode == FDIV:
            kind = self.present(FLOATS)
            return (FDIV, self.target(kind), self.operand(kind), self.operand(kind))
        if opcode == NOT:
            return (NOT, self.target(BOOL), self.operand(BOOL))
        if opcode == NEGATE:
            kind = self.present(SIGNED + FLOATS)
            return (NEGATE, self.target(kind), self.operand(kind))
        return self.memory(opcode)

    def comparison(self, opcode):
        chance = self.chance
        comparison = chance.randrange(10 if opcode == INT_CMP else 6)
        if comparison < 2:
            kind = self.present([kind for kind in KINDS if kind not in (U64, I64, CHAR) or self.often(0.1)])
            kinds = (kind, kind)
        else:
            family = FLOATS if opcode == FLOAT_CMP else UNSIGNED if comparison < 6 else SIGNED
            kinds = (self.present(family), self.present(family))
        return (opcode, self.target(BOOL), comparison, self.operand(kinds[0]), self.operand(kinds[1]))

    def memory(self, opcode):
        chance = self.chance
        if opcode == OFFSET:
            offset = chance.choice([0, 0, 0, 1, 2, 4, 8]) if self.often(0.98) else chance.choice([3, 16, 2**31, 2**32 - 1])
            return (OFFSET, self.target(POINTER), self.operand(POINTER), offset)
        if opcode == INITIALIZE:
            size = self.size()
            count = min(chance.choice([0, 1, 2, 4, 8, size]), 256)
            count = count if count <= size or self.often(0.1) else size
            return (INITIALIZE, self.target(POINTER), size, bytes(chance.choice([0, 1, 1, 2, 128, 255]) for _ in range(count)))
        if opcode == WRITE:
            kind = self.present(KINDS)
            return (WRITE, self.operand(POINTER), self.operand(kind))
        if opcode == READ:
            kind = self.present(TYPES if self.often(0.15) else TYPES[:-1])
            return (READ, self.target(kind), self.operand(POINTER), kind)
        if opcode == COPY:
            return (COPY, self.operand(POINTER), self.operand(POINTER), chance.choice([0, 1, 1, 2, 4, 4, 8, 8, 16, 3]))
        return (DROP, (0, chance.randrange(len(self.kind_of))) if self.often(0.7) else self.literal(chance.choice(KINDS)))

    def call(self):
        """Mostly of a later function, so that most calls return."""
        chance = self.chance
        later = range(self.inside + 1, len(self.functions))
        if not later and self.often(0.9):
            return (DROP, (0, 0))
        number = chance.choice(later) if later and self.often(0.97) else chance.randrange(len(self.functions))
        callee = self.functions[number]
        arguments = [self.operand(self.kind_of[parameter]) for parameter in callee["parameters"]]
        if self.often(0.2) and arguments:
            arguments = [(0, chance.choice(callee["parameters"])) for _ in arguments]
        if self.often(0.1):
            arguments = arguments[:-1] if self.often(0.5) else arguments + [self.operand(chance.choice(KINDS))]
        to = None
        if self.often(0.93):
            to = (self.target(self.gives[number]), self.type(self.gives[number]))
        context = self.operand(self.kind_of[callee["context"]]) if self.often(0.6) else None
        pointer = chance.choice(self.held[POINTER]) if self.often(0.6 if callee["pointer"] else 0.1) else None
        return (CALL, to, context, number, arguments, pointer)

    def stale(self, number):
        """Now and then an access through a pointer that another function made."""
        slots = self.functions[number]["slots"]
        if not slots or self.often(0.8):
            return []
        return self.access(self.chance.choice(slots)[0])

    def access(self, variable):
        made = (0, variable)
        return [self.chance.choice([(READ, self.target(U8), made, U8), (WRITE, made, (U8, 1)), (OFFSET, self.target(POINTER), made, 0),
                                    (COPY, self.operand(POINTER), made, 1), (COPY, made, self.operand(POINTER), 1)])]

    def kept_from_last_call(self):
        """An access through a pointer that the call before left behind; then this call's own slot is left behind."""
        slots = self.functions[self.inside]["slots"]
        if not slots or self.often(0.8):
            return []
        kept = self.chance.choice(self.held[POINTER])
        return self.access(kept) + [(ASSIGN, kept, (0, self.chance.choice(slots)[0]), POINTER)]

    def near_a_bound(self):
        """Fresh memory, an offset into it, and an access there."""
        chance = self.chance
        first, second = self.target(POINTER), self.target(POINTER)
        kind, wide = self.present(TYPES), chance.choice(KINDS)
        data = bytes(chance.choice([0, 1, 1, 1, 2]) for _ in range(chance.choice([0, 4, 8])))
        access = chance.choice([(READ, self.target(kind), (0, second), kind), (WRITE, (0, second), self.operand(wide)),
                                (COPY, (0, second), (0, first), chance.choice([1, 2, 4])), (COPY, (0, first), (0, second), chance.choice([1, 2, 4]))])
        return [(INITIALIZE, first, chance.choice([8, 8, 16]), data), (OFFSET, second, (0, first), chance.choice([0, 0, 0, 1, 2, 4, 4, 8])), access]

    def ending(self, span, at, all_labels):
        """Mostly forward; the last block of a function mostly returns, that of the first mostly goes round again."""
        chance = self.chance
        forward, round_again = span[at + 1:], span[min(1, len(span) - 1):]

        def label():
            pool = forward if forward and self.often(0.85) else round_again
            return chance.choice(pool) if self.often(0.99) else chance.choice(all_labels)

        pick = chance.random()
        if not forward:
            pick = chance.uniform(0, 0.6) if self.inside == 0 and len(span) > 1 and self.often(0.7) else chance.uniform(0.57, 0.91)
        if pick < 0.3:
            return [(JUMP, label())]
        if pick < 0.6:
            kind = self.present(SWITCHABLE) if self.often(0.98) else chance.choice(KINDS)
            numbers = [chance.choice([0, 1, 1, 2, 7, 2**32 + 1]) for _ in range(chance.choice([0, 1, 2, 2, 3]))]
            return [(SWITCH, self.operand(kind), [(number, label()) for number in numbers], label())]
        if pick < 0.9 and (not forward or self.often(0.3)):
            kind = self.gives[self.inside] if self.often(0.97) else chance.choice(self.kind_of)
            return [(RETURN, self.operand(kind) if self.often(0.8) else None)]
        return []

    def body(self, at):
        """The blocks that the first function goes round through mostly call."""
        loops = self.inside == 0 and at > 0
        parts = [[self.call()]] if loops and self.often(0.7) else []
        for _ in range(self.chance.choice([2, 3, 4, 6] if loops else [0, 1, 2, 3, 4, 6])):
            parts.append(self.near_a_bound() if self.often(0.04) else [self.instruction()])
        self.chance.shuffle(parts)
        return [one for part in parts for one in part + (self.stale(part[0][3]) if part[0][0] == CALL else [])]

    def first_block(self):
        """Sets nearly every variable."""
        made = []
        for number, kind in enumerate(self.kind_of):
            if number < 64 and self.often(0.99):
                if kind == POINTER and self.often(0.8):
                    made.append((INITIALIZE, number, self.chance.choice([8, 8, 16]), b"" if self.often(0.7) else bytes([1, 0, 1])))
                elif kind == POINTER and self.constants and self.often(0.3):
                    made.append((CONSTANT_ADDRESS, number, self.chance.randrange(len(self.constants))))
                else:
                    made.append((ASSIGN, number, self.literal(kind), self.type(kind)))
        first = self.functions[0]
        own = {first["context"], *first["parameters"], *([first["return"]] if first["pointer"] else [])}
        return [one for one in made if one[1] not in own or self.often(0.3)]

    def program(self):
        chance = self.chance
        blocks, spans = [], []
        for each in self.functions:
            spans.append(list(range(len(blocks), len(blocks) + chance.choice([1, 2, 3, 3, 4, 5]))))
            each["entry"] = spans[-1][0]
            blocks += [[] for _ in spans[-1]]
        if self.often(0.3):
            blocks.append([])
        everyone = list(range(len(blocks)))
        for self.inside, span in enumerate(spans):
            for at, label in enumerate(span):
                if at == 0 and self.inside:
                    blocks[label] += self.stale(chance.randrange(len(self.functions))) + self.kept_from_last_call()
                blocks[label] += self.body(at)
                blocks[label] += self.ending(span, at, everyone)
        blocks[0] = self.first_block() + blocks[0]
        return {"variables": len(self.kind_of), "constants": self.constants, "functions": self.functions, "blocks": blocks}

    def starts(self):
        """Host calls, then a start, then host calls again; now and then a second start."""
        chance = self.chance
        words = []
        for number in range(chance.choice([0, 1, 1, 2, 3])):
            size = chance.choice([1, 2, 4, 8, 8, 16])
            words.append(f"a{size}")
            if self.often(0.7):
                words.append(f"w{number}={bytes(chance.choice([0, 1, 1, 2, 255]) for _ in range(chance.choice([1, 2, 4, size]))).hex()}")
        for _ in range(chance.choice([1, 1, 1, 2])):
            first = self.functions[0]
            values = [self.literal(self.kind_of[first["context"]])]
            values += [self.literal(POINTER)] * first["pointer"]
            values += [self.literal(self.kind_of[parameter]) for parameter in first["parameters"]]
            words.append(start_word(0, values, chance.choice([0, 1, 5, 50, 100, 300, 600, 1000]) if self.often(0.98) else 5000))
        for _ in range(chance.choice([0, 0, 1, 2])):
            words.append(f"r{chance.randrange(6)}={chance.choice([0, 1, 2, 4, 8])}")
        return words


def random_cases(count, seed):
    """Programs by the count, each started several times; a case a start."""
    chance = random.Random(seed)
    for _ in range(count):
        maker = Maker(chance)
        whole = write(maker.program()).hex()
        for _ in range(chance.choice([1, 2, 3, 4, 6])):
            yield " ".join([whole, *maker.starts()])
