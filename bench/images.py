"""The images that the bench runs, made by the oracle's image writer."""

import os
import struct
import sys

sys.path.insert(0, os.path.join(os.path.dirname(os.path.abspath(__file__)), "..", "oracle", "reference"))

from image import ADD, ASSIGN, CALL, COPY, DROP, FDIV, INITIALIZE, INT_CMP, OFFSET, POINTER, READ, RETURN, SWITCH, WRITE, write
from sweep import function

BOOL, U32, U64, F64 = 1, 4, 5, 11
COUNTER, TEST, FIRST, SECOND, THIRD = 2, 3, 4, 5, 6
LESS = 2


def program(functions, blocks):
    return write({"variables": 32, "constants": [], "functions": functions, "blocks": blocks})


def looped(before, body, times):
    """Blocks of a function that does `body` so many times: first block 0, the loop block 1, the end block 2."""
    turn = [(ADD, COUNTER, (0, COUNTER), (U32, 1)), (INT_CMP, TEST, LESS, (0, COUNTER), (U32, times)), (SWITCH, (0, TEST), [(1, 1)], 2)]
    return [[*before, (ASSIGN, COUNTER, (U32, 0), U32)], body + turn, [(RETURN, (0, COUNTER))]]


def counting(times):
    return program([function()], looped([], [], times))


def nested(times):
    """Each turn calls a function with a slot that calls another one with a slot: two pointers a turn."""
    functions = [function(), function(entry=3, slots=[(7, 8)], **{"return": 10, "context": 11}),
                 function(entry=4, slots=[(8, 16)], **{"return": 12, "context": 13})]
    outer = [(WRITE, (0, 7), (U64, 7)), (CALL, None, None, 2, [], None), (READ, FIRST, (0, 7), U64), (RETURN, None)]
    inner = [(WRITE, (0, 8), (U64, 8)), (READ, SECOND, (0, 8), U64), (RETURN, None)]
    return program(functions, looped([], [(CALL, None, None, 1, [], None)], times) + [outer, inner])


def traffic(times):
    before = [(INITIALIZE, FIRST, 64, b"bytes"), (INITIALIZE, SECOND, 64, b"")]
    body = [(WRITE, (0, FIRST), (U64, 2**40)), (READ, THIRD, (0, FIRST), U64), (COPY, (0, SECOND), (0, FIRST), 64)]
    return program([function()], looped(before, body, times))


def division(times):
    bits = struct.unpack("<Q", struct.pack("<d", 1.0000001))[0]
    start = struct.unpack("<Q", struct.pack("<d", 1e300))[0]
    body = [(FDIV, FIRST, (0, FIRST), (F64, bits)), (FDIV, SECOND, (0, FIRST), (F64, bits))]
    return program([function()], looped([(ASSIGN, FIRST, (F64, start), F64)], body, times))


def switching(times):
    """The last of 64 branches is taken."""
    turns = looped([(ASSIGN, FIRST, (U32, 63), U32)], [], times)
    turns[1], last = [(SWITCH, (0, FIRST), [(k, 3) for k in range(64)], 2)], turns[1]
    return program([function()], turns + [last])


def filling(times):
    """So many pointers more, by Offset."""
    return program([function()], looped([(INITIALIZE, FIRST, 8, b"")], [(OFFSET, SECOND, (0, FIRST), 0)], times))


def sized(size):
    """An image of about so many bytes: Drops of eight bytes each."""
    return program([function()], [[(DROP, (U64, 2**40))] * (size // 8 - 4) + [(RETURN, None)]])


ROWS = [("counting loop", counting(300000)), ("nested calls with slots", nested(2000)), ("memory traffic", traffic(100000)),
        ("float division", division(150000)), ("Switch of 64 branches", switching(100000))]
