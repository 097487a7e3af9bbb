"""Writes the script of console commands that the gate runs, and the answers of the reference machine to it."""

import os

from console import Console
from examples import CASES, MARCH, program, variable
from image import OFFSET, RETURN
from sweep import function

LIR = os.path.join(os.path.dirname(os.path.abspath(__file__)), "..", "..", "crates", "lir")
IMAGES = {name: data.hex() for name, data, _ in CASES}

# What looks at a state and changes nothing.
LOOKS = ["dump", "live 8"]

# The incident, step by step.
INCIDENT = ["fresh", "image " + MARCH.hex(), "start 0 U64 0"] + [line for _ in range(4) for line in [*LOOKS, "step"]] + [*LOOKS, "read 0 8", "run 9"]

COMMANDS = [
    "dump", "live 0", "rewrite 0", "run 0", "step", "start 0 U64 0",
    "image -", "read 0 1",
    "image " + IMAGES["p1"], "rewrite 24", "rewrite 23", "run 5", "step",
    "start 0 U64 0", "start 1 U64 0", "start 0 U64 0 U8 1 U8 2", "start 0 Char 55296 U8 1", "start 0 U64 0 Char 1114112", "start 0 Char 1114111 U8 41",
    "start 0 U64 0 U8 41", "run 0", "run 1", "dump", "run 4294967295", "dump", "run 1",
    "fresh", "dump", "start 0 U64 0 U8 255", "run 9", "dump",
    "fresh", "start 0 U64 0 U8 7", "step", "step", "step",
    "fresh", "allocate 0", "allocate 8", "allocate 32760", "allocate 1", "allocate 18446744073709551615", "live 4096", "live 2",
    "write 1 0102030405060708", "read 1 8", "read 1 4", "read 1 0", "read 0 0", "read 0 1", "read 3 0", "write 0 -", "write 1 ABcdEF", "write 1 AbCd",
    "read 1 8", "write 1 000102030405060708", "write 9 00",
    "image " + IMAGES["constant"], "fresh", "start 0 U64 0", "step", "dump", "read 1 2", "read 1 3", "read 1 4", "write 1 00", "run 99", "dump", "live 9",
    "image " + IMAGES["p1"], "read 1 3", "image " + IMAGES["cut"], "read 1 3", "run 1", "step", "rewrite 99", "start 0 U64 0", "allocate 1",
    "image " + IMAGES["sum"], "fresh", "start 0 U64 0 U32 3", "run 7", "run 7", "run 7", "run 7", "step",
    "image " + IMAGES["repaired"], "fresh", "start 0 Pointer 0", "run 3", "dump", "live 3", "run 100", "dump",
    "image " + IMAGES["reused"], "fresh", "start 0 U64 0", "run 4", "dump", "live 3", "run 100", "fresh",
    # every kind
    *[line for kind, bits in [
        ("Bool", 1), ("U8", 255), ("U16", 65535), ("U32", 4294967295), ("U64", 18446744073709551615), ("I8", 255), ("I16", 65535), ("I32", 4294967295),
        ("I64", 18446744073709551615), ("F32", 4294967295), ("F64", 18446744073709551615), ("Char", 4294967295), ("Asn", 4294967295),
        ("Pointer", 18446744073709551615)] for line in ["fresh", f"start 0 {kind} {bits}", "dump"]],
]

BAD = [
    "", " ", "  dump", "dump ", "Dump", "dump\r", "\r", "run 5\r", "dump dump", "help", "fresh 1", "step 1", "poke", "poke ", "poke nothing", "poke counter",
    "image", "image ", "image 0", "image 0g", "image 00 00", "image --", "image 0000 -", "image -0",
    "allocate", "allocate -", "allocate 1 2", "allocate 01", "allocate 00", "allocate +1", "allocate -1", "allocate 18446744073709551616", "allocate 1a",
    "allocate  1", "write", "write 0", "write 0 1", "write x 00", "write 0 00 00", "read", "read 0", "read 0 32769", "read 0 1 1", "read  0 1",
    "start", "start 0", "start 0 U64", "start 0 u64 0", "start 0 U64 0 U8", "start 0 U8 256", "start 0 Bool 2", "start 0 Char 4294967296", "start 0 F32 4294967296",
    "start 0 U64 0 U8 256", "start 0 U64 0 Nothing 1", "start x U64 0", "start 0 U64 0 ", "start 0" + " U8 1" * 65, "start 0" + " U8 1" * 66,
    "run", "run 4294967296", "run 1 1", "live", "live 4097", "live 1 1", "rewrite", "rewrite 32769", "rewrite 1 1",
    "poke counter x", "poke counter 1 1", "poke next", "poke running 2", "poke running", "poke var 256 U8 1", "poke var 0 U8 256", "poke var 0 U8", "poke var 0 X 1",
    "poke var 0 U8 1 U8 2", "poke unset 256", "poke unset", "poke frame 1 1", "poke frame 1 1 18446744073709551615", "poke frame 1 1 - -", "poke id 1 1", "poke id 0",
    "poke place 1 1", "poke place 0 x", "poke rvar 1 -", "poke rvar 0 --", "poke local 0 0 0", "poke local 0 0 0 0 0", "poke const 1", "poke const 1 1 1", "dump",
]

# Each asks first whether the state is sound, after it has loaded its image.
ASKS = ["step", "run 3", "start 0 U64 0 U8 1", "read 0 0", "write 0 -", "allocate 0", "live 4096"]


def unsound(*pokes):
    return ["fresh", "image " + IMAGES["p1"], *pokes, *ASKS]


POKES = [
    *unsound("poke counter 0", "dump"), *unsound("poke counter 4294967296", "dump"), "poke counter 4294967295", "run 0",
    *unsound("poke next 4097", "dump"), "poke next 4096", "poke running 1", "run 0", "step",
    *unsound("poke frame 0 0 -", "dump"), *unsound("poke counter 9", "poke frame 5 4096 255", "dump"), "poke running 1", "dump", "run 0", "allocate 3", "dump",
    *unsound("poke running 1", "poke counter 9", "poke frame 5 4097 -", "dump"), *unsound("poke running 1", "poke counter 9", "poke frame 5 1 256", "dump"),
    *unsound("poke running 1", "poke frame 1 1 18446744073709551614", "dump"),
    *unsound("poke id 0 1", "dump"), *unsound("poke place 0 4097", "dump"), *unsound("poke rvar 0 256", "dump"), "poke rvar 0 255", "dump", "run 0", "poke rvar 0 -", "dump",
    *unsound("poke var 3 Char 55296", "dump"), "poke unset 3", "dump", "live 0", "poke var 255 Char 55295", "poke var 0 I8 255", "dump", "live 0",
    *unsound("poke running 1", "poke counter 300", *[f"poke frame {id} 1 {id}" for id in range(1, 64)], "dump"), "run 0",
    *unsound("poke frame 200 1 -", "dump", "poke id 64 7", "poke place 64 7", "poke rvar 64 7", "poke id 65 7", "dump"),
    *unsound("poke local 0 0 0 0", "poke local 18446744073709551615 1 2 3", "dump"), "poke const 9 3", "dump", "live 5", "live 4", "read 2 0", "write 2 -",
    *unsound("poke const 1 4096", "live 4095"), "poke const 1 1", "live 4096", "run 1", "poke local 0 0 0 0", "allocate 1",
    *unsound("poke const 0 18446744073709551615", "poke const 0 1", "poke local 0 0 0 0"),
    "fresh", "poke running 1", "poke running 0", "dump", "image " + IMAGES["march"], "poke running 1", "poke next 1", "poke local 0 0 0 0", "poke var 2 Pointer 0", "step",
    "poke local 1 0 0 0", "poke var 2 Pointer 1", "step", "poke var 2 Pointer 2", "step", "poke var 2 U8 2", "step", "poke unset 2", "step", "dump",
]

# Adds 1 to the offset of the pointer that is its context, twice.
FAR = program(3, [], [function(entry=0)], [[(OFFSET, 2, variable(1), 1), (OFFSET, 2, variable(2), 1), (RETURN, variable(2))]])

# The last id and the last offset: what no run from fresh memory comes to.
ENDS = [
    "fresh", "image " + MARCH.hex(), "start 0 U64 0", "poke counter 4294967295", "step", "dump", "poke counter 4294967294", "step", "dump",
    "fresh", "image " + FAR.hex(), "start 0 Pointer 0", "poke local 0 0 0 18446744073709551614", "step", "step", "dump", "live 2",
]

# The longest line and one that is longer, and the last line without its end.
LONG = ["image " + "Ab" * 131069, "step", "read 0 0", "image " + "ab" * 131069 + "a", "write 0 " + "00" * 32769, "dump"]


def main():
    lines = COMMANDS + BAD + POKES + ENDS + LONG + INCIDENT
    console = Console()
    with open(os.path.join(LIR, "stdin"), "wb") as out:
        out.write("\n".join(lines).encode())
    with open(os.path.join(LIR, "stdout"), "w") as out:
        out.writelines(console.line(line.encode()) + "\n" for line in lines)


if __name__ == "__main__":
    main()
