"""Replays the lists that the Rust answered on the reference machine, with no Rust at hand."""

import sys

from play import Teller, played
from stored import LISTS, stored


def main():
    count = differ = 0
    for case, *told in (record for name in LISTS if name != "entries.txt" for record in stored(name)):
        machine, said = played(case[2:])
        found = [line for line in said if line[0] in "HA"] + ["Z " + Teller().tell(machine)]
        count += 1
        if found != told:
            differ += 1
            print(f"differs: {case}\n  list: {told}\n  machine: {found}")
    print(f"{count} records replayed, {differ} differ")
    sys.exit(1 if differ else 0)


if __name__ == "__main__":
    main()
