"""Reads the stored lists of answers."""

import os

import values

HERE = os.path.dirname(os.path.abspath(__file__))
LISTS = ("programs.txt", "entries.txt", *values.LISTS)


def lines_of(name):
    with open(os.path.join(HERE, name), encoding="ascii") as listed:
        return listed.read().splitlines()


def records(lines):
    """Each record's lines: its last begins with Z."""
    record = []
    for line in lines:
        record.append(line)
        if line.startswith("Z"):
            yield record
            record = []
    if record:
        yield record


def stored(name):
    """The records of a list, each with its case first."""
    return values.records(name) if name in values.LISTS else list(records(lines_of(name)))


def orders():
    """The console lines of orders.in, and their answers in orders.out."""
    return lines_of("orders.in"), lines_of("orders.out")
