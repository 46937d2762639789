#!/usr/bin/env python3
"""The reference: what a source is, read by its rules alone.

    reference.py FILE                     prints the scenario of a source as JSON
    reference.py FILE NAME ARGUMENT..     prints the program of this name with these arguments

A fault is said as stmrun says it, with status 2."""
import json
import re
import sys

from lowering import lowered_program
from reader import read
from tokens import Fault
from tree import Literal


def compact(value):
    return json.dumps(value, separators=(",", ":"), ensure_ascii=False)


def argument(word):
    """Returns what a word of a command line stands for: a whole number of 64 bits by its spelling is a number."""
    if re.fullmatch(r"-?(0|[1-9][0-9]*)", word) and word != "-0" and -(2**63) <= int(word) < 2**63:
        return Literal(0, int(word))
    return Literal(0, word)


def program_of(source, name, words):
    """Returns the program of a name. A rule or a final is that of its own arguments."""
    for asked in source.asked:
        if asked.name == name:
            return lowered_program(asked.program, asked.arguments)
    return lowered_program(source.programs[name], [argument(it) for it in words])


def main(words):
    with open(words[0], "rb") as file:
        text = file.read()
    try:
        source = read(text)
    except Fault as fault:
        line, column = fault.place(fault.text)
        print(f"stmrun: bad source at {line}:{column}: {fault.cause}", file=sys.stderr)
        return 2
    print(compact(program_of(source, words[1], words[2:]) if words[1:] else source.events))
    return 0


if __name__ == "__main__":
    sys.exit(main(sys.argv[1:]))
