#!/usr/bin/env python3
"""shape_instructions.py [SIZE]: does a file of some shape cost more instructions than its size?

Counts the instructions of `taskaudit check` without reading, at SIZE records (65,536) of shapes that could
cost more, and at twice as many. Valgrind counts, so the figures are the same on a busy machine.
"""

import os
import sys
import tempfile

import shapes
from common import PROGRAM, STOPWATCH, instructions_of, numbers_of, row, table

# Each shape, and the start of its answer.
SHAPES = [
    ("all ten callbacks, in a team of 8", shapes.all_callbacks, "yes: "),
    ("waits of one task, all children before each", shapes.waits, "yes: "),
    ("taskgroups one in another", shapes.groups, "yes: "),
    ("a chain of 1,000 with leaves", shapes.chain, "yes: "),
    ("unfinished waits only", shapes.unfinished_waits, "no: "),
    ("a team of 256, as many barriers as fit", shapes.team_of_256, "yes: "),
    ("siblings that all write one location", shapes.writers, "yes: "),
    ("siblings that read and write one location in turn", shapes.alternating, "yes: "),
    ("siblings with 64 dependences each", shapes.long_lists, "yes: "),
]


def counted(lines, path, answer):
    """The instructions of a check of these lines without reading."""
    reading = instructions_of([*STOPWATCH, "read"], path, lines, f"{len(lines) - 1} records")
    return instructions_of([PROGRAM, "check"], path, lines, answer) - reading


def main():
    size = (numbers_of(sys.argv[1:], __doc__) or [2**16])[0]
    table("Shape", "Records", "A check without reading, millions", "A record", "Growth")
    with tempfile.TemporaryDirectory() as folder:
        path = os.path.join(folder, "trace")
        for name, shape, answer in SHAPES:
            before = None
            for lines in (shape(size), shape(2 * size)):
                records, count = len(lines) - 1, counted(lines, path, answer)
                growth = f"{count / before:.2f}" if before else ""
                row(name, f"{records:,}", f"{count / 1e6:.1f}", f"{count / records:,.0f}", growth)
                before = count


if __name__ == "__main__":
    main()
