#!/usr/bin/env python3
"""shape_seconds.py: does a file of some shape cost more seconds than its size?

Makes files of full size whose shape could cost more, and compares the seconds that a record takes with those
of a run of the nearest size in the order of time. The two files are checked by turns, and the least of five
rounds counts for each, so that a machine that is slower for a while is slower for both.
"""

import math
import os
import re
import sys
import tempfile

from common import HEADER, LIMIT, PROGRAM, peak, row, table, timed, write_lines
from shapes import Thread, unfinished_waits, team_of_256, waits, writers
from traces import long_records

CHECK = [PROGRAM, "check"]
TASKS = 2**20
POWERS = range(18, 23)
ROUNDS = 5


def chain():
    """Tasks that create one another, each run by the one before it."""
    thread = Thread()
    for task in range(1, TASKS):
        thread.create(task, task + 1)
        thread.switch(task, task + 1)
    return thread.lines


def caterpillar():
    """A chain of 2^19 tasks with a leaf at each."""
    thread = Thread()
    for number in range(TASKS // 2 - 1):
        task = 2 * number + 1
        thread.create(task, task + 1)
        thread.create(task, task + 2)
        thread.switch(task, task + 2)
    return thread.lines


def children():
    """Children of one task."""
    thread = Thread()
    for number in range(TASKS - 1):
        thread.run_child(number)
    return thread.lines


def groups():
    """2^15 taskgroups one in another, and a child in each."""
    thread = Thread()
    for number in range(2**15):
        thread.region("taskgroup", "begin")
        thread.run_child(number)
    for _ in range(2**15):
        thread.region("taskgroup", "end")
    return thread.lines


def scattered(size):
    """An ordinary run whose ids are spread over 64 bits."""
    def spread(number):
        return number * 0x9E3779B97F4A7C15 % 2**64 or 1

    lines = [HEADER]
    for _, line in long_records(size):
        for word in ("child", "next", "prior", "root", "task"):
            line = re.sub(rf'"{word}":(\d+)', lambda found: f'"{word}":{spread(int(found[1]))}', line)
        lines.append(line)
    return lines


def apart(size):
    """An ordinary run of 256 threads, one thread after another."""
    records = sorted(long_records(size, 256), key=lambda record: record[0])
    return [HEADER] + [line for _, line in records]


SHAPES = {
    "a chain of 2^20 tasks": chain,
    "a chain of 2^19 tasks with a leaf at each": caterpillar,
    "2^20 children of one task": children,
    "2^15 taskgroups one in another": groups,
    "2^19 waits of one task, all children before each": lambda: waits(2**20),
    "siblings that all write one location": lambda: writers(2**22 - 64),
    "unfinished waits only": lambda: unfinished_waits(2**21 - 64),
    "ids all over 64 bits": lambda: scattered(2**20),
    "256 threads, one after another": lambda: apart(2**21),
    "a team of 256 with barriers": lambda: team_of_256(2**21),
}


def write_ordinary(folder):
    """By size the files of ordinary runs of 2^18 to 2^22 records in the order of time."""
    records = long_records(2**POWERS[-1])
    paths = {2**power: os.path.join(folder, f"ordinary{power}") for power in POWERS}
    for size, path in paths.items():
        write_lines(path, [HEADER] + [line for _, line in records[:size]])
    return paths


def show(name, lines, path, ordinary):
    """Prints what a check of these lines takes, and how many times that of an ordinary run of the nearest
    size it is."""
    size = len(lines) - 1
    write_lines(path, lines)
    del lines
    usual = min(ordinary, key=lambda it: abs(math.log(size / it)))
    rounds = [(timed(CHECK, path), timed(CHECK, ordinary[usual])) for _ in range(ROUNDS)]
    seconds, usual_seconds = (min(run[0] or LIMIT for run in runs) for runs in zip(*rounds))
    answer = rounds[0][0][2]
    each = seconds / size
    row(name, f"{size:,}", f"{os.path.getsize(path) / 1e6:.0f}", f"{seconds:.2f}", f"{peak(CHECK, path):.0f}",
        f"{each * 1e9:.0f}", f"{each / (usual_seconds / usual):.2f}", answer.split(":")[0])


def main():
    if sys.argv[1:]:
        sys.exit(__doc__)
    with tempfile.TemporaryDirectory() as folder:
        path = os.path.join(folder, "trace")
        ordinary = write_ordinary(folder)
        table("Shape", "Records", "MB", "Seconds", "Peak MB", "ns a record", "Times the ordinary run",
              "Answer")
        for name, make in SHAPES.items():
            show(name, make(), path, ordinary)


if __name__ == "__main__":
    main()
