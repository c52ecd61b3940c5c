#!/usr/bin/env python3
"""phases.py [POWER..]: how many instructions do reading, the causes, the order and the waits take, each
alone?

Counts them on runs of 2^POWER records (2^12 to 2^17). Valgrind counts, so the figures are the same on a busy
machine.

The phases follow one another, so each is the difference between two runs that end one phase apart:
`probe stopwatch read` ends after reading; a file whose last record claims a wrong share is malformed once all
causes to ShareWrong were looked for; a file whose last record creates a task for a device is malformed once
the order was found; the file itself goes to the end.
"""

import json
import os
import sys
import tempfile

from common import ORDERS, PROGRAM, STOPWATCH, instructions_of, numbers_of, row, table, trace

# An id that no run has.
NEW_TASK = 1_000_000_000


def begun(lines):
    """The begin of an initial task, the first record of a thread of its own."""
    thread = 1 + max(json.loads(line)["thread"] for line in lines[1:])
    return {"actual": 1, "cb": "implicit_task", "endpoint": "begin", "flags": ["initial"], "index": 0,
            "parallel": 0, "seen": 0, "seq": 0, "task": NEW_TASK, "thread": thread}


def turns_of(lines, prior, following):
    """These turns, as members of a record in a file of version 2 or 3."""
    is_told = json.loads(lines[0])["version"] >= 2
    return {"prior_turn": prior, "next_turn": following} if is_told else {}


def with_a_wrong_share(lines):
    """The records, and then a task that claims another share than its own when it is complete."""
    start = begun(lines)
    parent, child = NEW_TASK, NEW_TASK + 1
    record = {"seen": 0, "thread": start["thread"]}
    schedule = {**record, "cb": "task_schedule"}
    last = [
        start,
        {**record, "cb": "task_create", "seq": 1, "task": parent, "child": child, "deps": False,
         "flags": ["explicit"]},
        {**schedule, "seq": 2, "status": "switch", "prior": parent, "next": child, **turns_of(lines, 0, 0)},
        {**schedule, "seq": 3, "status": "complete", "prior": child, "next": parent, "root": parent,
         "kept": 0, "path": [1], **turns_of(lines, 0, 1)},
    ]
    return lines + [json.dumps(it) for it in last]


def with_a_device(lines):
    """The records, and then a task for a device."""
    start = begun(lines)
    last = {"cb": "task_create", "seq": 1, "seen": 0, "thread": start["thread"], "task": NEW_TASK,
            "child": NEW_TASK + 1, "deps": False, "flags": ["target"]}
    return lines + [json.dumps(it) for it in (start, last)]


def to_read(path, lines):
    """The instructions of reading alone."""
    return instructions_of([*STOPWATCH, "read"], path, lines, f"{len(lines) - 1} records")


def to_the_causes(path, lines):
    """The instructions up to the end of the search for the causes to ShareWrong."""
    return instructions_of([PROGRAM, "check"], path, with_a_wrong_share(lines), "cause 11 ShareWrong")


def phases(path, size, order):
    """The instructions of each phase on the run of this many records in this order."""
    lines = trace(size, order)
    check = [PROGRAM, "check"]
    ends = [
        to_read(path, lines),
        to_the_causes(path, lines),
        instructions_of(check, path, with_a_device(lines), "cause 16 TargetTask"),
        instructions_of(check, path, lines, "yes: "),
    ]
    return [ends[0]] + [later - earlier for earlier, later in zip(ends, ends[1:])]


def main():
    powers = numbers_of(sys.argv[1:], __doc__, 22) or range(12, 18)
    with tempfile.TemporaryDirectory() as folder:
        path = os.path.join(folder, "trace")
        for title, order in ORDERS:
            print(f"\nMillions of instructions, {title}\n")
            table("Records", "Read", "Causes", "Order", "Waits", "Growth of each")
            earlier = None
            for power in powers:
                now = phases(path, 2**power, order)
                growth = [f"{b / a:.1f}" for a, b in zip(earlier, now)] if earlier else []
                row(f"{2**power:,}", *(f"{one / 1e6:.1f}" for one in now), ", ".join(growth))
                earlier = now


if __name__ == "__main__":
    main()
