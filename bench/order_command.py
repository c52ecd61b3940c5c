#!/usr/bin/env python3
"""order_command.py [SIZE]: how many instructions does `taskaudit order` take compared with `taskaudit
check`?

Counts both on traces of SIZE records (65,536) and of twice as many.

The files: a run in the order of time, the same one thread after another, and a run of 256 threads, one after
another; each unchanged, a yes, and with a wait at its end that names the whole ledger and ends before its
task ran, a no in the last record. Valgrind counts, so the figures are the same on a busy machine.
"""

import json
import os
import sys
import tempfile

from common import PROGRAM, instructions_of, numbers_of, row, table, trace
from phases import NEW_TASK, begun

WORDS = ("check", "order")
# The files, each with the words of traces.py for it. Of the 256 threads one is left for the early wait.
FILES = (("in the order of time", ["time"]), ("one thread after another", ["threads"]),
         ("256 threads, one after another", ["threads", "255"]))


def with_an_early_wait(lines):
    """The records, and then a wait of a new initial task that ends, with the whole ledger seen, before its
    task ran."""
    start = begun(lines)
    entries = sum('"path"' in line for line in lines)
    parent, child = NEW_TASK, NEW_TASK + 1
    record = {"thread": start["thread"], "seen": 0}
    wait = {**record, "cb": "sync_region", "kind": "taskwait", "parallel": None, "task": parent}
    last = [
        start,
        {**record, "cb": "task_create", "seq": 1, "task": parent, "child": child, "deps": False,
         "flags": ["explicit"]},
        {**wait, "seq": 2, "endpoint": "begin"},
        {**wait, "seq": 3, "endpoint": "end", "seen": entries},
    ]
    return lines + [json.dumps(it) for it in last]


def show(name, answer, path, files):
    """Prints a row for each file, which must have this answer."""
    earlier = None
    for lines in files:
        check, order = (instructions_of([PROGRAM, word], path, lines, f"{answer}: ") for word in WORDS)
        growth = f"{order / earlier:.2f}" if earlier else ""
        earlier = order
        row(name, answer, f"{len(lines) - 1:,}", f"{check / 1e6:.1f}", f"{order / 1e6:.1f}",
            f"{order / check:.2f}", growth)


def main():
    size = (numbers_of(sys.argv[1:], __doc__) or [2**16])[0]
    table("File", "Answer", "Records", *(f"`{word}`, millions" for word in WORDS), "Quotient",
          "Growth of `order`")
    with tempfile.TemporaryDirectory() as folder:
        path = os.path.join(folder, "trace")
        for name, words in FILES:
            files = [trace(count, *words) for count in (size, 2 * size)]
            show(name, "yes", path, files)
            show(name, "no", path, [with_an_early_wait(lines) for lines in files])


if __name__ == "__main__":
    main()
