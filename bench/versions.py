#!/usr/bin/env python3
"""versions.py [POWER..]: what does a check cost in each version of the file format?

Counts the instructions a record of `taskaudit check` by Valgrind, and the peak memory, on one run of 2^POWER
records (2^18 and 2^20) that is written in versions 1, 2 and 3 (`upgrade`), in the order of time and one thread
after another; and on as many records of a thread whose tasks begin parallel regions inside one another, in
version 3.
"""

import json
import os
import subprocess
import sys
import tempfile

from common import ORDERS, PROGRAM, instructions, numbers_of, peak, row, table, write_lines, write_long_trace

CHECK = [PROGRAM, "check"]
VERSIONS = (1, 2, 3)
# So many regions are inside one another.
DEPTH = 8


def upgraded(path, version):
    """The path of the file in this version."""
    new = f"{path}.{version}"
    with open(path, "rb") as source, open(new, "wb") as sink:
        subprocess.run([PROGRAM, "upgrade", "--to", str(version)], stdin=source, stdout=sink, check=True)
    return new


def root(endpoint, task, parallel):
    """The begin or end of a root: of the region, or of the initial task."""
    return {"cb": "implicit_task", "endpoint": endpoint, "parallel": parallel, "task": task, "actual": 1, "index": 0,
            "flags": ["implicit" if parallel else "initial"]}


def round_of(first):
    """The records in which the initial task 0 begins a region, whose member begins one, and so on; tasks and
    regions have numbers from this one on."""
    tasks = [0, *range(first, first + DEPTH)]
    pairs = [*zip(tasks, tasks[1:])]
    down = [it for task, inner in pairs for it in (
        {"cb": "parallel_begin", "task": task, "parallel": inner, "requested": 1}, root("begin", inner, inner))]
    up = [it for task, inner in reversed(pairs) for it in (
        root("end", inner, inner), {"cb": "parallel_end", "task": task, "parallel": inner})]
    return down + up


def nested(size):
    """The lines of at most so many records in which regions are inside one another."""
    records = [root("begin", 0, 0)]
    while len(records) + 4 * DEPTH < size:
        records += round_of(len(records))
    records.append(root("end", 0, 0))
    header = {"format": "task-credit-audit", "version": 3}
    places = [{"thread": 0, "seq": seq, "seen": 0} for seq in range(len(records))]
    lines = [header, *({**record, **place} for record, place in zip(records, places))]
    return [json.dumps(it, sort_keys=True, separators=(",", ":")) for it in lines]


def figures(path, size):
    """The instructions a record and the memory of a check, which must say yes."""
    count, text = instructions(CHECK, path)
    if not text.startswith("yes: "):
        sys.exit(f"the answer is {text}")
    return f"{count / size:,.0f}", f"{peak(CHECK, path):.0f}"


def main():
    powers = numbers_of(sys.argv[1:], __doc__, 22) or (18, 20)
    table("File", "Records", *(f"version {it}{of}" for it in VERSIONS for of in ("", ", MB")))
    with tempfile.TemporaryDirectory() as folder:
        path = os.path.join(folder, "trace")
        for title, order in ORDERS:
            for power in powers:
                write_long_trace(path, 2**power, order)
                cells = [it for version in VERSIONS
                         for it in figures(path if version == 1 else upgraded(path, version), 2**power)]
                row(title, f"{2**power:,}", *cells)
        for power in powers:
            lines = nested(2**power)
            write_lines(path, lines)
            row(f"regions {DEPTH} deep", f"{len(lines) - 1:,}", *[""] * 4, *figures(path, len(lines) - 1))


if __name__ == "__main__":
    main()
