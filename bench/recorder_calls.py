#!/usr/bin/env python3
"""recorder_calls.py [CALLS [RUNS]]: how many nanoseconds does a call of a recorder take, and how many bytes
a record?

Runs 1, 2, 4 and 8 threads that share a ledger. Each thread of `probe stopwatch` makes CALLS calls (200,000): it
creates tasks; switches to a task and back; creates a task, switches to it, and the task is complete; begins
and ends a taskwait. `list` puts the records of creations into one list behind a mutex, with no recorder. A
complete task is the time of the three calls beyond a creation and a switch. The least of RUNS runs (5).
Bytes are the additional peak memory of the process for twice as many calls, and instructions, which Valgrind
counts on one thread, the additional ones.
"""

import os
import sys

from common import STOPWATCH, instructions, numbers_of, row, table, timed

# The number of pieces of work that measure the bytes.
MANY = 2**19
# The number of pieces whose instructions are counted.
COUNTED = 2**14
# How many records each piece of the work makes.
RECORDS = {"create": 1, "switch": 2, "finish": 3, "region": 2, "list": 1}


def run(work, pieces, threads):
    """The nanoseconds a piece of the work, and the peak of the process in bytes."""
    _, memory, text = timed([*STOPWATCH, work, str(pieces), str(threads)])
    return int(text), memory * 2**20


def least(work, pieces, threads, runs):
    """The nanoseconds a piece of the quickest run."""
    return min(run(work, pieces, threads)[0] for _ in range(runs))


def bytes_of(work):
    """The bytes a record: the additional memory of twice as many records. Before it runs, a process has
    the size of this one."""
    more = run(work, 2 * MANY, 1)[1] - run(work, MANY, 1)[1]
    return more / (RECORDS[work] * MANY)


def counted(work):
    """The instructions of a piece of the work: the additional ones of twice as many."""
    more, less = (instructions([*STOPWATCH, work, str(pieces), "1"], os.devnull)[0]
                  for pieces in (2 * COUNTED, COUNTED))
    return (more - less) / COUNTED


def parts(create, two_switches, finish):
    """What a switch and a complete task take, from a creation, two switches, and a task from its creation to
    its end."""
    switch = two_switches / 2
    return switch, finish - create - switch


def main():
    numbers = numbers_of(sys.argv[1:], __doc__, 2)
    calls, runs = numbers + [200_000, 5][len(numbers):]
    table("Threads", "create", "switch", "complete", "region begin and end", "list behind a mutex")
    for threads in (1, 2, 4, 8):
        times = {work: least(work, calls, threads, runs) for work in RECORDS}
        switch, complete = parts(times["create"], times["switch"], times["finish"])
        figures = (times["create"], switch, complete, times["region"], times["list"])
        row(str(threads), *(f"{it:,.0f}" for it in figures))
    print("\nBytes a record:", ", ".join(f"{work} {bytes_of(work):.0f}" for work in RECORDS))
    counts = {work: counted(work) for work in RECORDS}
    switch, complete = parts(counts["create"], counts["switch"], counts["finish"])
    print(f"Instructions: create {counts['create']:,.0f}, switch {switch:,.0f}, complete {complete:,.0f}, "
          f"region {counts['region']:,.0f}")


if __name__ == "__main__":
    main()
