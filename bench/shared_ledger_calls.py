#!/usr/bin/env python3
"""shared_ledger_calls.py [CALLS [RUNS]]: how many nanoseconds does a call of a ledger that threads share
take, compared with a list behind a mutex?

The threads of `probe stopwatch` make CALLS calls (200,000), or ten times as many of `look` and `len`, split among
1, 2, 4 or 8 threads; a row has the time of the whole over the number of calls. `alone` is what the same
entries take in a ledger of one thread: about what an `enter` does in its turn; its share is of `enter`. An
entry is made before each call that takes one. The least of RUNS runs (5).
"""

import sys

from common import STOPWATCH, numbers_of, row, table, timed

# Each piece of work, and how many times CALLS of it are made.
WORKS = (("enter", 1), ("one-enter", 1), ("look", 10), ("push", 1), ("len", 10))


def least(work, calls, threads, runs):
    """The nanoseconds a call of the quickest run. `probe` prints them for a call of each thread."""
    command = [*STOPWATCH, work, str(calls // threads), str(threads)]
    return min(int(timed(command)[2]) for _ in range(runs)) / threads


def main():
    numbers = numbers_of(sys.argv[1:], __doc__, 2)
    calls, runs = numbers + [200_000, 5][len(numbers):]
    table("Threads", "`enter`", "alone", "its share", "`look`", "mutex: `push`", "mutex: `len`")
    for threads in (1, 2, 4, 8):
        enter, alone, *others = (least(work, factor * calls, threads, runs) for work, factor in WORKS)
        share = f"{100 * alone / enter:.0f} %"
        row(str(threads), f"{enter:,.0f}", f"{alone:,.0f}", share, *(f"{it:,.0f}" for it in others))


if __name__ == "__main__":
    main()
