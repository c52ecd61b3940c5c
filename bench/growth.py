#!/usr/bin/env python3
"""growth.py [POWER..]: how do the seconds and the memory of a check grow with the file?

Makes one run of eight threads, cuts it at 2^POWER records (2^18 to 2^22, the most that a file may have), in
the order of time and one thread after another, and runs `taskaudit check`, `wc -l`, `probe stopwatch values` and
`probe stopwatch read` on the same files. The least seconds of nine rounds count.

Where a task has no children left it may wait once more, so that 2^22 records have fewer than 2^20 tasks, as
many as a file may have.
"""

import math
import os
import sys
import tempfile

from common import HEADER, LIMIT, ORDERS, PROGRAM, STOPWATCH, numbers_of, peak, row, table, timed, write_lines
from traces import long_records

ROUNDS = 9
COMMANDS = [[PROGRAM, "check"], ["wc", "-l"], [*STOPWATCH, "values"], [*STOPWATCH, "read"]]


def least_of_rounds(paths):
    """By power the least seconds of each command. Each round runs all sizes once, so that a machine that
    is slower for a while is slower for all of them."""
    least = {power: [LIMIT] * len(COMMANDS) for power in paths}
    for _ in range(ROUNDS):
        for power, path in paths.items():
            seconds = [timed(command, path)[0] or LIMIT for command in COMMANDS]
            least[power] = [min(pair) for pair in zip(least[power], seconds)]
    return least


def show(path, size, least):
    """Prints what each command takes at one size, and the memory of the program."""
    seconds = ["cut" if it >= LIMIT else f"{it:.3f}" for it in least]
    megabytes, memory = os.path.getsize(path) / 1e6, peak([PROGRAM, "check"], path)
    row(f"{size:,}", f"{megabytes:.0f}", *seconds, f"{memory:.0f}", f"{least[0] / size * 1e9:.0f}")


def grow(title, paths):
    """Prints a table, and the exponent between the least and the greatest size."""
    least = least_of_rounds(paths)
    print(f"\n{title.capitalize()}\n")
    table("Records", "MB", "taskaudit, s", "wc -l, s", "values, s", "read, s", "Peak MB", "ns a record")
    for power, path in paths.items():
        show(path, 2**power, least[power])
    low, high = min(paths), max(paths)
    if low < high:
        exponent = math.log(least[high][0] / least[low][0], 2) / (high - low)
        print(f"\nExponent from 2^{low} to 2^{high} in seconds: {exponent:.2f}", flush=True)


def main():
    powers = numbers_of(sys.argv[1:], __doc__, 22) or list(range(18, 23))
    records = long_records(2**max(powers))
    with tempfile.TemporaryDirectory() as folder:
        paths = {power: os.path.join(folder, f"trace{power}") for power in powers}
        for title, order in ORDERS:
            for power, path in paths.items():
                part = records[:2**power]
                if order == "threads":
                    part.sort(key=lambda record: record[0])
                write_lines(path, [HEADER] + [line for _, line in part])
            grow(title, paths)


if __name__ == "__main__":
    main()
