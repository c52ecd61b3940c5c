#!/usr/bin/env python3
"""workers.py [POWER..]: how many seconds do workers save?

Takes the seconds of `taskaudit check` and those of `check --workers` with 1, 2 and 4 workers, on runs of
2^POWER records (2^20 and 2^22) in the order of time. The commands take turns, all sizes in each round, and
the least of five rounds counts, since a shared machine is sometimes slower. The load of the machine before
and after is printed. All answers must be the same.
"""

import os
import sys
import tempfile

from common import PROGRAM, numbers_of, row, table, timed, write_long_trace

ROUNDS = 5
WORKERS = (1, 2, 4)
COMMANDS = [[PROGRAM, "check"], *([PROGRAM, "check", "--workers", str(workers)] for workers in WORKERS)]


def round_of(path):
    """The seconds of each command on a file, which must all answer the same."""
    runs = [timed(command, path) for command in COMMANDS]
    if None in [seconds for seconds, _, _ in runs] or len({answer for _, _, answer in runs}) != 1:
        sys.exit(f"the answers are {[answer for _, _, answer in runs]}")
    return [seconds for seconds, _, _ in runs]


def show(size, rounds):
    """Prints the least seconds of each command at one size, and how many times those of `check` they are."""
    least = [min(seconds) for seconds in zip(*rounds)]
    times = [it for seconds in least[1:] for it in (f"{seconds:.2f}", f"{seconds / least[0]:.2f}")]
    row(f"{size:,}", f"{least[0]:.2f}", *times)


def main():
    powers = numbers_of(sys.argv[1:], __doc__, 22) or [20, 22]
    with tempfile.TemporaryDirectory() as folder:
        paths = {2**power: os.path.join(folder, f"trace{power}") for power in powers}
        for size, path in paths.items():
            write_long_trace(path, size, "time")
        before = os.getloadavg()[0]
        rounds = [{size: round_of(path) for size, path in paths.items()} for _ in range(ROUNDS)]
    names = [f"{workers} worker{'s' * (workers > 1)}, s" for workers in WORKERS]
    table("Records", "`check`, s", *(it for name in names for it in (name, "times")))
    for size in paths:
        show(size, [it[size] for it in rounds])
    print(f"\nLoad of the last minute before and after: {before:.1f}, {os.getloadavg()[0]:.1f}.")


if __name__ == "__main__":
    main()
