#!/usr/bin/env python3
"""large_pages.py [POWER..]: how many seconds do large pages save, and how much memory do they cost?

Takes the seconds and the peak memory of `taskaudit check` without GLIBC_TUNABLES, and with the setting of the
script `taskaudit`, by which glibc asks for pages of 2 MB for large blocks. The files are runs of eight
threads of 2^POWER records (2^10, 2^14, 2^17 and 2^20) in the order of time. The two take turns, all sizes in
each round, and the least seconds and the greatest memory of 25 rounds count. All answers must be the same.

No peak is less than that of the Python that starts the program. The two differ only where the system gives
large pages to those who ask for them (`madvise`): its setting is printed, and the load of the machine before
and after.
"""

import os
import re
import sys
import tempfile

from common import PROGRAM, numbers_of, row, table, timed, write_long_trace

ROUNDS = 25
NAME, SETTING = "GLIBC_TUNABLES", "glibc.malloc.hugetlb=1"
WITHOUT = {name: value for name, value in os.environ.items() if name != NAME}
ENVIRONMENTS = (WITHOUT, {**WITHOUT, NAME: SETTING})
SYSTEM = "/sys/kernel/mm/transparent_hugepage/enabled"


def round_of(path):
    """Seconds and peak memory on a file, first without large pages. Both must answer the same."""
    runs = [timed([PROGRAM, "check"], path, environment=it) for it in ENVIRONMENTS]
    if None in [seconds for seconds, _, _ in runs] or len({answer for _, _, answer in runs}) != 1:
        sys.exit(f"the answers are {[answer for _, _, answer in runs]}")
    return [(seconds, memory) for seconds, memory, _ in runs]


def show(path, size, rounds):
    """Prints seconds and memory at one size, and how many times those without large pages they are."""
    best = [(min(it[0] for it in runs), max(it[1] for it in runs)) for runs in zip(*rounds)]
    (seconds, memory), (now, memory_now) = best
    row(f"{size:,}", f"{os.path.getsize(path) / 1e6:.1f}", f"{seconds:.4f}", f"{now:.4f}",
        f"{now / seconds:.2f}", f"{memory:.1f}", f"{memory_now:.1f}", f"{memory_now / memory:.2f}")


def setting_of_system():
    """Whether the system gives large pages: `always`, to those who ask (`madvise`), or `never`."""
    try:
        with open(SYSTEM, encoding="utf-8") as file:
            return re.search(r"\[(\w+)\]", file.read())[1]
    except OSError:
        return "unknown"


def main():
    powers = numbers_of(sys.argv[1:], __doc__, 22) or [10, 14, 17, 20]
    before = os.getloadavg()[0]
    with tempfile.TemporaryDirectory() as folder:
        paths = {2**power: os.path.join(folder, f"trace{power}") for power in powers}
        for size, path in paths.items():
            write_long_trace(path, size, "time")
        rounds = [{size: round_of(path) for size, path in paths.items()} for _ in range(ROUNDS)]
        table("Records", "MB", "`check`, s", "with large pages, s", "times", "Peak MB", "with large pages",
              "times")
        for size, path in paths.items():
            show(path, size, [it[size] for it in rounds])
    print(f"\nLarge pages of the system: {setting_of_system()}.")
    print(f"Load of the last minute before and after: {before:.1f}, {os.getloadavg()[0]:.1f}.")


if __name__ == "__main__":
    main()
