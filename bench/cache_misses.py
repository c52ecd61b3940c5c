#!/usr/bin/env python3
"""cache_misses.py [POWER..]: how many instructions and cache misses does a record take, and how much memory?

Counts the instructions of `taskaudit check` and the misses of a cache of 8 MB in lines of 64 bytes, which
Valgrind's cachegrind simulates, on a run of eight threads of 2^POWER (2^20) records, in the order of time and
one thread after another, and takes the seconds, the least of nine rounds, and the peak memory of the same.
The seconds of `check --workers 4` are beside them. Where there are two powers or more, it also prints how
instructions grow.
"""

import math
import os
import re
import subprocess
import sys
import tempfile

from common import COUNTED, ORDERS, PROGRAM, best, numbers_of, peak, row, table, write_long_trace

CACHE = ["valgrind", "--tool=cachegrind", "--cache-sim=yes", "--LL=8388608,16,64",
         "--cachegrind-out-file=/dev/null"]
ROUNDS = 9


def counted(path):
    """The instructions and the misses of a check of the file."""
    with open(path, "rb") as source:
        run = subprocess.run(CACHE + [PROGRAM, "check"], stdin=source, capture_output=True, env=COUNTED,
                             check=False)
    if not run.stdout.startswith(b"yes: "):
        sys.exit(f"answered {run.stdout[:200]!r}")
    text = run.stderr.decode()
    found = [re.search(rf"{name}: +([0-9,]+)", text) for name in ("I +refs", "LL misses")]
    if not all(found):
        sys.exit(f"not counted: {text[-200:]}")
    return [int(it[1].replace(",", "")) for it in found]


def show(title, order, powers, path):
    """Prints a row for each size, and returns the exponent of the growth from the first to the last."""
    counts = []
    for size in (2**power for power in powers):
        write_long_trace(path, size, order)
        instructions, misses = counted(path)
        counts.append(instructions)
        seconds = [best([PROGRAM, "check", *words], path, ROUNDS)[0] for words in ([], ["--workers", "4"])]
        row(title, f"{size:,}", f"{instructions / size:,.0f}", f"{misses / size:.1f}",
            *(f"{it:.3f}" for it in seconds), f"{peak([PROGRAM, 'check'], path):.0f}")
    return math.log2(counts[-1] / counts[0]) / max(powers[-1] - powers[0], 1)


def main():
    powers = sorted(numbers_of(sys.argv[1:], __doc__, 22)) or [20]
    table("File", "Records", "Instructions a record", "Misses a record", "`check`, s", "4 workers, s", "Peak MB")
    with tempfile.TemporaryDirectory() as folder:
        path = os.path.join(folder, "trace")
        exponents = {title: show(title, order, powers, path) for title, order in ORDERS}
    if len(powers) > 1:
        for title, exponent in exponents.items():
            print(f"\nExponent of the instructions, {title}: {exponent:.3f}", flush=True)


if __name__ == "__main__":
    main()
