#!/usr/bin/env python3
"""upgrade_command.py [POWER..]: how many seconds and how much memory does `taskaudit upgrade` take?
upgrade_command.py instructions [SIZE]: and how many instructions?

Runs it on runs of 2^POWER records (2^20 and 2^22), in the order of time and one thread after another: the
least seconds of nine rounds, and peak memory; or counts instructions, by Valgrind, on files of SIZE records
(65,536) and of twice as many. It is compared with `probe stopwatch read`, which reads the same file; `taskaudit
check`; and `upgrade` of the upgraded file, which reads and writes a trace of version 2 and upgrades nothing.
What is written goes to /dev/null. Each file is upgraded first, and its answer must stay the same.
"""

import os
import subprocess
import sys
import tempfile

from common import ORDERS, PROGRAM, STOPWATCH, instructions, numbers_of, row, table, timed, write_long_trace

ROUNDS = 9
NAMES = ("`probe stopwatch read`", "`check`", "`upgrade`", "`upgrade` again")


def made(folder, size, order):
    """The paths of the file of version 1 and of the upgraded one."""
    old, new = (os.path.join(folder, name) for name in ("old", "new"))
    write_long_trace(old, size, order)
    with open(old, "rb") as source, open(new, "wb") as sink:
        subprocess.run([PROGRAM, "upgrade"], stdin=source, stdout=sink, check=True)
    answers = [timed([PROGRAM, "check"], path)[2] for path in (old, new)]
    if not answers[0].startswith("yes: ") or answers[0] != answers[1]:
        sys.exit(f"the answers are {answers}")
    return old, new


def commands(old, new):
    """What is measured, each a command and the file that it reads."""
    upgrade = [PROGRAM, "upgrade"]
    return [([*STOPWATCH, "read"], old), ([PROGRAM, "check"], old), (upgrade, old), (upgrade, new)]


def times(powers, folder):
    """Prints seconds and memory."""
    titles = [it for name in NAMES for it in (f"{name}, s", "MB of memory")]
    table("File", "Records", "MB", "MB upgraded", *titles, "ns a record")
    for title, order in ORDERS:
        for power in powers:
            files = made(folder, 2**power, order)
            rounds = [[timed(*it, os.devnull) for it in commands(*files)] for _ in range(ROUNDS)]
            least = [(min(it[0] for it in runs), max(it[1] for it in runs)) for runs in zip(*rounds)]
            sizes = [f"{os.path.getsize(path) / 1e6:.0f}" for path in files]
            figures = [it for seconds, memory in least for it in (f"{seconds:.2f}", f"{memory:.0f}")]
            row(title, f"{2**power:,}", *sizes, *figures, f"{least[2][0] / 2**power * 1e9:.0f}")


def counts(size, folder):
    """Prints instructions."""
    table("File", "Records", *(f"{it}, millions" for it in NAMES), "`upgrade`, a record", "Growth")
    for title, order in ORDERS:
        earlier = None
        for count in (size, 2 * size):
            found = [instructions(*it)[0] for it in commands(*made(folder, count, order))]
            growth = f"{found[2] / earlier:.3f}" if earlier else ""
            earlier = found[2]
            row(title, f"{count:,}", *(f"{it / 1e6:.1f}" for it in found), f"{found[2] / count:,.0f}", growth)


def main():
    words = sys.argv[1:]
    with tempfile.TemporaryDirectory() as folder:
        if words[:1] == ["instructions"]:
            counts((numbers_of(words[1:], __doc__) or [2**16])[0], folder)
        else:
            times(numbers_of(words, __doc__, 22) or [20, 22], folder)


if __name__ == "__main__":
    main()
