#!/usr/bin/env python3
"""builds.py PROGRAM [POWER..]: how many seconds does a check take, compared with another build of the program?

PROGRAM is the other one, as `tools/build` makes it in a checkout of another commit. Takes the seconds of
`check` and of `check --workers 4` of both, on runs of eight threads of 2^POWER records (2^20 and 2^22), in the
order of time and one thread after another. The commands take turns, and the least of nine rounds counts, since
a shared machine is sometimes slower. The load of the machine before and after is printed. All answers must be
the same.
"""

import os
import sys
import tempfile

from common import ORDERS, PROGRAM, numbers_of, row, table, timed, write_long_trace

ROUNDS = 9
WORDS = (["check"], ["check", "--workers", "4"])


def least_of(other, path):
    """The least seconds of each command on a file, first of the other program. All must answer the same."""
    commands = [[program, *words] for program in (other, PROGRAM) for words in WORDS]
    rounds = [[timed(command, path) for command in commands] for _ in range(ROUNDS)]
    answers = {answer for runs in rounds for seconds, _, answer in runs if seconds is not None}
    if len(answers) != 1:
        sys.exit(f"the answers are {answers}")
    return [min(seconds for seconds, _, _ in runs) for runs in zip(*rounds)]


def show(title, size, least):
    """Prints the seconds of both programs, and how many times those of the other `check` they are."""
    before, before_on, now, now_on = least
    row(title, f"{size:,}", f"{before:.3f}", f"{before_on:.3f}", f"{now:.3f}", f"{now / before:.2f}",
        f"{now_on:.3f}", f"{now_on / before:.2f}", f"{now_on / now:.2f}")


def main():
    if len(sys.argv) < 2 or not os.access(sys.argv[1], os.X_OK):
        sys.exit(__doc__)
    powers = numbers_of(sys.argv[2:], __doc__, 22) or [20, 22]
    before = os.getloadavg()[0]
    table("File", "Records", "Other: `check`, s", "4 workers, s", "`check`, s", "times", "4 workers, s", "times",
          "times this `check`")
    with tempfile.TemporaryDirectory() as folder:
        path = os.path.join(folder, "trace")
        for title, order in ORDERS:
            for size in (2**power for power in powers):
                write_long_trace(path, size, order)
                show(title, size, least_of(sys.argv[1], path))
    print(f"\nLoad of the last minute before and after: {before:.1f}, {os.getloadavg()[0]:.1f}.")


if __name__ == "__main__":
    main()
