#!/usr/bin/env python3
"""turns.py [SIZE]: what do turns cost where a trace has them?

Counts on traces of version 2 of SIZE records (1,048,576) the instructions a record of the test that turns
rise, of the turn of each record, of the search for a gap and of the tasks' own order, and the peak memory.

The files: a run of traces.py, where no task moves, with the turns that its lines imply, in the order of time
and one thread after another; and tasks that begin on one thread and resume on another, whose later turns
come first. Callgrind counts each call with all that it calls, so the figures are the same on a busy machine;
the test has no symbol of its own, and is the time of `told_rising` of `probe stopwatch`.
"""

import os
import re
import subprocess
import sys
import tempfile

from common import COUNTED, ORDERS, STOPWATCH, numbers_of, peak, row, table, write_lines
from turn_files import moving, run_with_turns

CALLS = ("turn_table::turns_of", "gaps::find_gap", "own_order::arrange")


def counted(word, function, path):
    """The instructions of the function, with all that it calls, in the work of `probe stopwatch` that the word
    names."""
    command = ["valgrind", "--tool=callgrind", "--callgrind-out-file=/dev/null",
               f"--toggle-collect=*{function}*", *STOPWATCH, word]
    with open(path, "rb") as source:
        run = subprocess.run(command, stdin=source, stdout=subprocess.DEVNULL, stderr=subprocess.PIPE,
                             env=COUNTED, check=True)
    count = int(re.search(r"Collected : ([0-9]+)", run.stderr.decode())[1])
    if not count:
        sys.exit(f"{function} is not among the functions that Valgrind counted: was it put into its caller?")
    return count


def main():
    size = (numbers_of(sys.argv[1:], __doc__) or [2**20])[0]
    files = [(f"no task moves, {title}", lambda order=order: run_with_turns(size, order))
             for title, order in ORDERS]
    files.append(("each task moves, later turns first", lambda: moving(size)))
    table("File", "Records", "`turns_rise`", "`turns_of`", "`find_gap`", "`arrange`", "MB: read",
          "with the test", "with the own order")
    with tempfile.TemporaryDirectory() as folder:
        path = os.path.join(folder, "trace")
        for name, make in files:
            lines = make()
            write_lines(path, lines)
            count = len(lines) - 1
            rise = counted("rise", "turns::told_rising", path)
            each = [rise, *(counted("arrange", call, path) for call in CALLS)]
            memory = [peak([*STOPWATCH, word], path) for word in ("read", "rise", "arrange")]
            row(name, f"{count:,}", *(f"{one / count:.0f}" for one in each), *(f"{it:.0f}" for it in memory))


if __name__ == "__main__":
    main()
