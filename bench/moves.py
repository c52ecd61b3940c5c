#!/usr/bin/env python3
"""moves.py [SIZE]: how many more instructions does a check take where tasks move?

Counts those of `taskaudit check` on files of SIZE records (65,536) and of twice as many, in which no task
moves and in which each does, by the same records except for threads and turns; and the growth from the one
size to the other. Valgrind counts, so the figures are the same on a busy machine.

The files: tasks that are suspended and resume on the same thread (`stays`) or on another one (`moves`),
where the thread on which they resume comes first in the file, and so do their later turns; and one task that
resumes repeatedly, on two threads by turns (`one task`). Also a run of traces.py as version 1 and with the
turns that its lines imply.
"""

import os
import sys
import tempfile

from common import PROGRAM, instructions_of, numbers_of, trace
from turn_files import moving, one_task, run_with_turns, staying

CHECK = [PROGRAM, "check"]
FILES = {
    "time order, version 1": lambda size: trace(size, "time"),
    "time order, version 2": lambda size: run_with_turns(size, "time"),
    "threads, version 1": lambda size: trace(size, "threads"),
    "threads, version 2": lambda size: run_with_turns(size, "threads"),
    "stays": staying,
    "moves": moving,
    "one task": one_task,
}


def main():
    size = (numbers_of(sys.argv[1:], __doc__) or [2**16])[0]
    with tempfile.TemporaryDirectory() as folder:
        path = os.path.join(folder, "trace")
        for name, make in FILES.items():
            once, twice = make(size), make(2 * size)
            count, more = (instructions_of(CHECK, path, lines, "yes: ") for lines in (once, twice))
            records = len(once) - 1
            print(f"{name}: {records} records, {count / 1e6:.1f} million, {count / records:.0f} a record, "
                  f"growth {more / count:.3f}", flush=True)


if __name__ == "__main__":
    main()
