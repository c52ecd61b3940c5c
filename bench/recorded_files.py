#!/usr/bin/env python3
"""recorded_files.py: what does a check of files cost that the recorder of ompt/ wrote?

Records the programs of recorded.py, and prints two tables of `taskaudit check` and of `probe stopwatch read` on
the files.

The first compares each file with the same without its members `codeptr`, which the audit ignores:
instructions a record, and seconds, for which the two files take turns and the least of nine rounds counts.
The second compares each file, which is in the order of time, with the same records one thread after another;
the causes are those of phases.py. Valgrind counts the instructions. Each run of a program records another
file, so the figures differ a little.
"""

import json
import os
import re
import sys
import tempfile

from common import PROBE, PROGRAM, instructions_of, row, table, timed, write_lines
from phases import to_read, to_the_causes
from recorded import recordings

CHECK = [PROGRAM, "check"]
ROUNDS = 9
CODE = re.compile(r'"codeptr":"(?:[^"\\]|\\.)*",')


def without_code(lines):
    """The same lines without the member `codeptr`."""
    return [CODE.sub("", line) for line in lines]


def by_thread(lines):
    """The same records, one thread after another."""
    return [lines[0], *sorted(lines[1:], key=lambda line: json.loads(line)["thread"])]


def least_seconds(path, files):
    """The least seconds of a check of each of these files, which take turns."""
    paths = [f"{path}.{number}" for number in range(len(files))]
    for name, lines in zip(paths, files):
        write_lines(name, lines)
    rounds = [[timed(CHECK, name)[0] for name in paths] for _ in range(ROUNDS)]
    return [min(seconds) for seconds in zip(*rounds)]


def checked(path, lines):
    return instructions_of(CHECK, path, lines, "yes: ")


def show_code(path, title, lines):
    """Prints what a file takes with and without `codeptr`."""
    bare, size = without_code(lines), len(lines) - 1
    named = sum(line != other for line, other in zip(lines, bare))
    checks, reads = ([ask(path, it) / size for it in (lines, bare)] for ask in (checked, to_read))
    seconds = least_seconds(path, (lines, bare))
    write_lines(path, lines)
    row(title, f"{size:,}", f"{os.path.getsize(path) / 1e6:.0f}", f"{100 * named / size:.0f} %",
        *(f"{figure:,.0f}" for figure in checks), f"{checks[0] / checks[1]:.2f}",
        *(f"{figure:,.0f}" for figure in reads), f"{reads[0] / reads[1]:.2f}",
        *(f"{figure:.3f}" for figure in seconds), f"{seconds[0] / seconds[1]:.2f}")


def show_order(path, title, lines):
    """Prints what a file takes as it was recorded, and one thread after another."""
    size, files = len(lines) - 1, (lines, by_thread(lines))
    checks = [checked(path, it) / size for it in files]
    causes = [(to_the_causes(path, it) - to_read(path, it)) / size for it in files]
    row(title, f"{size:,}", *(f"{figure:,.0f}" for figure in checks), f"{checks[1] / checks[0]:.2f}",
        *(f"{figure:,.0f}" for figure in causes), f"{causes[1] / causes[0]:.2f}")


def main():
    if len(sys.argv) > 1:
        sys.exit(__doc__)
    for program in (PROGRAM, PROBE):
        if not os.access(program, os.X_OK):
            sys.exit(f"{program} is not built")
    with tempfile.TemporaryDirectory() as folder:
        path, files = os.path.join(folder, "trace"), list(recordings(folder))
        table("Program", "Records", "MB", "With `codeptr`", "`check`", "without", "times", "`read`",
              "without", "times", "`check`, s", "without", "times")
        for title, lines in files:
            show_code(path, title, lines)
        print()
        table("Program", "Records", "`check`, as recorded", "one thread after another", "times",
              "causes, as recorded", "one thread after another", "times")
        for title, lines in files:
            show_order(path, title, lines)


if __name__ == "__main__":
    main()
