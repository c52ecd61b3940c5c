#!/usr/bin/env python3
"""read_write_instructions.py [SIZE]: how many instructions does a record take to read and to write?

Counts them on SIZE records (65,536). Valgrind counts, so that the figures are the same on a busy machine.
The files: a run in the order of time, in the form in which it is written; the same with the members of each
line shuffled; records of all ten callbacks. A record of the last is longer, so its figure is also given for
130 bytes. Writing is what `probe stopwatch write` takes beyond `probe stopwatch read`.
"""

import json
import os
import random
import sys
import tempfile

from common import STOPWATCH, instructions, numbers_of, output_of, row, table, write_lines


def shuffled(lines):
    """The same records with the members of each line in another order."""
    source = random.Random("shuffled members")
    made = [lines[0]]
    for line in lines[1:]:
        members = list(json.loads(line).items())
        source.shuffle(members)
        made.append(json.dumps(dict(members), separators=(",", ":")))
    return made


def main():
    size = (numbers_of(sys.argv[1:], __doc__) or [2**16])[0]
    run, mixed = (output_of(script, size).splitlines() for script in ("traces.py", "mixed.py"))
    files = {"as written": run, "members shuffled": shuffled(run), "all callbacks": mixed}
    table("File", "Bytes a record", "Reading", "Reading, for 130 bytes", "Writing")
    with tempfile.TemporaryDirectory() as folder:
        path = os.path.join(folder, "trace.jsonl")
        for name, lines in files.items():
            write_lines(path, lines)
            reading, both = (instructions([*STOPWATCH, word], path)[0] for word in ("read", "write"))
            length = os.path.getsize(path) / size
            figures = [length, reading / size, reading / size * 130 / length, (both - reading) / size]
            row(name, *(f"{figure:,.0f}" for figure in figures))


if __name__ == "__main__":
    main()
