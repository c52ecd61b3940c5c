#!/usr/bin/env python3
"""unfinished_tasks.py [SIZE]: how many instructions does it take to ask a ledger for the unfinished task of
every end of a wait?

Counts them on runs of SIZE records (65,536), compared with those of the same question in `check`. Asking is
`Coverage::first_unfinished_all` of all ends: what `probe stopwatch unfinished` takes beyond `probe stopwatch
coverage`, which ends when the coverage and the ledger are made. In `check` it is the phase of the waits: teams, `find_known`,
`find_unfinished` and the search for late starts (`phases.py`). Valgrind counts, so the figures are the same on a busy
machine.
"""

import os
import sys
import tempfile

from common import ORDERS, STOPWATCH, instructions_of, numbers_of, row, table, trace
from phases import phases


def asking(path, size, order):
    """The instructions of `first_unfinished_all` of all ends."""
    lines = trace(size, order)
    made, asked = (instructions_of([*STOPWATCH, word], path, lines, " ends") for word in ("coverage", "unfinished"))
    return asked - made


def main():
    size = (numbers_of(sys.argv[1:], __doc__) or [2**16])[0]
    table("File", "`first_unfinished_all` of all ends", "Waits of `check`", "Quotient")
    with tempfile.TemporaryDirectory() as folder:
        path = os.path.join(folder, "trace")
        for title, order in ORDERS:
            all_ends, waits = asking(path, size, order), phases(path, size, order)[3]
            row(title, f"{all_ends / 1e6:.1f} M", f"{waits / 1e6:.1f} M", f"{all_ends / waits:.2f}")


if __name__ == "__main__":
    main()
