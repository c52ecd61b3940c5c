#!/usr/bin/env python3
"""read_write_seconds.py [SIZE]: how many seconds do reading and writing take, compared with JSON alone?

Takes SIZE mixed records (1,048,576) of `mixed.py`. `probe stopwatch` reads each line as a JSON value
(`values`), reads the records (`read`), or reads and writes them (`write`), three times in turn. What writing
takes is the difference of the last two; the bytes that are written must be those that were read.
"""

import filecmp
import os
import subprocess
import sys
import tempfile

from common import HERE, STOPWATCH, numbers_of, row, table, timed

RUNS = 3
WORDS = ("values", "read", "write")


def main():
    size = (numbers_of(sys.argv[1:], __doc__) or [2**20])[0]
    with tempfile.TemporaryDirectory() as folder:
        path, output = os.path.join(folder, "mixed.jsonl"), os.path.join(folder, "output")
        with open(path, "wb") as file:
            command = [sys.executable, os.path.join(HERE, "mixed.py"), str(size)]
            subprocess.run(command, stdout=file, check=True)
        runs = {word: [] for word in WORDS}
        for _ in range(RUNS):
            for word in WORDS:
                runs[word].append(timed([*STOPWATCH, word], path, output)[:2])
            if not filecmp.cmp(path, output, shallow=False):
                sys.exit("what was written is not what was read")
        print(f"{size:,} records, {os.path.getsize(path) / 1e6:.1f} MB\n")
        table("Layer", "Seconds", "Peak MB")
        for word, found in runs.items():
            seconds, memory = zip(*found)
            row(f"`{word}`", ", ".join(f"{it:.2f}" for it in seconds), f"{max(memory):.0f}")
        reading, both = (min(seconds for seconds, _ in runs[word]) for word in ("read", "write"))
        writing = both - reading
        print(f"\nWriting alone: {writing:.2f} s, {writing / reading:.2f} of reading (the quickest of each).")


if __name__ == "__main__":
    main()
