#!/usr/bin/env python3
"""ledger_calls.py [instructions]: what does it cost to enter a finished task into a ledger of one thread,
and to ask whether its entries hold a task?

Enters tasks, in a scrambled order except for one shape, and asks whether all entries hold the start of each.
Prints seconds of the processor and peak memory, the least of five runs; or the instructions of the calls,
which Valgrind counts, for fewer entries.

`probe stopwatch ledger` does what the lines of its input say. From the seconds and the memory, what reading and
printing a line take is subtracted: lines with the same path that ask for an empty span. Each shape has two
sizes, the second twice the first; growth is that of entering and of asking. The last shape is a chain of
1,000 tasks, and this many children of the last of them.
"""

import os
import random
import re
import subprocess
import sys
import tempfile
from multiprocessing import Process

from common import COUNTED, STOPWATCH, row, table

COMMAND = [*STOPWATCH, "ledger"]
RUNS = 5


def random_tree(size):
    """The paths of this many tasks, each the child of a random task."""
    paths, kept = [[]], [0]
    for _ in range(size):
        parent = random.randrange(len(paths))
        paths.append(paths[parent] + [kept[parent]])
        kept[parent] += 1
        kept.append(0)
    return list(zip(paths, kept))[1:]


def children(size):
    """The paths of this many children of one task."""
    return [([number], 0) for number in range(size)]


def in_order(size):
    """The same, which are entered in the order of their numbers."""
    return children(size)


def chain(size):
    """A chain of 1,000 tasks, and this many children of the last of them."""
    links = [([0] * depth, 1) for depth in range(1, 1000)] + [([0] * 1000, size)]
    return links + [([0] * 1000 + [number], 0) for number in range(size)]


def joined(path):
    return ",".join(map(str, path))


def write_lines(shape, size, folder):
    """Writes lines that are only read, that enter each task, and that also ask for each."""
    random.seed(1)
    tasks = shape(size)
    if shape is not in_order:
        random.shuffle(tasks)
    read = [f"holds 0 1 {joined(path)} 0 0 children\n" for path, _ in tasks]
    enter = [f"enter 1 {joined(path)} {kept}\n" for path, kept in tasks]
    ask = [f"holds {len(tasks)} 1 {joined(path[:-1])} {path[-1]} {path[-1] + 1} descendants\n"
           for path, _ in tasks]
    for name, lines in (("read", read), ("enter", enter), ("ask", enter + ask)):
        with open(os.path.join(folder, name), "w", encoding="utf-8") as file:
            file.writelines(lines)


def run_once(path):
    """The processor seconds and the peak memory, in bytes, of a run on this file."""
    with open(path, "rb") as source:
        process = subprocess.Popen(COMMAND, stdin=source, stdout=subprocess.DEVNULL)
        _, status, usage = os.wait4(process.pid, 0)
        process.returncode = os.waitstatus_to_exitcode(status)
    return usage.ru_utime + usage.ru_stime, 1024 * usage.ru_maxrss


def seconds_and_bytes(path):
    """The least of each of a few runs."""
    runs = [run_once(path) for _ in range(RUNS)]
    return min(seconds for seconds, _ in runs), min(memory for _, memory in runs)


def seconds(folder):
    """The seconds of entering and of asking, and the memory of the entries."""
    files = (os.path.join(folder, name) for name in ("read", "enter", "ask"))
    reading, entering, asking = (seconds_and_bytes(path) for path in files)
    return entering[0] - reading[0], asking[0] - entering[0] - reading[0], entering[1] - reading[1]


def counts_of(folder, name):
    """What Valgrind counts for each function of a run on this file, including the functions that it
    calls."""
    counts = os.path.join(folder, "counts")
    with open(os.path.join(folder, name), "rb") as source:
        subprocess.run(["valgrind", "--tool=callgrind", f"--callgrind-out-file={counts}"] + COMMAND,
                       stdin=source, stdout=subprocess.DEVNULL, stderr=subprocess.DEVNULL, env=COUNTED,
                       check=True)
    command = ["callgrind_annotate", "--inclusive=yes", "--threshold=100", counts]
    return subprocess.run(command, capture_output=True, check=True, text=True).stdout


def count_inside(counts, function):
    found = re.search(rf"([0-9,]+) .*:{function} ", counts)
    if not found:
        sys.exit(f"{function} is not among the functions that Valgrind counted: was it put into its caller?")
    return int(found[1].replace(",", ""))


def instructions(folder):
    """The instructions of all calls of `enter`, and of all questions beyond those for an empty span: the
    compiler puts `holds` into `held`, the only function that calls it."""
    asking, reading = counts_of(folder, "ask"), counts_of(folder, "read")
    held = "probe::stopwatch::ledger::held"
    return (count_inside(asking, "credit_ledger::ledger::Ledger::enter"),
            count_inside(asking, held) - count_inside(reading, held))


def figures(shape, size, measure):
    """How many entries there are, and what entering and asking take. Another process writes the lines,
    since the memory of this one would count as the ledger's."""
    with tempfile.TemporaryDirectory() as folder:
        writer = Process(target=write_lines, args=(shape, size, folder))
        writer.start()
        writer.join()
        with open(os.path.join(folder, "read"), encoding="utf-8") as file:
            count = sum(1 for _ in file)
        return count, measure(folder)


def growth_of(now, earlier):
    return ", ".join(f"{now[place] / earlier[place]:.2f}" for place in (0, 1)) if earlier else ""


def show(sizes, measure, cells):
    """Prints a row for each shape and size."""
    titles = ("random", "children of one task", "the same, in order", "leaves below a chain of 1,000")
    for title, shape, size in zip(titles, (random_tree, children, in_order, chain), sizes):
        earlier = None
        for leaves in (size, 2 * size):
            count, now = figures(shape, leaves, measure)
            row(title, f"{count:,}", *cells(count, now), growth_of(now, earlier))
            earlier = now


def main():
    if sys.argv[1:] not in ([], ["instructions"]):
        sys.exit(__doc__)
    if sys.argv[1:]:
        table("Tree", "Entries", "An `enter`, instructions", "A `holds`, instructions", "Growth")
        show((2**15, 2**15, 2**15, 2**9), instructions,
             lambda count, now: (f"{now[0] / count:,.0f}", f"{now[1] / count:,.0f}"))
    else:
        table("Tree", "Entries", "Enter, s", "Ask, s", "Bytes an entry", "Growth")
        show((2**19, 2**19, 2**19, 2**9), seconds,
             lambda count, now: (f"{now[0]:.2f}", f"{now[1]:.2f}", f"{now[2] / count:,.0f}"))


if __name__ == "__main__":
    main()
