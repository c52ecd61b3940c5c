#!/usr/bin/env python3
"""shaken.py [BATCHES [RIGHT]]: in how many runs is a fault of a runtime found, by which way of shaking them?

Runs a program for each of four faults under a runtime that is broken so (ompt/broken.c), by `taskaudit-run
--repeat 5 --shake SEED` for BATCHES seeds (50), so that each batch has one run of each way, and prints in how
many runs of each way and in how many batches something was found. Tries the first run in which each way found
something ten times again, by its seed and its number, and prints how often that found it. Then runs right
programs, under the right runtime, RIGHT times in all (500), where nothing may be found. The teams have four
threads."""
import glob
import os
import re
import subprocess
import sys
import tempfile
from collections import Counter

from common import HERE, PROGRAM, TOP, numbers_of, row, table

OMPT = os.path.join(TOP, "ompt")
WAYS = ("as it is", "yields", "delays at begins", "delays at ends", "fewer cores")
# The fault, how it is called, and the program with its words.
FAULTS = {
    "a taskwait that waits too briefly": ("brief_taskwait", ["children", "2"]),
    "a dropped dependence, 4 by 4 blocks": ("one_depend", ["wavefront", "4", "1"]),
    "a dropped dependence, 8 by 8": ("one_depend", ["wavefront", "8", "1"]),
    "a detached task complete too early": ("early_detach", ["device", "1"]),
}
# Right programs: these, and all of ompt/programs.
RIGHT = [["children", "4"], ["wavefront", "4", "2"], ["wavefront", "8", "1"], ["device", "4"], ["fib", "8"]]
OTHERS = [*glob.glob(os.path.join(OMPT, "programs/*.c")), *glob.glob(os.path.join(OMPT, "programs/nested/*.c"))]
# A run of several, as taskaudit-run tells it: its seed and number, its way, and what came of it.
TOLD = re.compile(r"run \d+ of \d+ \(--shake (\d+:\d+), ([a-z ]+)\): (\w+)")
BATCH, TRIES = 5, 10


def compile_all(folder):
    """Compiles the recorder, and the programs into the folder. Returns the words of the right programs."""
    subprocess.run([os.path.join(OMPT, "build")], check=True)
    names = {words[0] for words in (*RIGHT, *(it for _, it in FAULTS.values()))}
    for path in (*(os.path.join(HERE, f"{name}.c") for name in names), *OTHERS):
        made = os.path.join(folder, os.path.basename(path)[:-2])
        subprocess.run(["clang", "-O2", "-w", "-fopenmp", "-pthread", path, "-o", made], check=True)
    return RIGHT + [[os.path.basename(path)[:-2]] for path in OTHERS]


def runs(folder, words, shaking, count, fault=None):
    """Seed and number, way and outcome of each of so many runs."""
    told = {**os.environ, "OMP_NUM_THREADS": "4", "OMP_CANCELLATION": "true"}
    if fault:
        told |= {"LD_PRELOAD": os.path.join(OMPT, "out/libtaskaudit_broken.so"), "TASKAUDIT_BREAK": fault}
    command = [os.path.join(OMPT, "taskaudit-run"), "--checker", PROGRAM, "--repeat", str(count), "--keep-going",
               "--shake", shaking, "-o", os.path.join(folder, "%p.jsonl"), os.path.join(folder, words[0]), *words[1:]]
    ran = subprocess.run(command, env=told, stdout=subprocess.DEVNULL, stderr=subprocess.PIPE, text=True)
    for name in os.listdir(folder):
        if name.endswith(".jsonl"):
            os.remove(os.path.join(folder, name))
    found = TOLD.findall(ran.stderr)
    if len(found) != count:
        sys.exit(f"{' '.join(command)}: {ran.stderr}")
    return found


def show_fault(folder, name, batches):
    """Prints in how many runs and batches a fault was found, and how often again."""
    fault, words = FAULTS[name]
    ways, hits, firsts = Counter(), 0, {}
    for seed in range(1, batches + 1):
        found = {way: it for it, way, outcome in runs(folder, words, str(seed), BATCH, fault) if outcome != "yes"}
        ways.update(found.keys())
        hits += bool(found)
        firsts = found | firsts
    again = [outcome != "yes" for it in firsts.values() for _, _, outcome in runs(folder, words, it, TRIES, fault)]
    row(name, *(str(ways[it]) for it in WAYS), f"{hits} of {batches}", f"{sum(again)} of {len(again)}")


def main():
    numbers = numbers_of(sys.argv[1:], __doc__, 2)
    batches, right = [*numbers, *[50, 500][len(numbers):]]
    with tempfile.TemporaryDirectory() as folder:
        programs = compile_all(folder)
        table("Fault", *WAYS, "batches of five", "tried again")
        for name in FAULTS:
            show_fault(folder, name, batches)
        outcomes = Counter(outcome for at in range(right // BATCH)
                           for *_, outcome in runs(folder, programs[at % len(programs)], str(at), BATCH))
        print(f"\nRight programs: {dict(outcomes)}")


if __name__ == "__main__":
    main()
