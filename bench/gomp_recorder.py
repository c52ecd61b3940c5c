#!/usr/bin/env python3
"""gomp_recorder.py [ROUNDS]: what does the recorder of ompt/ cost a program that gcc compiled, under its own runtime?

Runs programs without the recorder, with it, and with it where it can make no file and so does not record, by turns
in ROUNDS rounds (15), and prints the median and the least of their seconds in the parallel region."""
import os
import statistics
import subprocess
import sys
import tempfile

from common import HERE, TOP, numbers_of, row, table

OMPT = os.path.join(TOP, "ompt")
# The program with its word, and the number of threads.
RUNS = [(["fib", "23"], 1), (["fib", "23"], 2), (["fib", "23"], 4), (["matrix", "24"], 4)]


def compile_all(folder):
    """Compiles the recorder, and the programs into the folder."""
    subprocess.run([os.path.join(OMPT, "build")], check=True)
    for name in {words[0] for words, _ in RUNS}:
        paths = [os.path.join(HERE, f"{name}.c"), "-o", os.path.join(folder, name)]
        subprocess.run(["gcc", "-O2", "-fopenmp", *paths], check=True)


def seconds(folder, words, threads, file=None):
    """The seconds of the parallel region; with the recorder where there is a file."""
    told = {**os.environ, "OMP_NUM_THREADS": str(threads)}
    if file:
        told |= {"TASKAUDIT_FILE": file, "LD_PRELOAD": os.path.join(OMPT, "out/libtaskaudit_gomp.so")}
        if os.path.exists(file):
            os.remove(file)
    ran = subprocess.run([os.path.join(folder, words[0]), *words[1:]], env=told, stdout=subprocess.PIPE,
                         stderr=subprocess.DEVNULL, text=True, check=True)
    return float(ran.stdout)


def show(folder, words, threads, rounds):
    """Prints what a program takes in each way."""
    files = [None, os.path.join(folder, "a.jsonl"), "/nosuch/folder/a.jsonl"]
    taken = [[seconds(folder, words, threads, file) for file in files] for _ in range(rounds)]
    plain, recorded, idle = zip(*taken)
    def times(some):
        return f"{statistics.median(some) / statistics.median(plain):.2f}, {min(some) / min(plain):.2f}"
    row(" ".join(words), str(threads), f"{min(plain):.4f}", times(recorded), times(idle))


def main():
    rounds = (numbers_of(sys.argv[1:], __doc__) or [15])[0]
    with tempfile.TemporaryDirectory() as folder:
        compile_all(folder)
        table("Program", "Threads", "Seconds", "Times: median, least", "Not recording")
        for words, threads in RUNS:
            show(folder, words, threads, rounds)


if __name__ == "__main__":
    main()
