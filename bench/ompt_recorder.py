#!/usr/bin/env python3
"""ompt_recorder.py [ROUNDS]: what does the recorder of ompt/ cost a program that it records?

Runs programs with and without the recorder, in ROUNDS rounds (9), and takes the least seconds of each;
prints the memory of a record, and how fast a file of nearly 2^22 records is written.
"""
import os
import sys
import tempfile

from common import numbers_of, row, table
from recorded import compile_all, run

# The program, its words, and what it does.
PROGRAMS = {'fib of 25': ('fib', '25'), 'blocks of 32, 32 x 32 x 32': ('matrix', '32')}
LARGEST = ('fib', '29')


def count_lines(file):
    with open(file, 'rb') as it:
        return sum(1 for _ in it)


def show(folder, file, name, program, rounds):
    """Prints what a program takes with and without the recorder."""
    both = [(run(folder, program), run(folder, program, file)) for _ in range(rounds)]
    plain, recorded = (min(it[side][0] for it in both) for side in (0, 1))
    memory = min(it[1][2] for it in both) - min(it[0][2] for it in both)
    count = count_lines(file) - 1
    row(name, f'{count:,}', f'{plain:.3f}', f'{recorded:.3f}', f'{recorded / plain:.2f}',
        f'{memory / count:.0f}')


def writing(folder, file):
    """The additional seconds of the process with the recorder, without those of the parallel region."""
    before, after = run(folder, LARGEST), run(folder, LARGEST, file)
    return (after[1] - after[0]) - (before[1] - before[0])


def main():
    rounds = (numbers_of(sys.argv[1:], __doc__) or [9])[0]
    with tempfile.TemporaryDirectory() as folder:
        compile_all(folder, ['fib', 'matrix'])
        file = os.path.join(folder, 'trace.jsonl')
        table('Program', 'Records', 'Seconds', 'Recorded', 'Times', 'Bytes a record')
        for name, program in PROGRAMS.items():
            show(folder, file, name, program, rounds)
        seconds = min(writing(folder, file) for _ in range(3))
        size, count = os.path.getsize(file) / 1e6, count_lines(file) - 1
        print(f'\n{count:,} records, {size:.0f} MB, written in {seconds:.2f} s: {size / seconds:.0f} MB/s')


if __name__ == '__main__':
    main()
