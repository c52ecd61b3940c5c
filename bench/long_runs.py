#!/usr/bin/env python3
"""long_runs.py [NUMBER..]: what does `taskaudit watch` cost beside a program, however long it runs?

Runs `fib.c` for each NUMBER (25, 30, 35) on four threads; the recorder of ompt/ writes the records into a pipe while
the program runs, and `taskaudit watch` reads them from it. Prints the records, the seconds of the run, and of `watch`
the processor time a record and the peak memory. The first row is the file of a short run: what `probe stopwatch read`
takes a record, which only reads the lines, and `watch`, the least of nine rounds."""
import os
import re
import subprocess
import sys
import tempfile
import time

from common import PROBE, PROGRAM, STOPWATCH, numbers_of, row, table
from recorded import OMPT, THREADS, compile_all, run

NUMBERS = (25, 30, 35)
SHORT = '22'
ROUNDS = 9
RECORDS = re.compile(r'yes: (\d+) records')
# Starts `watch`, and prints its processor seconds and its peak memory in KiB behind what it prints. It is a process of
# its own, since a started process first has the memory of the one that starts it.
MEASURED = '''
import os, subprocess, sys
ran = subprocess.Popen(sys.argv[1:], close_fds=False)
_, status, used = os.wait4(ran.pid, 0)
print(os.waitstatus_to_exitcode(status), used.ru_utime + used.ru_stime, used.ru_maxrss)
'''


def measured(command, source):
    """What the command prints of the source, its processor seconds, and its peak memory in MB."""
    printed = subprocess.run([sys.executable, '-S', '-c', MEASURED, *command], stdin=source, capture_output=True,
                             check=True).stdout.decode()
    text, _, last = printed.rstrip('\n').rpartition('\n')
    status, seconds, memory = last.split()
    if status != '0':
        sys.exit(f'{" ".join(command)} ended with status {status}: {text}')
    return text, float(seconds), int(memory) / 1024


def show_short(folder):
    """The row of a file of a short run, which is read and watched."""
    file = os.path.join(folder, 'short.jsonl')
    run(folder, ['fib', SHORT], file)
    least = []
    for command in ([*STOPWATCH, 'read'], [PROGRAM, 'watch']):
        rounds = []
        for _ in range(ROUNDS):
            with open(file, 'rb') as source:
                rounds.append(measured(command, source))
        least.append(min(rounds, key=lambda it: it[1]))
    (_, read, _), (text, watched, memory) = least
    count = int(RECORDS.match(text)[1])
    row(f'fib of {SHORT}, a file', f'{count:,}', '', f'{1e6 * watched / count:.3f}', f'{1e6 * read / count:.3f}',
        f'{memory:.1f}')


def show_long(folder, number):
    """The row of a run of this number."""
    pipe = os.path.join(folder, f'{number}.pipe')
    os.mkfifo(pipe)
    told = {**os.environ, 'OMP_NUM_THREADS': str(THREADS)}
    begin = time.monotonic()
    words = [os.path.join(OMPT, 'taskaudit-run'), '--live', '--no-check', '-o', pipe, os.path.join(folder, 'fib'), number]
    program = subprocess.Popen(words, env=told, stdout=subprocess.DEVNULL, stderr=subprocess.DEVNULL)
    with open(pipe, 'rb') as source:
        text, seconds, memory = measured([PROGRAM, 'watch'], source)
    program.wait()
    count = int(RECORDS.match(text)[1])
    row(f'fib of {number}', f'{count:,}', f'{time.monotonic() - begin:.1f}', f'{1e6 * seconds / count:.3f}', '',
        f'{memory:.1f}')


def main():
    numbers = numbers_of(sys.argv[1:], __doc__, most=20) or NUMBERS
    for program in (PROGRAM, PROBE):
        if not os.access(program, os.X_OK):
            sys.exit(f'{program} is not built')
    with tempfile.TemporaryDirectory() as folder:
        compile_all(folder, ['fib'])
        table('Program', 'Records', 'Run, s', '`watch`, µs a record', '`read`, µs a record', 'MB of memory')
        show_short(folder)
        for number in numbers:
            show_long(folder, str(number))


if __name__ == '__main__':
    main()
