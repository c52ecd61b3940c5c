#!/usr/bin/env python3
"""relay.py [ROUNDS]: what does it cost to hand the records of a program on to `taskaudit watch`?

Records a program by the recorder of ompt/, and hands the file from a pipe to another one by the relay of
`taskaudit-run --watch`, in ROUNDS rounds (9); without and with a file that keeps all (-o). Prints the least
processor seconds and the least seconds, each a million records.
"""
import os
import subprocess
import sys
import tempfile
import time

from common import TOP, numbers_of, row, table
from recorded import compile_all, run

sys.path[:0] = [os.path.join(TOP, it) for it in ('ompt', 'tools')]
from relaying import Relay

PROGRAM = 'fib', '25'
WRITES, READS = ('dd', 'bs=64k', 'status=none'), ('dd', 'bs=64k', 'status=none', 'of=/dev/null')


def handed_on(trace, kept=None):
    """Hands a file on: the processor seconds of this process, the seconds, and how many lines there were."""
    source, written = os.pipe()
    relay = Relay(source, kept and open(kept, 'wb', buffering=0))
    with open(trace, 'rb') as it:
        ends = [subprocess.Popen(WRITES, stdin=it, stdout=written), subprocess.Popen(READS, stdin=relay.reader)]
    for it in (written, relay.reader):
        os.close(it)
    processor, begin = time.process_time(), time.perf_counter()
    relay.start()
    relay.join()
    spent = time.process_time() - processor, time.perf_counter() - begin
    relay.stop()
    assert not any(it.wait() for it in ends)
    return *spent, relay.count


def main():
    rounds = (numbers_of(sys.argv[1:], __doc__) or [9])[0]
    with tempfile.TemporaryDirectory() as folder:
        trace, kept = os.path.join(folder, 'trace.jsonl'), os.path.join(folder, 'kept.jsonl')
        compile_all(folder, [PROGRAM[0]])
        run(folder, PROGRAM, trace)
        table('Kept', 'Records', 'Bytes a record', 'Processor seconds a million', 'Seconds a million')
        for name, file in (('the last lines', None), ('all, in a file', kept)):
            spent = [handed_on(trace, file) for _ in range(rounds)]
            count = spent[0][2] - 1
            processor, seconds = (min(it[side] for it in spent) / count * 10**6 for side in (0, 1))
            row(name, f'{count:,}', f'{os.path.getsize(trace) / count:.0f}', f'{processor:.2f}', f'{seconds:.2f}')


if __name__ == '__main__':
    main()
