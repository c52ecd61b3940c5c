#!/usr/bin/env python3
"""record_command.py [STEPS [RUNS]]: how many seconds does `taskaudit record` take, and microseconds a step?

Runs scripts of STEPS steps (2^18) on 1, 4, 8 and 64 threads. Reading is the time to find that an additional
last line is not one of a script.

`own`: each thread creates tasks, switches to each and back, and it is complete; no thread waits for another
one. `passed`: the initial task of thread 0 creates the tasks, and each is run by one of the other threads.
`turns`: the threads take their steps in turn, each after the last step of the thread before. The least of
RUNS runs (5).
"""

import subprocess
import sys
import time

from common import PROGRAM, numbers_of, row, table

HEADER = '{"format":"task-credit-script","version":1}\n'
# A line that no script has: it is no object.
WRONG = "0\n"
UNREADABLE = 3


def root(thread):
    """The line with which the initial task of a thread begins: its id is the thread's number."""
    return ('{"actual":1,"cb":"implicit_task","endpoint":"begin","flags":["initial"],"index":0,"parallel":0,'
            f'"task":{thread},"thread":{thread}}}\n')


def create(creator, task, thread):
    """The creation of a task."""
    return (f'{{"cb":"task_create","child":{task},"deps":false,"flags":["explicit"],"task":{creator},'
            f'"thread":{thread}}}\n')


def switch(prior, task, status, thread, after=""):
    """A switch from one task to another."""
    return (f'{{{after}"cb":"task_schedule","next":{task},"prior":{prior},"status":"{status}",'
            f'"thread":{thread}}}\n')


def own(steps, threads):
    """Each thread creates tasks and runs them."""
    yield from map(root, range(threads))
    for number in range(steps // 3):
        thread, task = number % threads, 1000 + number
        yield create(thread, task, thread)
        yield switch(thread, task, "switch", thread)
        yield switch(task, thread, "complete", thread)


def passed(steps, threads):
    """Thread 0 creates tasks for the other threads."""
    yield from map(root, range(threads))
    for number in range(steps // 3):
        thread, task = number % max(threads - 1, 1) + (threads > 1), 1000 + number
        yield create(0, task, 0)
        yield switch(thread, task, "switch", thread)
        yield switch(task, thread, "complete", thread)


def turns(steps, threads):
    """The threads take their steps in turn."""
    yield from map(root, range(threads))
    for number in range(steps):
        thread = number % threads
        other = (thread - 1) % threads
        after = f'"after":[{other},{number // threads + (other < thread)}],' if threads > 1 and number else ""
        yield (f'{{{after}"cb":"sync_region","endpoint":"beginend","kind":"taskwait","parallel":null,'
               f'"task":{thread},"thread":{thread}}}\n')


def least(text, status, runs):
    """The seconds of the quickest run on a script, each of which ends with this status."""
    best = None
    for _ in range(runs):
        start = time.monotonic()
        ran = subprocess.run([PROGRAM, "record"], input=text.encode(), capture_output=True, check=False)
        took = time.monotonic() - start
        if ran.returncode != status:
            sys.exit(f"record ended with status {ran.returncode}: {ran.stderr[:200]}")
        best = took if best is None else min(best, took)
    return best


def main():
    numbers = numbers_of(sys.argv[1:], __doc__, 2)
    steps, runs = numbers + [2**18, 5][len(numbers):]
    table("Script", "Threads", "Seconds", "Of these reading", "Microseconds a step without reading")
    for make in (own, passed, turns):
        for threads in (1, 4, 8, 64):
            lines = list(make(steps, threads))
            text = HEADER + "".join(lines)
            whole = least(text, 0, runs)
            reading = least(text + WRONG, UNREADABLE, runs)
            each = (whole - reading) / len(lines) * 1e6
            row(make.__name__, str(threads), f"{whole:.2f}", f"{reading:.2f}", f"{each:.2f}")


if __name__ == "__main__":
    main()
