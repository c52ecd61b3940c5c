#!/usr/bin/env python3
"""traces.py SIZE [time|threads [COUNT [long]]]: a trace of SIZE records, in the order of time or one thread
after another.

COUNT threads, else eight, run random trees of tasks, and each taskwait ends after the children that it
covers. In a long run a task may wait again, so that 2^22 records have no more tasks than a file may have.
The same words give the same bytes each time.
"""

import random
import sys

HEADER = '{"format":"task-credit-audit","version":1}'
THREADS = 8
MOST_CHILDREN = 6
MOST_DEPTH = 12


class Run:
    """A run of the threads, which records what they do."""

    def __init__(self, threads):
        self.random = random.Random("taskwait trees")
        self.records = []  # of each line its thread and its text
        self.seqs = [0] * threads
        self.known = [0] * threads  # the ledger length that each thread last knew
        self.ledger = 0
        self.next_task = 1
        self.parent, self.path, self.root = {}, {}, {}
        self.planned, self.kept, self.running, self.waiting, self.unstarted = {}, {}, {}, {}, {}
        self.created = []  # unstarted tasks, and some that were started since
        self.stacks = [[self.begin_root(thread)] for thread in range(threads)]

    def new_task(self, parent, path, root):
        task = self.next_task
        self.next_task += 1
        self.parent[task], self.path[task], self.root[task] = parent, path, root or task
        self.kept[task] = self.running[task] = 0
        self.waiting[task] = False
        self.unstarted[task] = []
        depth = len(path)
        self.planned[task] = self.random.randint(0, MOST_CHILDREN) if depth < MOST_DEPTH else 0
        return task

    def write(self, thread, seen, before_seen, after_seq):
        """Records a line, whose other members come before or after `seen` and `seq`, in the order of
        their names."""
        seq = self.seqs[thread]
        self.seqs[thread] += 1
        self.known[thread] = max(self.known[thread], seen)
        line = f'{{{before_seen},"seen":{seen},"seq":{seq},{after_seq},"thread":{thread}}}'
        self.records.append((thread, line))

    def begin_root(self, thread):
        task = self.new_task(None, (), None)
        begin = ('"actual":1,"cb":"implicit_task","endpoint":"begin","flags":["initial"],"index":0,'
                 '"parallel":0')
        self.write(thread, 0, begin, f'"task":{task}')
        return task

    def create(self, thread, task):
        child = self.new_task(task, self.path[task] + (self.kept[task],), self.root[task])
        self.planned[task] -= 1
        self.kept[task] += 1
        self.running[task] += 1
        self.unstarted[task].append(child)
        self.created.append(child)
        create = f'"cb":"task_create","child":{child},"deps":false,"flags":["explicit"]'
        self.write(thread, self.known[thread], create, f'"task":{task}')

    def region(self, thread, task, endpoint, seen):
        self.waiting[task] = endpoint == "begin"
        region = f'"cb":"sync_region","endpoint":"{endpoint}","kind":"taskwait","parallel":null'
        self.write(thread, seen, region, f'"task":{task}')

    def start(self, thread, task, child):
        self.unstarted[self.parent[child]].remove(child)
        self.stacks[thread].append(child)
        schedule = f'"cb":"task_schedule","next":{child},"prior":{task}'
        self.write(thread, self.ledger, schedule, '"status":"switch"')

    def complete(self, thread, task):
        self.stacks[thread].pop()
        path = ",".join(map(str, self.path[task]))
        schedule = (f'"cb":"task_schedule","kept":{self.kept[task]},"next":{self.stacks[thread][-1]},'
                    f'"path":[{path}],"prior":{task},"root":{self.root[task]}')
        self.write(thread, self.ledger, schedule, '"status":"complete"')
        self.ledger += 1
        self.known[thread] = self.ledger
        self.running[self.parent[task]] -= 1

    def stolen(self):
        """Some unstarted task, if there is one."""
        while self.created:
            at = self.random.randrange(len(self.created))
            self.created[at], self.created[-1] = self.created[-1], self.created[at]
            child = self.created.pop()
            if child in self.unstarted[self.parent[child]]:
                return child
        return None

    def step(self, thread):
        """The next step of the thread; nothing, where its task waits for tasks that other threads run."""
        task = self.stacks[thread][-1]
        if self.waiting[task]:
            if self.running[task] == 0:
                self.region(thread, task, "end", self.ledger)
            elif self.unstarted[task]:
                self.start(thread, task, self.unstarted[task][-1])
        elif self.planned[task]:
            self.create(thread, task)
        elif self.running[task] and self.random.random() < 0.9:
            self.region(thread, task, "begin", self.known[thread])
        elif len(self.stacks[thread]) > 1:
            self.complete(thread, task)
        elif (child := self.stolen()) is not None:
            self.start(thread, task, child)
        else:
            self.planned[task] = self.random.randint(1, MOST_CHILDREN)


class LongRun(Run):
    """A run in which a task may wait again before it ends."""

    def complete(self, thread, task):
        if self.random.random() < 0.5:
            self.region(thread, task, "begin", self.known[thread])
        else:
            super().complete(thread, task)


def records_of(run, size):
    """The first records of a run, each its thread and its line."""
    while len(run.records) < size:
        run.step(run.random.randrange(len(run.seqs)))
    return run.records[:size]


def long_records(size, threads=THREADS):
    """The first records of a long run, each its thread and its line."""
    return records_of(LongRun(threads), size)


def trace(size, by_thread=False, threads=THREADS, kind=Run):
    """The text of a trace of this many records, in the order of time or one thread after another."""
    records = records_of(kind(threads), size)
    if by_thread:
        records.sort(key=lambda record: record[0])
    return "".join(f"{line}\n" for line in [HEADER, *(line for _, line in records)])


if __name__ == "__main__":
    words = sys.argv[1:]
    is_order = words[1:2] in ([], ["time"], ["threads"])
    if not words or not is_order or words[3:] not in ([], ["long"]):
        sys.exit(__doc__)
    count = int(words[2]) if words[2:] else THREADS
    sys.stdout.write(trace(int(words[0]), words[1:2] == ["threads"], count, LongRun if words[3:] else Run))
