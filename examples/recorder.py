#!/usr/bin/env python3
"""recorder.py [--old-starts]: writes the trace of a small simulated run, as an OMPT tool would record it, by the rules
of docs/RECORDING.md. With --old-starts it breaks one of them: a start repeats what its thread last knew."""
import itertools
import json
import sys
import threading


class Ledger:
    """The list of finished tasks that all threads share; a recorder needs its length alone."""
    lock, length = threading.Lock(), 0

    def append(self):  # called before the runtime lets anyone go who waits for the task
        with self.lock:
            self.length += 1
            return self.length - 1


class Task:
    """What a tool keeps of a task, behind its ompt_data_t: its id, its place in the tree, and how many children it has."""
    ids = itertools.count(1)

    def __init__(self, parent=None):
        self.id, self.kept, self.root, self.path = next(Task.ids), 0, self, []
        if parent:
            self.root, self.path = parent.root, [*parent.path, parent.kept]
            parent.kept += 1


class Recorder:
    """The records of one thread, and the ledger length that the thread knows."""
    ledger = Ledger()

    def __init__(self, thread, reads_at_starts):
        self.thread, self.reads_at_starts, self.known, self.records = thread, reads_at_starts, 0, []

    def record(self, cb, **members):
        self.records.append({'cb': cb, 'thread': self.thread, 'seq': len(self.records), 'seen': self.known, **members})

    def implicit_task(self, endpoint, task, flag, parallel=0, actual=1, index=0):
        self.record('implicit_task', endpoint=endpoint, task=task.id, flags=[flag], parallel=parallel,
                    actual=actual, index=index)

    def task_create(self, creator, *items):
        task = Task(creator)
        self.record('task_create', task=creator.id, child=task.id, flags=['explicit'], deps=bool(items))
        if items:
            self.record('dependences', task=task.id, list=[{'type': kind, 'var': var} for kind, var in items])
        return task

    def task_schedule(self, prior, status, following=None):
        claim = {}
        if status not in ('switch', 'yield', 'early_fulfill'):  # the rest finish a task, or a part of it
            self.known, claim = self.ledger.append(), {'root': prior.root.id, 'path': prior.path, 'kept': prior.kept}
        elif self.reads_at_starts:
            self.known = self.ledger.length
        self.record('task_schedule', prior=prior.id, status=status, next=following and following.id, **claim)
        self.known += bool(claim)

    def sync_region(self, kind, endpoint, task):
        self.known = self.known if endpoint == 'begin' else self.ledger.length
        self.record('sync_region', kind=kind, endpoint=endpoint, task=task.id, parallel=None)


def simulated_run(zero, one, two, barrier='barrier_implicit_parallel'):
    """A team of three: member a makes three tasks in a taskgroup; b and c run them inside their barriers."""
    program, a, b, c = (Task() for _ in range(4))
    team = list(zip((zero, one, two), (a, b, c), range(3)))
    zero.implicit_task('begin', program, 'initial')
    zero.record('parallel_begin', task=program.id, parallel=100, requested=3)
    for recorder, member, index in team:
        recorder.implicit_task('begin', member, 'implicit', 100, 3, index)
    one.sync_region(barrier, 'begin', b)
    two.sync_region(barrier, 'begin', c)
    zero.sync_region('taskgroup', 'begin', a)
    writer = zero.task_create(a, ('out', 0x7f00))
    reader = zero.task_create(a, ('in', 0x7f00))
    detached = zero.task_create(a)
    for recorder, *event in ((one, b, 'switch', writer), (one, writer, 'complete', b), (two, c, 'switch', reader),
                             (one, b, 'switch', detached), (one, detached, 'detach', b), (two, reader, 'complete', c),
                             (two, detached, 'late_fulfill')):
        recorder.task_schedule(*event)
    zero.sync_region('taskgroup', 'end', a)
    zero.sync_region(barrier, 'begin', a)
    for recorder, member, index in team:
        recorder.sync_region(barrier, 'end', member)
        recorder.implicit_task('end', member, 'implicit', 100, 3, index)
    zero.record('parallel_end', task=program.id, parallel=100)
    zero.implicit_task('end', program, 'initial')


def trace(*words):
    recorders = [Recorder(thread, '--old-starts' not in words) for thread in range(3)]
    simulated_run(*recorders)
    return [{'format': 'task-credit-audit', 'version': 1}, *(record for it in recorders for record in it.records)]


if __name__ == '__main__':
    print('\n'.join(json.dumps(line) for line in trace(*sys.argv[1:])))
