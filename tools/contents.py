"""The contents of a trace file that can be read, from one pass: where each line begins, what its record does, and the lines
of each thread, task and region. A line is named by its number, and line 1 is the header."""
import json
import os
from array import array
from bisect import bisect_right
from collections import defaultdict
from itertools import accumulate, islice

from model import DEMANDS_NEXT, STATUS_PART

# What a record does, as bits: it creates a task; has the dependences of one; begins or ends a region of synchronisation;
# begins or ends an initial or implicit task; begins a parallel region; a task runs next; a task moves, as docs/MODEL.md
# calls it; a task is finished, or a part of it.
CREATES, LISTS, WAITS, ROOT, FORKS, RUNS, MOVES, FINISHES = (1 << it for it in range(8))
# By its status what a task_schedule does.
SCHEDULES = {status: MOVES | FINISHES * (status in STATUS_PART) | RUNS * (status in DEMANDS_NEXT)
             for status in DEMANDS_NEXT | STATUS_PART.keys() | {'early_fulfill'}}
# How many bytes of lines are parsed at once: line by line takes twice as long.
BLOCK = 1 << 16


def values_of(lines):
    """Returns the values of lines."""
    return json.loads(b'[%b]' % b','.join(lines))


class Contents:
    """What is where in a file. By line there are `roles`, the bits above, and `lengths`, the ledger length that is named;
    line n begins at byte `begins[n - 1]`. `threads` and `tasks` have the lines of each thread, and those that name a task
    but as a root; `made` and `regions` the first line that makes a task or begins a region. Of each creation there are the
    turn of the parent, the line, the parent and the child."""

    # The line of the first record.
    first = 2

    def __init__(self, path, tells_turns, progress):
        self.tells_turns, self.roles, self.lengths = tells_turns, bytearray(2), array('Q', [0, 0])
        self.threads, self.tasks = defaultdict(lambda: array('L')), defaultdict(list)
        self.made, self.regions, self.creations, self.turns = {}, {}, [], {}
        takes = {'parallel_begin': self.take_fork, 'parallel_end': self.take_other, 'implicit_task': self.take_root,
                 'task_create': self.take_creation, 'dependences': self.take_list, 'cancel': self.take_cancel,
                 'task_schedule': self.take_schedule, 'sync_region': self.take_wait}
        for number, it in enumerate(self.values(path, progress), self.first):
            take = takes.get(it['cb'])
            self.roles.append(take(number, it) if take else 0)
            self.lengths.append(it['seen'])
            self.threads[it['thread']].append(number)

    def values(self, path, progress):
        """Yields the value of each record, and keeps where its line begins."""
        with open(path, 'rb') as file:
            self.begins, size = array('Q', [0, len(file.readline())]), os.path.getsize(path)
            while block := file.readlines(BLOCK):
                ends = accumulate(map(len, block), initial=self.begins[-1])
                self.begins.extend(islice(ends, 1, None))
                yield from values_of(block)
                progress.part('reading the records', self.begins[-1], size)

    def take_other(self, number, it):
        self.tasks[it['task']].append(number)
        return 0

    def take_list(self, number, it):
        self.tasks[it['task']].append(number)
        return LISTS

    def take_wait(self, number, it):
        self.tasks[it['task']].append(number)
        return WAITS

    def take_fork(self, number, it):
        self.tasks[it['task']].append(number)
        self.regions.setdefault(it['parallel'], number)
        return FORKS

    def take_root(self, number, it):
        self.tasks[it['task']].append(number)
        if it['endpoint'] == 'begin':
            self.made.setdefault(it['task'], number)
        return ROOT

    def take_creation(self, number, it):
        parent, child = it['task'], it['child']
        self.tasks[parent].append(number)
        if child != parent:
            self.tasks[child].append(number)
        self.made.setdefault(child, number)
        self.creations.append((self.turns.get((it['thread'], parent), 0), number, parent, child))
        return CREATES

    def take_cancel(self, number, it):
        self.tasks[it['task']].append(number)
        return MOVES | FINISHES if 'discarded_task' in it['flags'] else 0

    def take_schedule(self, number, it):
        prior, roles = it['prior'], SCHEDULES[it['status']]
        self.tasks[prior].append(number)
        if roles & RUNS:
            self.take_start(number, it, prior)
        return roles

    def take_start(self, number, it, prior):
        task, turn = it['next'], it['next_turn'] if self.tells_turns else 0
        if task != prior:
            self.tasks[task].append(number)
        # a task without an entry is in turn 0
        if turn or (it['thread'], task) in self.turns:
            self.turns[it['thread'], task] = turn

    def lines_of_thread(self, thread, first=0, last=None):
        """Returns the lines of the thread behind `first`, up to the line `last`."""
        lines = self.threads.get(thread, array('L'))
        end = len(lines) if last is None else bisect_right(lines, last)
        return lines[bisect_right(lines, first):end]

    def doing(self, roles):
        """Yields the lines whose records do one of these."""
        return (number for number, it in enumerate(self.roles) if it & roles)
