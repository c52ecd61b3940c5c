"""Makes traces whose shape could cost more than their size: each function gives the lines of about this many
records.
"""

import json

from common import HEADER

# How many tasks a chain has.
DEPTH = 1_000
# The initial task of each trace.
INITIAL = {"task": 1, "parallel": 0, "actual": 1, "index": 0, "flags": ["initial"]}


class Thread:
    """The records of one thread, and the ledger's length."""

    def __init__(self):
        self.lines = [HEADER]
        self.seen = 0
        self.add(cb="implicit_task", endpoint="begin", **INITIAL)

    def add(self, **members):
        record = {**members, "thread": 0, "seq": len(self.lines) - 1, "seen": self.seen}
        self.lines.append(json.dumps(record, sort_keys=True, separators=(",", ":")))

    def create(self, task, child):
        self.add(cb="task_create", task=task, child=child, flags=["explicit"], deps=False)

    def switch(self, task, child):
        self.add(cb="task_schedule", status="switch", prior=task, next=child)

    def complete(self, task, parent, path, kept=0):
        self.add(cb="task_schedule", status="complete", prior=task, next=parent, root=1, path=path, kept=kept)
        self.seen += 1

    def run_child(self, number):
        """Task 1 creates its child with this number, which runs and is complete."""
        self.create(1, number + 2)
        self.switch(1, number + 2)
        self.complete(number + 2, 1, [number])

    def region(self, kind, endpoint):
        self.add(cb="sync_region", kind=kind, endpoint=endpoint, parallel=None, task=1)


def waits(size):
    """Children of one task, and then waits that all cover all of them."""
    thread = Thread()
    for number in range(size // 6):
        thread.run_child(number)
    while len(thread.lines) <= size:
        thread.region("taskwait", "beginend")
    return thread.lines


def groups(size):
    """Taskgroups one in another, and a child in each."""
    thread = Thread()
    for number in range(size // 5):
        thread.region("taskgroup", "begin")
        thread.run_child(number)
    for _ in range(size // 5):
        thread.region("taskgroup", "end")
    return thread.lines


def chain(size):
    """Tasks that create one another, with leaves beside each of them, in a taskgroup."""
    thread = Thread()
    thread.region("taskgroup", "begin")
    leaves = max(0, (size // DEPTH - 3) // 3)
    path, task, free, above = [], 1, 2, []
    for _ in range(DEPTH):
        for number in range(leaves):
            thread.create(task, free)
            thread.switch(task, free)
            thread.complete(free, task, path + [number])
            free += 1
        thread.create(task, free)
        thread.switch(task, free)
        above.append(task)
        task, free, path = free, free + 1, path + [leaves]
    kept = 0
    while above:
        parent = above.pop()
        thread.complete(task, parent, path, kept)
        task, path, kept = parent, path[:-1], leaves + 1
    thread.region("taskgroup", "end")
    return thread.lines


def unfinished_waits(size):
    """Children that never run, and waits that end nonetheless."""
    thread = Thread()
    for number in range(size // 2):
        thread.create(1, number + 2)
    while len(thread.lines) <= size:
        thread.region("taskwait", "beginend")
    return thread.lines


def siblings(size, items):
    """Siblings one after another, each with the given list."""
    thread = Thread()
    for number in range(size // 4):
        child = number + 2
        thread.add(cb="task_create", task=1, child=child, flags=["explicit"], deps=True)
        listed = [{"type": kind, "var": var} for kind, var in items(number)]
        thread.add(cb="dependences", task=child, list=listed)
        thread.switch(1, child)
        thread.complete(child, 1, [number])
    return thread.lines


def writers(size):
    """Siblings that all write one location."""
    return siblings(size, lambda number: [("out", 7)])


def alternating(size):
    """Siblings that read and write one location in turn."""
    return siblings(size, lambda number: [("inout" if number % 2 else "in", 7)])


def long_lists(size):
    """Siblings with 64 items each, on locations that the others have too."""
    def items(number):
        return [("out" if it % 3 else "in", it % 96) for it in range(number, number + 64)]

    return siblings(size, items)


class Team:
    """The records of a team in the order of time, in which each thread knows the whole ledger."""

    def __init__(self, members):
        self.members, self.lines, self.seqs, self.seen = members, [HEADER], [0] * members, 0
        self.counts = [0] * members

    def add(self, thread, **record):
        record |= {"thread": thread, "seq": self.seqs[thread], "seen": self.seen}
        self.seqs[thread] += 1
        self.lines.append(json.dumps(record, sort_keys=True, separators=(",", ":")))

    def member(self, thread, endpoint):
        """The implicit task of a member begins or ends."""
        self.add(thread, cb="implicit_task", endpoint=endpoint, task=2 + thread, parallel=1,
                 actual=self.members, index=thread, flags=["implicit"])

    def region(self, thread, kind, endpoint):
        self.add(thread, cb="sync_region", kind=kind, endpoint=endpoint, parallel=1, task=2 + thread)

    def create(self, thread, child, deps):
        """The place of the new child below its root."""
        self.add(thread, cb="task_create", task=2 + thread, child=child, flags=["explicit"], deps=deps)
        self.counts[thread] += 1
        return {"root": 2 + thread, "path": [self.counts[thread] - 1], "kept": 0}

    def depending(self, thread, child, var):
        """A child that depends on one before it, and runs."""
        place = self.create(thread, child, True)
        self.add(thread, cb="dependences", task=child, list=[{"type": "inout", "var": var}])
        self.add(thread, cb="task_schedule", status="switch", prior=2 + thread, next=child)
        self.add(thread, cb="task_schedule", status="complete", prior=child, next=2 + thread, **place)
        self.seen += 1

    def discarded(self, thread, child):
        """A child of a taskgroup that is cancelled before it runs."""
        self.region(thread, "taskgroup", "begin")
        place = self.create(thread, child, False)
        self.add(thread, cb="cancel", task=2 + thread, flags=["taskgroup", "activated"])
        self.add(thread, cb="cancel", task=child, flags=["taskgroup", "discarded_task"], **place)
        self.seen += 1
        self.region(thread, "taskgroup", "end")


def team_of_256(size):
    """A team of 256 threads, with as many barriers as fit."""
    team = Team(256)
    team.add(0, cb="implicit_task", endpoint="begin", **INITIAL)
    team.add(0, cb="parallel_begin", task=1, parallel=1, requested=team.members)
    for thread in range(team.members):
        team.member(thread, "begin")
    while len(team.lines) + 2 * team.members <= size:
        for endpoint in ("begin", "end"):
            for thread in range(team.members):
                team.region(thread, "barrier_explicit", endpoint)
    return team.lines


def all_callbacks(size):
    """A team of 8 whose members create tasks with dependences, cancel taskgroups, wait, and meet at
    barriers."""
    team, free = Team(8), 100
    for thread in range(team.members):
        team.add(thread, cb="thread_begin", kind="worker")
    team.add(0, cb="implicit_task", endpoint="begin", **INITIAL)
    team.add(0, cb="parallel_begin", task=1, parallel=1, requested=team.members)
    for thread in range(team.members):
        team.member(thread, "begin")
    while len(team.lines) < size - 300:
        for thread in range(team.members):
            for number in range(3):
                team.depending(thread, free, number % 2)
                free += 1
            team.discarded(thread, free)
            free += 1
            team.region(thread, "taskwait", "begin")
            team.region(thread, "taskwait", "end")
        for endpoint in ("begin", "end"):
            for thread in range(team.members):
                team.region(thread, "barrier_explicit", endpoint)
    for thread in range(team.members):
        team.member(thread, "end")
    team.add(0, cb="parallel_end", task=1, parallel=1)
    team.add(0, cb="implicit_task", endpoint="end", **INITIAL)
    for thread in range(team.members):
        team.add(thread, cb="thread_end")
    return team.lines
