"""Makes traces of version 2, in which tasks have turns: each function gives the lines of about this many
records.
"""

import json

from common import HEADER_WITH_TURNS, trace


def with_turns(lines):
    """The records of a trace of version 1, with the turns that they imply."""
    begun, on_thread = {}, {}
    told = [HEADER_WITH_TURNS]
    for line in lines[1:]:
        record = json.loads(line)
        if record["cb"] == "implicit_task" and record["endpoint"] == "begin":
            begun[record["task"]] = 1
        if record["cb"] == "task_schedule" and record["next"] is not None:
            task, thread = record["next"], record["thread"]
            record["prior_turn"] = on_thread.get((thread, record["prior"]), 0)
            record["next_turn"] = begun.get(task, 0)
            begun[task] = record["next_turn"] + 1
            on_thread[thread, task] = record["next_turn"]
        told.append(json.dumps(record, sort_keys=True, separators=(",", ":")))
    return told


def run_with_turns(size, order):
    """A run of traces.py in this order, with turns. No task moves."""
    return with_turns(trace(size, order))


class Lines:
    """The lines of two threads, each with an initial task whose id is the thread's number."""

    def __init__(self):
        self.lines = {0: [], 1: []}
        for thread in (0, 1):
            self.add(thread, cb="implicit_task", endpoint="begin", parallel=0, task=thread, actual=1, index=0,
                     flags=["initial"])

    def add(self, thread, **members):
        members = {"seen": 0} | members | {"thread": thread, "seq": len(self.lines[thread])}
        self.lines[thread].append(json.dumps(members, sort_keys=True, separators=(",", ":")))

    def create(self, child, seen=0):
        """Task 1 creates a task that may move."""
        self.add(1, cb="task_create", task=1, child=child, deps=False, flags=["explicit", "untied"],
                 seen=seen)

    def schedule(self, thread, status, prior, following, **members):
        """A task stops and another one runs, each a task with its turn."""
        self.add(thread, cb="task_schedule", status=status, prior=prior[0], prior_turn=prior[1],
                 next=following[0], next_turn=following[1], **members)

    def complete(self, thread, prior, following, number, seen=0):
        """A task is complete, the child of task 1 with this number, and another one runs."""
        self.schedule(thread, "complete", prior, following, root=1, path=[number], kept=0, seen=seen)

    def file(self):
        """All lines, those of thread 0 first."""
        return [HEADER_WITH_TURNS, *self.lines[0], *self.lines[1]]


def moving(size):
    """Tasks that begin on thread 1 and resume on thread 0, whose lines come first."""
    made = Lines()
    for number in range((size - 2) // 5):
        task = number + 2
        made.create(task)
        made.schedule(1, "switch", (1, number), (task, 0))
        made.schedule(1, "yield", (task, 0), (1, number + 1))
        made.schedule(0, "switch", (0, number), (task, 1), seen=number)
        made.complete(0, (task, 1), (0, number + 1), number, seen=number)
    return made.file()


def staying(size):
    """The same tasks, but each resumes where it began."""
    made = Lines()
    for number in range((size - 2) // 5):
        task = number + 2
        made.create(task, seen=number)
        made.schedule(1, "switch", (1, 2 * number), (task, 0), seen=number)
        made.schedule(1, "yield", (task, 0), (1, 2 * number + 1), seen=number)
        made.schedule(1, "switch", (1, 2 * number + 1), (task, 1), seen=number)
        made.complete(1, (task, 1), (1, 2 * number + 2), number, seen=number)
    return made.file()


def one_task(size):
    """A task that resumes on two threads by turns, and is complete in the end."""
    made = Lines()
    made.create(2)
    resumed = {0: 0, 1: 0}
    turns = (size - 3) // 2
    for turn in range(turns):
        thread = 1 - turn % 2
        root = (thread, resumed[thread])
        resumed[thread] += 1
        made.schedule(thread, "switch", root, (2, turn))
        if turn + 1 < turns:
            made.schedule(thread, "yield", (2, turn), (thread, resumed[thread]))
        else:
            made.complete(thread, (2, turn), (thread, resumed[thread]), 0)
    return made.file()
