#!/usr/bin/env python3
"""mixed.py SIZE: a file of SIZE records of all callbacks, in the form in which they are written.

No run has these records: the file is for the reader and the writer. The same size gives the same bytes each
time.
"""

import json
import random
import sys

HEADER = '{"format":"task-credit-audit","version":1}'
STATUSES = ["complete", "yield", "cancel", "detach", "early_fulfill", "late_fulfill", "switch",
            "taskwait_complete"]
WITHOUT_NEXT = {"early_fulfill", "late_fulfill", "taskwait_complete"}
FINISHING = {"complete", "cancel", "detach", "late_fulfill", "taskwait_complete"}
SYNC_KINDS = ["barrier", "barrier_implicit", "barrier_explicit", "barrier_implementation", "taskwait",
              "taskgroup", "reduction", "barrier_implicit_workshare", "barrier_implicit_parallel",
              "barrier_teams"]
DEPENDENCE_TYPES = ["in", "out", "inout", "mutexinoutset", "inoutset"]
TASK_FLAGS = ["explicit", "undeferred", "untied", "final", "mergeable", "merged"]
CANCEL_FLAGS = ["parallel", "sections", "loop", "taskgroup", "activated", "detected"]
# How often each callback comes, of a thousand.
WEIGHTS = {"task_schedule": 450, "task_create": 220, "sync_region": 180, "dependences": 100, "cancel": 20,
           "implicit_task": 20, "parallel_begin": 4, "parallel_end": 4, "thread_begin": 1, "thread_end": 1}
THREADS = 8


class Mixture:
    """A source of random records."""

    def __init__(self):
        self.random = random.Random("mixed records")
        self.seqs = [0] * THREADS

    def id(self):
        return self.random.choice([self.random.randrange(1 << 20), self.random.randrange(1 << 64)])

    def some(self, names):
        return [name for name in names if self.random.random() < 0.3]

    def share(self):
        depth = self.random.randint(0, 8)
        return {"kept": self.random.randint(0, 9), "path": [self.random.randint(0, 9) for _ in range(depth)],
                "root": self.id()}

    def members(self, callback):
        choice = self.random.choice
        if callback == "thread_begin":
            return {"kind": choice(["initial", "worker", "other", "unknown"])}
        if callback == "thread_end":
            return {}
        if callback == "parallel_begin":
            return {"parallel": self.id(), "requested": self.random.randint(1, 64), "task": self.id()}
        if callback == "parallel_end":
            return {"parallel": self.id(), "task": self.id()}
        if callback == "implicit_task":
            return {"actual": 8, "endpoint": choice(["begin", "end"]),
                    "flags": choice([["initial"], ["implicit"]]), "index": self.random.randrange(8),
                    "parallel": self.id(), "task": self.id()}
        if callback == "task_create":
            return {"child": self.id(), "deps": choice([True, False]), "flags": self.some(TASK_FLAGS),
                    "task": self.id()}
        if callback == "dependences":
            count = self.random.randint(1, 4)
            items = [{"type": choice(DEPENDENCE_TYPES), "var": self.id()} for _ in range(count)]
            return {"list": items, "task": self.id()}
        if callback == "task_schedule":
            status = choice(STATUSES)
            share = self.share() if status in FINISHING else {}
            return {"next": None if status in WITHOUT_NEXT else self.id(), "prior": self.id(),
                    "status": status, **share}
        if callback == "sync_region":
            return {"endpoint": choice(["begin", "end", "beginend"]), "kind": choice(SYNC_KINDS),
                    "parallel": choice([None, self.id()]), "task": self.id()}
        flags = self.some(CANCEL_FLAGS)
        if choice([True, False]):
            return {"flags": flags + ["discarded_task"], "task": self.id(), **self.share()}
        return {"flags": flags, "task": self.id()}

    def line(self):
        callback = self.random.choices(list(WEIGHTS), list(WEIGHTS.values()))[0]
        thread = self.random.randrange(THREADS)
        record = {"cb": callback, "seen": self.random.randrange(1 << 20), "seq": self.seqs[thread],
                  "thread": thread}
        self.seqs[thread] += 1
        return json.dumps(record | self.members(callback), sort_keys=True, separators=(",", ":"))


def main():
    if len(sys.argv) != 2 or not sys.argv[1].isdigit():
        sys.exit(__doc__)
    mixture = Mixture()
    print(HEADER)
    for _ in range(int(sys.argv[1])):
        print(mixture.line())


if __name__ == "__main__":
    main()
