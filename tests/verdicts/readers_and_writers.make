"""Tasks 2 to 9001: of three one writes a location, and two read it, which start in the wrong order."""
import json
print('{"format":"task-credit-audit","version":1}')
seqs = {}


def put(thread, seen, **members):
    seq = seqs.setdefault(thread, 0)
    print(json.dumps({**members, "thread": thread, "seen": seen, "seq": seq}))
    seqs[thread] += 1


put(0, 0, cb="implicit_task", endpoint="begin", parallel=0, task=1, actual=1, index=0, flags=["initial"])
order = []
for task in range(2, 9002, 3):
    for child, kind in ((task, "inout"), (task + 1, "in"), (task + 2, "in")):
        put(0, 0, cb="task_create", task=1, child=child, flags=["explicit"], deps=True)
        put(0, 0, cb="dependences", task=child, list=[{"type": kind, "var": 7}])
    order += [task, task + 2, task + 1]
put(0, 0, cb="task_schedule", prior=1, status="switch", next=2)
for seen, (task, following) in enumerate(zip(order, [*order[1:], 1])):
    put(0, seen, cb="task_schedule", prior=task, status="complete", next=following, root=1, path=[task - 2], kept=0)
