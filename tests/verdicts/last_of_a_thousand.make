"""Tasks 2 to 1001 are created and waited for; all but the last are completed."""
import json
print('{"format":"task-credit-audit","version":1}')
seq = 0


def put(seen, **members):
    global seq
    print(json.dumps({**members, "seen": seen, "seq": seq, "thread": 0}))
    seq += 1


put(0, cb="implicit_task", endpoint="begin", parallel=0, task=1, actual=1, index=0, flags=["initial"])
for task in range(2, 1002):
    put(0, cb="task_create", task=1, child=task, flags=["explicit"], deps=False)
put(0, cb="sync_region", kind="taskwait", endpoint="begin", parallel=None, task=1)
for i in range(999):
    put(i, cb="task_schedule", prior=1, status="switch", next=i + 2)
    put(i, cb="task_schedule", prior=i + 2, status="complete", next=1, root=1, path=[i], kept=0)
put(999, cb="sync_region", kind="taskwait", endpoint="end", parallel=None, task=1)
