"""Tasks 2 to 501 read 64 locations each; the last two of them also write one."""
import json
print('{"format":"task-credit-audit","version":1}')
seqs = {}


def put(thread, seen, **members):
    seq = seqs.setdefault(thread, 0)
    print(json.dumps({**members, "thread": thread, "seen": seen, "seq": seq}))
    seqs[thread] += 1


put(0, 0, cb="implicit_task", endpoint="begin", parallel=0, task=1, actual=1, index=0, flags=["initial"])
for task in range(2, 502):
    kinds = ["in"] * 63 + ["out" if task >= 500 else "in"]
    put(0, 0, cb="task_create", task=1, child=task, flags=["explicit"], deps=True)
    put(0, 0, cb="dependences", task=task,
        list=[{"type": kind, "var": 64 + var if task < 500 else var} for var, kind in enumerate(kinds)])
put(0, 0, cb="task_schedule", prior=1, status="switch", next=2)
put(0, 0, cb="task_schedule", prior=2, status="yield", next=501)
