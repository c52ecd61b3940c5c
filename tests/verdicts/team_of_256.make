"""256 members on 256 threads with 64 barriers each; the last one creates a child before its last barrier."""
import json
print('{"format":"task-credit-audit","version":1}')
seqs = {}


def put(thread, seen, **members):
    seq = seqs.setdefault(thread, 0)
    print(json.dumps({**members, "thread": thread, "seen": seen, "seq": seq}))
    seqs[thread] += 1


put(0, 0, cb="implicit_task", endpoint="begin", parallel=0, task=999, actual=1, index=0, flags=["initial"])
put(0, 0, cb="parallel_begin", task=999, parallel=5, requested=256)
for member in range(256):
    put(member, 0, cb="implicit_task", endpoint="begin", parallel=5, task=member, actual=256, index=member, flags=["implicit"])
for number in range(64):
    for member in range(256):
        if number == 63 and member == 255:
            put(member, 0, cb="task_create", task=member, child=1000, flags=["explicit"], deps=False)
        put(member, 0, cb="sync_region", kind="barrier", endpoint="beginend", parallel=5, task=member)
