"""Prints a trace with a task that never runs, and 22 taskwaits of the task that created it."""
ROOT = ('"actual":1,"cb":"implicit_task","endpoint":"begin","flags":["initial"],"index":0,"parallel":0,"seen":0,"seq":0,'
        '"task":1,"thread":0')

print('{"format":"task-credit-audit","version":1}')
print(f'{{{ROOT}}}')
print('{"cb":"task_create","child":2,"deps":false,"flags":["explicit"],"seen":0,"seq":1,"task":1,"thread":0}')
for seq in range(2, 46):
    endpoint = 'end' if seq % 2 else 'begin'
    print(f'{{"cb":"sync_region","endpoint":"{endpoint}","kind":"taskwait","parallel":null,"seen":0,"seq":{seq},"task":1,'
          '"thread":0}')
