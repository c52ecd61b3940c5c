"""A chain of 1,000 tasks, and 99,000 tasks below the last of it."""
lines = ['{"actual":1,"cb":"implicit_task","endpoint":"begin","flags":["initial"],"index":0,"parallel":0,"task":0,']


def create(task, child):
    lines.append(f'{{"cb":"task_create","child":{child},"deps":false,"flags":["explicit"],"task":{task},')


def switch(task, child):
    lines.append(f'{{"cb":"task_schedule","next":{child},"prior":{task},"status":"switch",')


for task in range(1000):
    create(task, task + 1)
    switch(task, task + 1)
for leaf in range(99000):
    create(1000, 2000 + leaf)
print('{"format":"task-credit-audit","version":1}')
for seq, line in enumerate(lines):
    print(f'{line}"seen":0,"seq":{seq},"thread":0}}')
