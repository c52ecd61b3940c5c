"""100,000 children of one task, whose ids fall."""
lines = ['{"actual":1,"cb":"implicit_task","endpoint":"begin","flags":["initial"],"index":0,"parallel":0,"task":0,']


def create(task, child):
    lines.append(f'{{"cb":"task_create","child":{child},"deps":false,"flags":["explicit"],"task":{task},')


def switch(task, child):
    lines.append(f'{{"cb":"task_schedule","next":{child},"prior":{task},"status":"switch",')


for child in range(100000, 0, -1):
    create(0, child)
print('{"format":"task-credit-audit","version":1}')
for seq, line in enumerate(lines):
    print(f'{line}"seen":0,"seq":{seq},"thread":0}}')
