"""An initial task with 2^14 - 1 children, whose ids all collide in the kit's hash tables with the seed that they
have by default (see tests/colliding_ids.c)."""
import os

with open(os.path.join(os.path.dirname(os.path.abspath(__file__)), 'colliding_ids.txt')) as it:
    tasks = it.read().split()
print('{"format":"task-credit-audit","version":1}')
print('{"actual":1,"cb":"implicit_task","endpoint":"begin","flags":["initial"],"index":0,"parallel":0,"seen":0,"seq":0,'
      f'"task":{tasks[0]},"thread":0}}')
for at, task in enumerate(tasks[1:]):
    print(f'{{"cb":"task_create","child":{task},"deps":false,"flags":["explicit"],"seen":0,"seq":{at + 1},'
          f'"task":{tasks[0]},"thread":0}}')
