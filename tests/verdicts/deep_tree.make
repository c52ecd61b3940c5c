"""Each of 2,000 tasks creates and runs the next one."""
print('{"format":"task-credit-audit","version":1}')
print('{"actual":1,"cb":"implicit_task","endpoint":"begin","flags":["initial"],"index":0,"parallel":0,"seen":0,'
      '"seq":0,"task":0,"thread":0}')
for task in range(2000):
    print(f'{{"cb":"task_create","child":{task + 1},"deps":false,"flags":["explicit"],"seen":0,"seq":{2 * task + 1},'
          f'"task":{task},"thread":0}}')
    print(f'{{"cb":"task_schedule","next":{task + 1},"prior":{task},"seen":0,"seq":{2 * task + 2},"status":"switch",'
          '"thread":0}')
