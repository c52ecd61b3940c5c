"""Each of 100,000 tasks is created by the next one, whose own creation stands behind; the last is a root.

The threads are apart, so that no task is current where it creates: the first such record is told."""
print('{"format":"task-credit-audit","version":1}')
for task in range(100000):
    print(f'{{"cb":"task_create","child":{task},"deps":false,"flags":["explicit"],"seen":0,"seq":{task // 256},'
          f'"task":{task + 1},"thread":{task % 256}}}')
print('{"actual":1,"cb":"implicit_task","endpoint":"begin","flags":["initial"],"index":0,"parallel":0,"seen":0,'
      '"seq":391,"task":100000,"thread":0}')
