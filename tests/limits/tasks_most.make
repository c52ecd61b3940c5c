"""Prints a trace that makes 2^20 tasks."""
import sys
ROOT = ('{"actual":1,"cb":"implicit_task","endpoint":"begin","flags":[],"index":0,"parallel":0,"seen":0,"seq":0,"task":1,'
        '"thread":0}')
CREATION = '{"cb":"task_create","child":2,"deps":false,"flags":[],"seen":0,"seq":0,"task":1,"thread":0}\n'

print('{"format":"task-credit-audit","version":1}')
print(ROOT)
for _ in range(2**4):
    sys.stdout.write(CREATION * (2**16 - 1))
sys.stdout.write(CREATION * (2**4 - 1))
