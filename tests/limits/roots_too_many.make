"""Prints a trace in which 2^20 + 1 initial tasks begin."""
import sys
ROOT = ('{"actual":1,"cb":"implicit_task","endpoint":"begin","flags":["initial"],"index":0,"parallel":0,"seen":0,"seq":0,'
        '"task":1,"thread":0}\n')

print('{"format":"task-credit-audit","version":2}')
for _ in range(2**4):
    sys.stdout.write(ROOT * 2**16)
sys.stdout.write(ROOT)
