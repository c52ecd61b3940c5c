"""Prints a trace that makes 2^20 + 2 tasks by more than 2^22 records, and is a yes."""
import sys
ROOT = ('{"actual":1,"cb":"implicit_task","endpoint":"begin","flags":["initial"],"index":0,"parallel":0,"seen":0,"seq":0,'
        '"task":1,"thread":0}\n')
CREATION = '{"cb":"task_create","child":%d,"deps":false,"flags":["explicit"],"seen":%d,"seq":%d,"task":1,"thread":0}\n'
DISCARD = ('{"cb":"cancel","flags":["discarded_task"],"kept":0,"path":[%d],"root":1,"seen":%d,"seq":%d,"task":%d,'
           '"thread":0}\n')
WAIT = ('{"cb":"sync_region","endpoint":"%s","kind":"taskwait","parallel":null,"seen":%d,"seq":%d,"task":1,'
        '"thread":0}\n')

sys.stdout.write('{"format":"task-credit-audit","version":3}\n' + ROOT)
for number in range(2**20 + 1):
    seq = 4 * number
    sys.stdout.write(CREATION % (number + 2, number, seq + 1) + DISCARD % (number, number, seq + 2, number + 2)
                     + WAIT % ('begin', number + 1, seq + 3) + WAIT % ('end', number + 1, seq + 4))
