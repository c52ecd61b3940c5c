"""Prints a script in which each task creates one and goes on to it, 1,025 times."""
import json


def line(**members):
    print(json.dumps(members, sort_keys=True, separators=(',', ':')))


line(format='task-credit-script', version=1)
line(cb='implicit_task', endpoint='begin', actual=1, index=0, flags=['initial'], parallel=0, task=1, thread=0)
for task in range(1, 1026):
    line(cb='task_create', task=task, child=task + 1, deps=False, flags=['explicit'], thread=0)
    line(cb='task_schedule', prior=task, status='switch', next=task + 1, thread=0)
