#!/usr/bin/env python3
# A task whose path has 1,024 numbers creates no child: TooDeep. Its parent may create another one.
print('new 0 => ok')
print('0 implicit_begin 1 1 0 1 0 initial => ok')
for task in range(1, 1025):
    print(f'0 create {task} {task + 1} {task + 1} explicit => ok')
    print(f'0 schedule {task} switch {task + 1} => ok, Suspended')
print('0 create 1025 1026 1026 explicit => refused: 4 TooDeep')
print('0 schedule 1025 complete 1024 => ok')
print('0 create 1024 1026 1026 explicit => ok')
print('gather => ok')
print('check => yes: 2051 records, 1 entries, 1025 tasks, 0 waits')
