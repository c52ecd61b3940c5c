#!/usr/bin/env python3
# 65 dependences are one too many: the list comes back, and they are awaited still; 64 are taken.
items = [f'in:{number}' for number in range(65)]
print('new 0 => ok')
print('0 implicit_begin a 1 0 1 0 initial => ok')
print('0 create a b 2 explicit deps => ok')
print(f'0 dependences b {",".join(items)} => refused: 2 Full, 65 items back')
print('0 stands => Some(1) Some(1) Some(2) 0')
print(f'0 dependences b {",".join(items[:64])} => ok')
print('gather => ok')
print('check => yes: 3 records, 0 entries, 1 tasks, 0 waits')
