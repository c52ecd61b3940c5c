"""Prints a script of 2^22 + 1 calls."""
import sys
LINE = '{"cb":"thread_end","thread":0}\n'

print('{"format":"task-credit-script","version":1}')
for _ in range(2**6):
    sys.stdout.write(LINE * 2**16)
sys.stdout.write(LINE)
