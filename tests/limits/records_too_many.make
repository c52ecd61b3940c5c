"""Prints a trace of 2^22 + 1 records."""
import sys
LINE = '{"cb":"thread_end","seen":0,"seq":0,"thread":0}\n'

print('{"format":"task-credit-audit","version":1}')
for _ in range(2**6):
    sys.stdout.write(LINE * 2**16)
sys.stdout.write(LINE)
