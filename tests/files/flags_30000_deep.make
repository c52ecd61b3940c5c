"""Prints a record whose flags are lists in lists, 30,000 deep."""
import sys
sys.stdout.write('{"format":"task-credit-audit","version":1}\n' + '{"flags":' + '[' * 30_000 + ']' * 30_000
                 + ',"cb":"implicit_task","thread":0}' + '\n')
