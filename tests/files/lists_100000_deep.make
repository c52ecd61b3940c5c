"""Prints a record with lists in lists, 100,000 deep, in a member that is not known."""
import sys
sys.stdout.write('{"format":"task-credit-audit","version":1}\n' + '{"actual":1,"cb":"implicit_task","endpoint":"begin","flags":["initial"],"index":0,"parallel":0,"seen":0,"seq":0,"task":1,"thread":0,"more":'
                 + '[' * 100_000 + ']' * 100_000 + '}' + '\n')
