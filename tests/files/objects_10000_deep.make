"""Prints a record with objects in objects, 10,000 deep, in a member that is not known."""
import sys
sys.stdout.write('{"format":"task-credit-audit","version":1}\n' + '{"actual":1,"cb":"implicit_task","endpoint":"begin","flags":["initial"],"index":0,"parallel":0,"seen":0,"seq":0,"task":1,"thread":0,"more":'
                 + '{"a":' * 10_000 + '1' + '}' * 10_000 + '}' + '\n')
