"""Prints a script whose calls make 2^20 + 1 tasks."""
print('{"format":"task-credit-script","version":1}')
print('{"actual":1,"cb":"implicit_task","endpoint":"begin","flags":["initial"],"index":0,"parallel":0,"task":1,"thread":0}')
for task in range(2, 2**20 + 2):
    print(f'{{"cb":"task_create","child":{task},"deps":false,"flags":[],"task":1,"thread":0}}')
