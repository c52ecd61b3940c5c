"""Prints a trace of 21 records, whose numbers begin with 1."""
print('{"format":"task-credit-audit","version":1}')
for seq in range(1, 22):
    print(f'{{"cb":"thread_end","seen":0,"seq":{seq},"thread":0}}')
