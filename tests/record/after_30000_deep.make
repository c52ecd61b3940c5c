"""Prints a script in which an `after` is lists in lists, 30,000 deep."""
print('{"format":"task-credit-script","version":1}')
print('{"after":' + '[' * 30_000 + ']' * 30_000 + ',"cb":"thread_end","thread":0}')
