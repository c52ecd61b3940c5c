"""Prints a header with lists in lists, 30,000 deep, in a member that is not known."""
print('{"format":"task-credit-audit","version":1,"more":' + '[' * 30_000 + ']' * 30_000 + '}')
