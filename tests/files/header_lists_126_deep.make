"""Prints a header with lists in lists, 126 deep, in a member that is not known."""
print('{"format":"task-credit-audit","version":1,"more":' + '[' * 126 + ']' * 126 + '}')
