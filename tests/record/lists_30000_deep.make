"""Prints a script whose call has lists in lists, 30,000 deep, in a member that is not known."""
print('{"format":"task-credit-script","version":1}')
print('{"cb":"thread_end","thread":0,"more":' + '[' * 30_000 + ']' * 30_000 + '}')
