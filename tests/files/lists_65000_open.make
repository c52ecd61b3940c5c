"""Prints a line with 65,000 lists that do not end."""
import sys
sys.stdout.write('{"format":"task-credit-audit","version":1}\n' + '{"more":' + '[' * 65_000 + '\n')
