import sys
sys.stdout.write('{"format":"task-credit-audit","version":1}\n' + " " * 65536 + "")
