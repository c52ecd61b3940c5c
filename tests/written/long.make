"""Each kind of line 60 times, more than one block of the writer."""
import os
here = os.path.dirname(os.path.abspath(__file__))
print('{"format":"task-credit-audit","version":1}')
with open(os.path.join(here, '../lines/as_written.jsonl')) as it:
    print(it.read() * 60, end='')
