"""The trace of examples/recorder.py with one mistake in it, for the cases of this folder."""
import json
import os
import sys

sys.dont_write_bytecode = True
sys.path.insert(0, os.path.join(os.path.dirname(os.path.abspath(__file__)), '../../examples'))
from recorder import trace


def numbered(records):
    """The records, where each thread's numbers are counted anew."""
    counts = {}
    for it in records:
        it['seq'] = counts[it['thread']] = counts.get(it['thread'], -1) + 1
    return records


def show(change=lambda records: records, *words):
    """Prints the trace, as the change makes it of the records of the right one."""
    header, *records = trace(*words)
    print('\n'.join(json.dumps(it) for it in [header, *change(records)]))
