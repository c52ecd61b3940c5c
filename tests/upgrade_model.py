#!/usr/bin/env python3
"""upgrade_model.py [VERSION] < FILE: what `taskaudit upgrade --to VERSION` must print of a trace file that can be read, by
docs/FORMAT.md and docs/MODEL.md, "Turns". Without a version it is 2.

Turns are counted along the file: a task that runs next begins the turn whose number is how often it ran next on
earlier lines, and one more for a task that some line of the file begins as an initial or implicit task, whose turn
0 begins there. The task that stops ends the turn that it began last on the thread. This gives a task's own order
only while the task stays on one thread, so a task that runs next on another one is reported instead, on the first
such line. A file of version 2 has turns, and in version 3 another header; a file of the version that is asked for, or
of a newer one, is written as it is."""
import json
import sys

from model import DEMANDS_NEXT, STATUS_PART

FORMAT, FIRST_WITH_TURNS = 'task-credit-audit', 2
# The members that are written, beside cb, thread, seq and seen; claims and turns where a record has them.
MEMBERS = {'thread_begin': 'kind', 'thread_end': '', 'parallel_begin': 'task parallel requested',
           'parallel_end': 'task parallel', 'implicit_task': 'endpoint parallel task actual index flags',
           'task_create': 'task child flags deps', 'dependences': 'task list', 'task_schedule': 'prior status next',
           'sync_region': 'kind endpoint parallel task', 'cancel': 'task flags'}
TASK_FLAGS = 'initial implicit explicit target taskwait undeferred untied final mergeable merged'.split()
CANCEL_FLAGS = 'parallel sections loop taskgroup activated detected discarded_task'.split()


def runs_next(record):
    """Whether a task runs next."""
    return record['cb'] == 'task_schedule' and record['status'] in DEMANDS_NEXT


def finishes(record):
    """Whether the record has a claim."""
    if record['cb'] == 'task_schedule':
        return record['status'] in STATUS_PART
    return record['cb'] == 'cancel' and 'discarded_task' in record['flags']


def roots(records):
    """The tasks that some record begins as an initial or implicit task."""
    return {it['task'] for it in records if it['cb'] == 'implicit_task' and it['endpoint'] == 'begin'}


def moved_at(records):
    """The first place at which a task runs next that ran next earlier on another thread, or None."""
    threads = {}
    for i, it in enumerate(records):
        if runs_next(it) and threads.setdefault(it['next'], it['thread']) != it['thread']:
            return i
    return None


def turns_of(records):
    """By the place of each record where a task runs next: which turn of the task that stops ends, and which turn of that
    which runs next begins."""
    begun, last, found = roots(records), {}, {}
    counts = dict.fromkeys(begun, 1)
    for i, it in enumerate(records):
        if runs_next(it):
            ended = last.get((it['thread'], it['prior']), 0)
            begins = counts.get(it['next'], 0)
            found[i] = ended, begins
            counts[it['next']] = begins + 1
            last[it['thread'], it['next']] = begins
    return found


def flags_of(record):
    """The flags of a record in the order in which they are written."""
    known = CANCEL_FLAGS if record['cb'] == 'cancel' else TASK_FLAGS
    return [name for name in known if name in record['flags']]


def in_full(record, turns):
    """The members of a record as they are written, the turns too where there are some."""
    cb = record['cb']
    names = ['cb', 'thread', 'seq', 'seen', *MEMBERS[cb].split(), *['root', 'path', 'kept'] * finishes(record)]
    found = {name: record.get(name) for name in names}
    if 'flags' in found:
        found['flags'] = flags_of(record)
    if 'list' in found:
        found['list'] = [{'type': it['type'], 'var': it['var']} for it in record['list']]
    if turns:
        found['prior_turn'], found['next_turn'] = turns
    return found


def told_turns(record):
    """The turns that a record of version 2 or 3 has, or None."""
    return (record['prior_turn'], record['next_turn']) if runs_next(record) else None


def read(data):
    """The header and the records of a readable file."""
    header, *records = [json.loads(line) for line in data.split(b'\n')[:-1]]
    return header, records


def text_of(values):
    return ''.join(json.dumps(it, sort_keys=True, separators=(',', ':')) + '\n' for it in values).encode()


def answer(data, to=FIRST_WITH_TURNS):
    """The result for a readable file: standard output, standard error and the exit status."""
    header, records = read(data)
    version = max(header['version'], to)
    if header['version'] >= FIRST_WITH_TURNS:
        turns = {i: told_turns(it) for i, it in enumerate(records)}
    else:
        moved = moved_at(records)
        if moved is not None:
            return b'', f'not upgraded: line {moved + 2}: 2 Moved\n'.encode(), 2
        turns = turns_of(records)
    written = [{'format': FORMAT, 'version': version}, *(in_full(it, turns.get(i)) for i, it in enumerate(records))]
    return text_of(written), b'', 0


def ordered(data, order):
    """The readable file with its records in this order of their places, in the same version, as it is written."""
    header, records = read(data)
    has_turns = header['version'] >= FIRST_WITH_TURNS
    written = [in_full(records[i], told_turns(records[i]) if has_turns else None) for i in order]
    return text_of([{'format': FORMAT, 'version': header['version']}, *written])


def main():
    out, error, status = answer(sys.stdin.buffer.read(), *map(int, sys.argv[1:2]))
    sys.stdout.buffer.write(out)
    sys.stderr.buffer.write(error)
    return status


if __name__ == '__main__':
    sys.exit(main())
