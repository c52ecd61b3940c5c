"""The figures of docs/SUMMARY.md by its definitions, as sets; it shares no code with tools/summary.py, and saves no
time. Records, places and definitions are those of model.py."""
from model import (BARRIERS, WAITS_FOR_TASKS, begin_of, covered, dependent_at, has_moved, in_own_order, is_explicit,
                   is_finished, kind_ended, known_after, own_before, places, predecessors, said)


def is_known(records, length, task):
    """IsKnown: the finishing records whose entries are below the length finish the task."""
    return is_finished(records, {k for k in places(records) if records[k].seen < length}, task)


def known_before(records, record):
    """What the thread of the record knew before it."""
    before = [it for it in records if it.thread == record.thread and it.seq == record.seq - 1]
    return known_after(before[0]) if before else 0


def length_at_begin(records, own, i):
    """The length at which the wait that ends at i, a place in own order, began."""
    task, kind, endpoint = own[i].region
    if kind == 'taskgroup':
        return own[max(k for k in own_before(own, task, i) + [i] * (endpoint == 'beginend')
                       if not own[k].schedule)].seen
    return known_before(records, own[i]) if endpoint == 'beginend' else own[begin_of(own, i)].seen


def waits(records):
    """Yields of each end of a wait its kind, its task, the tasks that it covers, and the length at which it began."""
    own = in_own_order(records)
    for i in places(own):
        kind = kind_ended(own[i])
        if kind in WAITS_FOR_TASKS and begin_of(own, i) is not None:
            name = 'barriers' if kind in BARRIERS else f'{kind}s'
            yield name, own[i].region.task, covered(own, i), length_at_begin(records, own, i)


def dependent_starts(records):
    """Yields the same of each start of a task that has predecessors."""
    own = in_own_order(records)
    for i in places(records):
        task = dependent_at(records, i)
        before = predecessors(own, task) if task is not None else set()
        if before:
            yield 'starts', task, before, next(it.seen for it in records if it.created == task)


def tasks_of(records):
    """The tasks of each kind."""
    finished = said('finish', records)
    return {'detached': {task for task, part in finished if part == 'Body'},
            'discarded': said('discarded', records),
            'moved': {task for task in said('started', records)
                      if is_explicit(records, task) and has_moved(records, task)}}


def figures(records):
    """By each kind how many there are, and how many were at risk."""
    awaited = [*waits(records), *dependent_starts(records)]
    risks = [(kind, task, {it for it in tasks if not is_known(records, length, it)})
             for kind, task, tasks, length in awaited]
    late = {task for _, _, tasks in risks for task in tasks}
    found = {kind: (sum(it[0] == kind for it in risks), sum(it[0] == kind and bool(it[2]) for it in risks))
             for kind in ('taskwaits', 'taskgroups', 'barriers', 'starts')}
    found |= {kind: (len(tasks), len(tasks & late)) for kind, tasks in tasks_of(records).items()}
    at_barriers = {task for kind, task, tasks in risks if kind == 'barriers' and tasks}
    teams = {member.parallel for member in said('joined', records) if member.member in at_barriers}
    nested = [it.forked[1] for it in records if it.forked and it.running not in said('begun_initial', records)]
    return {**found, 'nested': (len(nested), sum(it in teams for it in nested))}
