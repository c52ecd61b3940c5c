"""One change of a random kind in the records of a trace, which leaves a file that can be read; for tests/compare.

Each change takes a source of chance and the records, and returns the changed records; None where it does not apply."""
import itertools

from model import CALLED_BARRIERS, DEMANDS_NEXT, STATUS_PART, WAITS_FOR_TASKS

TASKS = ('task', 'child', 'prior', 'next', 'root')
STATUSES = sorted(DEMANDS_NEXT | STATUS_PART.keys() | {'early_fulfill'})
KINDS = sorted(CALLED_BARRIERS | WAITS_FOR_TASKS | {'reduction'})
SMALL = ('actual', 'index', 'parallel', 'requested', 'seq')


def numbered(records):
    """The records, where each thread's numbers are counted anew."""
    counts = {}
    for it in records:
        it['seq'] = counts[it['thread']] = counts.get(it['thread'], -1) + 1
    return records


def those(records, test):
    """The places of the records of which the test holds."""
    return [i for i, it in enumerate(records) if test(it)]


def one_of(chance, records, test=lambda _: True):
    """A record of which the test holds, or None."""
    found = those(records, test)
    return records[chance.choice(found)] if found else None


def finishes(it):
    return it.get('status') in STATUS_PART or 'discarded_task' in it.get('flags', ())


def tasks_in(records):
    return sorted({it[name] for it in records for name in TASKS if it.get(name) is not None})


def other_task(chance, records):
    """A task of the trace, or at times an unknown one."""
    known = tasks_in(records)
    return chance.choice(known) if known and chance.random() < 0.9 else chance.randint(0, 2**64 - 1)


def with_claim(chance, records, it):
    """Gives the record what its status or its flags demand: a next task, a claim, or neither."""
    if it['cb'] == 'task_schedule':
        it['next'] = (it['next'] or other_task(chance, records)) if it['status'] in DEMANDS_NEXT else None
    if finishes(it) and 'root' not in it:
        it.update(root=other_task(chance, records), path=[0], kept=0)
    return records


# The ledger

def seen_other(chance, records):
    it = one_of(chance, records)
    if it:
        entries = len(those(records, finishes))
        it['seen'] = chance.choice([it['seen'] + 1, max(0, it['seen'] - 1), chance.randint(0, entries + 1)])
    return it and records


def seen_repeated(chance, records):
    """A record that reads the ledger's length repeats what its thread last knew."""
    it = one_of(chance, records, lambda it: not finishes(it) and it['cb'] in ('task_schedule', 'sync_region'))
    if not it:
        return None
    before = [other for other in records if other['thread'] == it['thread'] and other['seq'] < it['seq']]
    it['seen'] = max((other['seen'] + finishes(other) for other in before), default=0)
    return records


def entries_exchanged(chance, records):
    found = those(records, finishes)
    if len(found) < 2:
        return None
    one, other = (records[i] for i in chance.sample(found, 2))
    one['seen'], other['seen'] = other['seen'], one['seen']
    return records


def entry_twice(chance, records):
    """Two finishing records name one entry."""
    found = those(records, finishes)
    if len(found) < 2:
        return None
    one, other = (records[i] for i in chance.sample(found, 2))
    one['seen'] = other['seen']
    return records


# Whole records

def record_lost(chance, records):
    if not records:
        return None
    del records[chance.randrange(len(records))]
    return numbered(records) if chance.random() < 0.9 else records


def record_twice(chance, records):
    if not records:
        return None
    at = chance.randrange(len(records))
    return numbered([*records[:at + 1], dict(records[at]), *records[at + 1:]])


def records_exchanged(chance, records):
    """Two records of one thread that follow each other there."""
    it = one_of(chance, records)
    follows = it and next((other for other in records if (other['thread'], other['seq']) == (
        it['thread'], it['seq'] + 1)), None)
    if not follows:
        return None
    one, other = records.index(it), records.index(follows)
    records[one], records[other] = follows, it
    return numbered(records)


def record_elsewhere(chance, records):
    """A line is moved elsewhere in the file, as a line of its own thread or of another one."""
    if not records:
        return None
    it = records.pop(chance.randrange(len(records)))
    if chance.random() < 0.5:
        it['thread'] = chance.randint(0, 4)
    records.insert(chance.randint(0, len(records)), it)
    return numbered(records) if chance.random() < 0.9 else records


def known_before(records, thread, at):
    """The ledger length that the thread knew before this place."""
    return max((it['seen'] + finishes(it) for it in records[:at] if it['thread'] == thread), default=0)


def created_late(chance, records):
    """A task is created later by its creator, perhaps after its start."""
    made = one_of(chance, records, lambda it: it.get('deps') is False)
    at = made and records.index(made)
    later = made and [i for i in those(records, lambda it: it['thread'] == made['thread'] and made['task'] in (
        it.get('task'), it.get('next'))) if i > at]
    if not later:
        return None
    behind = chance.choice(later)
    made['seen'] = known_before(records, made['thread'], behind + 1)
    return numbered([*records[:at], *records[at + 1:behind + 1], made, *records[behind + 1:]])


def run_at(records, at, task, place):
    """The records, where the task runs for a moment on a thread on which another one runs there: the place's both."""
    thread, current = place
    both = {'cb': 'task_schedule', 'thread': thread, 'status': 'switch', 'seen': known_before(records, thread, at)}
    run = [{**both, 'prior': current, 'next': task}, {**both, 'prior': task, 'next': current}]
    return numbered([*records[:at], *run, *records[at:]])


def run_too_soon(chance, records):
    """A task runs before it is created."""
    made = one_of(chance, records, lambda it: it['cb'] == 'task_create')
    return made and run_at(records, records.index(made), made['child'], (made['thread'], made['task']))


def run_elsewhere(chance, records):
    """An explicit task that runs on a thread does so on another one too, after a record that shows what runs there."""
    created = {it['child'] for it in records if it['cb'] == 'task_create'}
    start = one_of(chance, records, lambda it: it.get('next') in created)
    told = start and those(records, lambda it: it['thread'] != start['thread'] and (
        it.get('next') is not None or it.get('deps') is False))
    if not told:
        return None
    at = chance.choice(told)
    place = records[at]['thread'], records[at]['next' if 'next' in records[at] else 'task']
    return run_at(records, at + 1, start['next'], place)


def cut(chance, records):
    return records[:chance.randint(0, len(records))]


def thread_lost(chance, records):
    lost = chance.randint(0, 3)
    return [it for it in records if it['thread'] != lost]


def root_added(chance, records):
    """An initial task, or a member of a region, begins once more."""
    known = [it['parallel'] for it in records if it['cb'] == 'parallel_begin']
    thread, flag = chance.randint(0, 3), chance.choice(['initial', 'implicit'])
    at = chance.randint(0, len(records))
    record = {'cb': 'implicit_task', 'thread': thread, 'endpoint': 'begin', 'flags': [flag], 'task': 10**6, 'index': 0,
              'actual': 1, 'parallel': chance.choice([*known, 5]), 'seen': known_before(records, thread, at)}
    return numbered([*records[:at], record, *records[at:]])


# Members

def task_other(chance, records):
    it = one_of(chance, records, lambda it: any(it.get(name) is not None for name in TASKS))
    if it:
        name = chance.choice([name for name in TASKS if it.get(name) is not None])
        it[name] = other_task(chance, records)
    return it and records


def status_other(chance, records):
    it = one_of(chance, records, lambda it: 'status' in it)
    if it:
        it['status'] = chance.choice(STATUSES)
        with_claim(chance, records, it)
    return it and records


def region_other(chance, records):
    it = one_of(chance, records, lambda it: it['cb'] == 'sync_region')
    if it and chance.random() < 0.6:
        it['kind'] = chance.choice(KINDS)
    elif it:
        it['endpoint'] = chance.choice(['begin', 'end', 'beginend'])
    return it and records


def claim_other(chance, records):
    it = one_of(chance, records, finishes)
    if it:
        change = chance.choice(['kept', 'longer', 'shorter', 'number'])
        if change == 'kept':
            it['kept'] = abs(it['kept'] + chance.choice([-1, 1]))
        elif change == 'longer':
            it['path'] = [*it['path'], 0]
        elif change == 'shorter':
            it['path'] = it['path'][1:]
        else:
            it['path'] = [*it['path'][:-1], chance.randint(0, 3)]
    return it and records


def flags_other(chance, records):
    it = one_of(chance, records, lambda it: 'flags' in it)
    if not it:
        return None
    names = {'implicit_task': ['initial', 'target', 'implicit'], 'task_create': ['target', 'taskwait', 'explicit']}
    flag = chance.choice(names.get(it['cb'], ['discarded_task', 'parallel']))
    it['flags'] = [name for name in it['flags'] if name != flag] if flag in it['flags'] else [*it['flags'], flag]
    return with_claim(chance, records, it)


def dependences_other(chance, records):
    it = one_of(chance, records, lambda it: it['cb'] == 'dependences' or it.get('deps') is not None)
    if it and it['cb'] == 'task_create':
        it['deps'] = not it['deps']
    elif it:
        item = {'type': chance.choice(['in', 'out', 'mutexinoutset', 'inoutset']), 'var': chance.randint(7, 9)}
        it['list'] = chance.choice([[item], [*it['list'], item], it['list'][1:]])
    return it and records


def number_other(chance, records):
    name = chance.choice(SMALL)
    it = one_of(chance, records, lambda it: it.get(name) is not None)
    if it:
        it[name] = chance.choice([it[name] + 1, max(0, it[name] - 1), chance.randint(0, 4)])
    return it and records


# Turns

def runs_next(it):
    return it.get('status') in DEMANDS_NEXT


def stays(records, task):
    """The stays of the task on a thread: of each, in file order, the place at which the task runs next, and those
    at which it then stops there."""
    found = []
    for i, it in enumerate(records):
        if runs_next(it) and it['next'] == task:
            found.append((i, []))
        if runs_next(it) and it['prior'] == task:
            begun = [ends for begin, ends in found if begin < i and records[begin]['thread'] == it['thread']]
            if begun:
                begun[-1].append(i)
    return found


def tell(records, stay, turn):
    """Records this turn of a task, at its begin and at its ends."""
    begin, ends = stay
    records[begin]['next_turn'] = turn
    for i in ends:
        records[i]['prior_turn'] = turn


def some_stays(chance, records, most, test=lambda *stays: True):
    """The stays of a task, and this many of them in file order of which the test holds; or None."""
    tasks = sorted({it['next'] for it in records if runs_next(it)})
    for task in chance.sample(tasks, len(tasks)):
        found = stays(records, task)
        chosen = [it for it in itertools.combinations(found, most) if test(*it)]
        if chosen:
            return found, chance.choice(chosen)
    return None


def share_thread(records):
    """Whether two stays are on one thread."""
    return lambda one, other: records[one[0]]['thread'] == records[other[0]]['thread']


def turn_other(chance, records):
    """A record gives another turn of the task that stops, or of the one that runs next."""
    it = one_of(chance, records, runs_next)
    if it:
        name = chance.choice(['prior_turn', 'next_turn'])
        it[name] = chance.choice([it[name] + 1, max(0, it[name] - 1), chance.randint(0, 4)])
    return it and records


def turn_begun_again(chance, records):
    """A task begins one turn twice, and ends both as it began them."""
    found = some_stays(chance, records, 2)
    if not found:
        return None
    one, other = chance.sample(found[1], 2)
    tell(records, one, records[other[0]]['next_turn'])
    return records


def turns_falling(chance, records):
    """Two turns of a task on one thread change places, so that the later one begins first."""
    found = some_stays(chance, records, 2, share_thread(records))
    return found and exchanged(records, *found[1])


def turns_apart_exchanged(chance, records):
    """Two turns of a task on two threads change places, so that its parts ran in another order."""
    found = some_stays(chance, records, 2, lambda *two: not share_thread(records)(*two))
    return found and exchanged(records, *found[1])


def exchanged(records, one, other):
    turn, other_turn = records[one[0]]['next_turn'], records[other[0]]['next_turn']
    tell(records, one, other_turn)
    tell(records, other, turn)
    return records


def turn_of_root(chance, records):
    """A root begins turn 0 where it first runs next, and each later turn is one less too."""
    roots = {it['task'] for it in records if it['cb'] == 'implicit_task'}
    return turns_moved(records, some_stays(chance, records, 1, lambda stay: records[stay[0]]['next'] in roots), 0, -1)


def turn_missing(chance, records):
    """From some turn on each turn of a task is one more, so that no record begins the first of them."""
    found = some_stays(chance, records, 1)
    return turns_moved(records, found, found and records[found[1][0][0]]['next_turn'], 1)


def turns_moved(records, found, least, change):
    """Of the chosen task each turn from the least on is so much more."""
    for stay in found[0] if found else []:
        turn = records[stay[0]]['next_turn']
        if turn >= least:
            tell(records, stay, turn + change)
    return found and records


def counted_turns(records):
    """The records, where turns are counted anew: the begins of a task by the recorded turn, and then in file order.
    A begin without a turn has the last recorded turn of its thread."""
    roots = {it['task'] for it in records if it['cb'] == 'implicit_task' and it['endpoint'] == 'begin'}
    begins, last, counts = [], {}, {}
    for i, it in enumerate(records):
        if runs_next(it):
            place = it['thread'], it['next']
            last[place] = it.get('next_turn', last.get(place, 0))
            begins.append((last[place], i))
    for _, i in sorted(begins):
        task = records[i]['next']
        records[i]['next_turn'] = counts[task] = counts.get(task, 0 if task in roots else -1) + 1
    return with_ended_turns(records)


def implied_turns(records):
    """The records, where turns are those that the order of the file implies, whatever was recorded."""
    return counted_turns([{name: value for name, value in it.items() if name != 'next_turn'} for it in records])


def with_ended_turns(records):
    """The records, where each turn that ends is the one that the task began last on the thread."""
    last = {}
    for it in records:
        if runs_next(it):
            it['prior_turn'] = last.get((it['thread'], it['prior']), 0)
            last[it['thread'], it['next']] = it['next_turn']
    return records


CHANGES = (seen_other, seen_repeated, entries_exchanged, entry_twice, record_lost, record_twice, records_exchanged,
           record_elsewhere, created_late, run_too_soon, run_elsewhere, cut, thread_lost, root_added, task_other,
           status_other, region_other, claim_other, flags_other, dependences_other, number_other)
TURN_CHANGES = (turn_other, turn_begun_again, turns_falling, turns_apart_exchanged, turn_of_root, turn_missing)


# Regions inside others

def joins(it, parallel=None):
    """Whether a member begins, of this region if one is given."""
    begins = it['cb'] == 'implicit_task' and it['endpoint'] == 'begin' and 'initial' not in it['flags']
    return begins and parallel in (None, it['parallel'])


def added(records, at, thread, *bodies):
    """The records with some more of a thread at this place."""
    more = [{**body, 'thread': thread, 'seen': known_before(records, thread, at)} for body in bodies]
    return numbered([*records[:at], *more, *records[at:]])


def task_running(chance, records):
    """A place in the file, and a thread with the task that it runs there; or None."""
    told = those(records, lambda it: it.get('next') is not None or it.get('deps') is False or it['cb'] == 'sync_region')
    if not told:
        return None
    at = chance.choice(told)
    return at + 1, records[at]['thread'], records[at]['next' if 'next' in records[at] else 'task']


def root_of(parallel, flag, endpoint):
    return {'cb': 'implicit_task', 'endpoint': endpoint, 'flags': [flag], 'task': 10**6, 'index': 0, 'actual': 1,
            'parallel': parallel}


def initial_inside(chance, records):
    """An initial task begins and ends inside a task, which may have begun a region."""
    found = task_running(chance, records)
    if not found:
        return None
    at, thread, _ = found
    return added(records, at, thread, *(root_of(chance.choice([0, 100]), 'initial', it) for it in ('begin', 'end')))


def member_inside(chance, records):
    """A member begins and ends inside a task, in a region that some task begins there or elsewhere."""
    one, other = task_running(chance, records), task_running(chance, records)
    if not one:
        return None
    places = sorted([(*one, [root_of(10**6, 'implicit', it) for it in ('begin', 'end')]),
                     (*other, [{'cb': 'parallel_begin', 'task': other[2], 'parallel': 10**6, 'requested': 1}])],
                    key=lambda it: it[0], reverse=True)
    for at, thread, _, bodies in places:
        records = added(records, at, thread, *bodies)
    return records


def regions_exchanged(chance, records):
    """Two parallel regions exchange their numbers where they begin."""
    found = those(records, lambda it: it['cb'] == 'parallel_begin')
    if len(found) < 2:
        return None
    one, other = (records[i] for i in chance.sample(found, 2))
    one['parallel'], other['parallel'] = other['parallel'], one['parallel']
    return records


def region_lost(chance, records):
    """A region of which no member begins, as a league, is not recorded."""
    begin = one_of(chance, records, lambda it: it['cb'] == 'parallel_begin' and not any(
        joins(other, it['parallel']) for other in records))
    return begin and numbered([it for it in records if it['cb'] not in ('parallel_begin', 'parallel_end')
                               or it['parallel'] != begin['parallel']])


def begun_by_another(chance, records):
    """A parallel region is begun by the task that its thread ran before."""
    def switch_before(i):
        return next((k for k in reversed(range(i)) if records[k]['thread'] == records[i]['thread']
                     and records[k].get('next') == records[i]['task'] != records[k]['prior']), None)
    begins = those(records, lambda it: it['cb'] == 'parallel_begin')
    pairs = [(i, switch_before(i)) for i in begins if switch_before(i) is not None]
    if not pairs:
        return None
    i, k = chance.choice(pairs)
    begin = {**records[i], 'task': records[k]['prior'], 'seen': known_before(records, records[k]['thread'], k)}
    return numbered([*records[:k], begin, *records[k:i], *records[i + 1:]])


def encountering_runs(chance, records):
    """A task runs for a moment while a root of the region that it began is open on its thread."""
    inside = []
    for i, it in enumerate(records):
        before = next((other for other in reversed(records[:i]) if other['thread'] == it['thread']), None)
        if before and before['cb'] == 'parallel_begin' and it['cb'] == 'implicit_task':
            inside.append((i + 1, before['task'], (it['thread'], it['task'])))
    return run_at(records, *chance.choice(inside)) if inside else None


def thread_inside(chance, records):
    """All that a thread recorded is recorded by another one, inside a task that runs there."""
    threads = sorted({it['thread'] for it in records if joins(it)})
    found = task_running(chance, records)
    if not found or not threads:
        return None
    at, thread, _ = found
    mover = chance.choice(threads)
    if mover == thread:
        return None
    own = [it | {'thread': thread} for it in records if it['thread'] == mover]
    rest = [[it for it in part if it['thread'] != mover] for part in (records[:at], records[at:])]
    return numbered([*rest[0], *own, *rest[1]])


NESTING_CHANGES = (initial_inside, member_inside, regions_exchanged, region_lost, begun_by_another, encountering_runs,
                   thread_inside)


def changed(chance, records, changes=CHANGES):
    """The records with one change, by the first kind that applies; as they are where none does."""
    for change in chance.sample(changes, len(changes)):
        found = change(chance, [dict(it) for it in records])
        if found is not None:
            return found
    return records


def changed_with_turns(chance, records):
    """The same of a trace of version 2. A third of the changes are of turns; after most of the others the turns are
    counted anew."""
    if chance.random() < 0.33:
        return changed(chance, records, TURN_CHANGES)
    found = changed(chance, records)
    if chance.random() < 0.75:
        return chance.choice([counted_turns, implied_turns])(found)
    return [{'prior_turn': 0, 'next_turn': 0} | it if runs_next(it) else it for it in found]


def changed_with_nesting(chance, records):
    """The same of a trace of version 3. Two fifths of the changes are of roots and regions."""
    if chance.random() < 0.4:
        return counted_turns(changed(chance, records, NESTING_CHANGES))
    return changed_with_turns(chance, records)
