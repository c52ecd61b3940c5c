#!/usr/bin/env python3
"""model.py < FILE: the answer of docs/MODEL.md to a readable trace file, found only by the definitions there.
model.py order < FILE: the same, and after a yes or a no an order of all records, one line `T S` (thread, seq) each.
model.py all MOST < FILE: the same, and after a no or a malformed each record at which it shows, at most MOST of them,
and how many are left out.

A file of version 3 has parallel regions inside others. Its records nest, and where that matters a function says so.

It shares no code with the program and saves no time: what is a relation there is a set here, and what happens
before what is a transitive closure. The first line of each function names the definition that it restates. What a
record says is in its attributes, which have the names of the module Records. `records` are in file order, and i, k,
a and b are places among them."""
import json
import sys
from collections import namedtuple
from types import SimpleNamespace

STATUS_PART = {'complete': 'Whole', 'cancel': 'Whole', 'taskwait_complete': 'Whole', 'detach': 'Body',
               'late_fulfill': 'Event'}
DEMANDS_NEXT = {'complete', 'yield', 'cancel', 'detach', 'switch'}
BARRIERS = {'barrier', 'barrier_implicit', 'barrier_explicit', 'barrier_implicit_workshare',
            'barrier_implicit_parallel'}
CALLED_BARRIERS = BARRIERS | {'barrier_implementation', 'barrier_teams'}
WAITS_FOR_TASKS = BARRIERS | {'taskwait', 'taskgroup'}
NEXT_STATE = {
    'Created': {'early_fulfill': 'EarlyWaiting', 'taskwait_complete': 'Done'},
    'Running': {'complete': 'Done', 'yield': 'Suspended', 'cancel': 'Done', 'detach': 'Detached',
                'early_fulfill': 'EarlyRunning', 'switch': 'Suspended'},
    'Suspended': {'early_fulfill': 'EarlyWaiting'},
    'EarlyRunning': {'complete': 'Done', 'yield': 'EarlyWaiting', 'switch': 'EarlyWaiting'},
    'EarlyWaiting': {},
    'Detached': {'late_fulfill': 'Done'},
    'Done': {},
}
START_STATE = {'Created': 'Running', 'Suspended': 'Running', 'EarlyWaiting': 'EarlyRunning'}
DISCARD_STATE = {'Created': 'Done'}

RECORDS_SAY = ['begun_root', 'ended_root', 'begun_initial', 'joined', 'forked', 'region_named', 'creation', 'created',
               'created_with_deps', 'dependences', 'made', 'started', 'told_turns', 'begun_turn', 'ended_turn',
               'suspended_turn', 'fulfilled', 'wait_completed', 'discarded', 'finish', 'schedule', 'claim', 'region',
               'flags', 'running', 'nests']
Turns = namedtuple('Turns', 'prior next')
Membership = namedtuple('Membership', 'parallel actual index member')
Claim = namedtuple('Claim', 'root path kept')
Region = namedtuple('Region', 'task kind endpoint')
Walk = namedtuple('Walk', 'roots outer current')
Yes = namedtuple('Yes', 'order')
No = namedtuple('No', 'place why task order')
Malformed = namedtuple('Malformed', 'place number name')
# All orders are tried of a trace with at most this many records, if no other number is given.
MOST_TRIED = 8


# What a record says

def read(data):
    """The records of a readable trace file: what its lines after the header say; None is what they do not say."""
    header, *lines = [json.loads(line) for line in data.split(b'\n')[:-1]]
    version = header['version']
    return [SimpleNamespace(thread=line['thread'], seq=line['seq'], seen=line['seen'],
                            **{**dict.fromkeys(RECORDS_SAY), **said_by(line, version >= 2), 'nests': version == 3})
            for line in lines]


def said_by(line, tells_turns):
    """The module Records: what its definitions give of a record, where they apply, except for `nests`, which is of the
    file: true exactly in one of version 3."""
    task, flags = line.get('task'), line.get('flags')
    match line['cb']:
        case 'parallel_begin':
            return {'forked': (task, line['parallel']), 'running': task, 'named': {task}}
        case 'parallel_end':
            return {'region_named': line['parallel'], 'running': task, 'named': {task}}
        case 'implicit_task' if line['endpoint'] == 'end':
            return {'ended_root': task, 'running': task, 'named': {task}}
        case 'implicit_task' if 'initial' in flags:
            return {'begun_root': task, 'begun_initial': task, 'made': task, 'flags': flags, 'named': {task}}
        case 'implicit_task':
            member = Membership(line['parallel'], line['actual'], line['index'], task)
            return {'begun_root': task, 'joined': member, 'region_named': line['parallel'], 'made': task,
                    'flags': flags, 'named': {task}}
        case 'task_create':
            child = line['child']
            return {'creation': (task, child), 'created': child, 'created_with_deps': child if line['deps'] else None,
                    'made': child, 'flags': flags, 'running': task, 'named': {task, child}}
        case 'dependences':
            return {'dependences': (task, line['list']), 'named': {task}}
        case 'task_schedule':
            return said_by_schedule(line, tells_turns)
        case 'sync_region':
            return {'region': Region(task, line['kind'], line['endpoint']), 'running': task, 'named': {task}}
        case 'cancel' if 'discarded_task' in flags:
            return {'discarded': task, 'finish': (task, 'Whole'), 'claim': claim_of(line),
                    'named': {task, line['root']}}
        case 'cancel':
            return {'running': task, 'named': {task}}
    return {'named': set()}


def said_by_schedule(line, tells_turns):
    """The module Records, of a task_schedule. Turns are recorded in versions 2 and 3, where a task runs next."""
    status, prior = line['status'], line['prior']
    says = {'schedule': (status, prior), 'named': {prior}}
    if status in DEMANDS_NEXT:
        told = Turns(line['prior_turn'], line['next_turn']) if tells_turns else None
        prior_turn, next_turn = told or (0, 0)
        says |= {'started': line['next'], 'running': prior, 'named': {prior, line['next']}, 'told_turns': told,
                 'begun_turn': (line['next'], next_turn), 'ended_turn': (prior, prior_turn),
                 'suspended_turn': (prior, prior_turn) if status in ('yield', 'switch') else None}
    if status in ('early_fulfill', 'late_fulfill'):
        says |= {'fulfilled': prior}
    if status == 'taskwait_complete':
        says |= {'wait_completed': prior}
    if status in STATUS_PART:
        says |= {'finish': (prior, STATUS_PART[status]), 'claim': claim_of(line),
                 'named': says['named'] | {line['root']}}
    return says


def claim_of(line):
    """claim: what a finishing record claims of the place of its task."""
    return Claim(line['root'], line['path'], line['kept'])


def kind_ended(record):
    """ends_wait, without the kinds: the kind of the region that ends, where one does, also at once."""
    return record.region.kind if record.region and record.region.endpoint != 'begin' else None


def known_after(record):
    """known_after: the ledger length that is known after the record."""
    return record.seen + 1 if record.finish else record.seen


# Places, and who created whom

def places(records):
    """places: all places, in file order."""
    return range(len(records))


def said(name, records):
    """at, for all places: what the records say by the definition of this name."""
    return {getattr(record, name) for record in records} - {None}


def is_root(records, task):
    """IsRoot: an initial or implicit task, which some record begins."""
    return task is not None and task in said('begun_root', records)


def is_explicit(records, task):
    """IsExplicit: a task that another task created."""
    return task is not None and task in said('created', records)


def own_before(records, task, i):
    """own_before: the places of the task's own records that are earlier than i, in order."""
    return [k for k in places(records)[:i] if records[k].running == task]


def children_between(records, parent, begin, i):
    """children_between: the children that the task created between the places begin and i, in order."""
    return [records[k].created for k in own_before(records, parent, i) if k > begin and records[k].creation]


def children_before(records, parent, i):
    """children_before: the children that the task created before the place i, in order."""
    return children_between(records, parent, -1, i)


def children(records, parent):
    """children: all children of the task, in order."""
    return children_before(records, parent, len(records))


def families(records, tasks):
    """IsFamily, for several tasks: these and all of their descendants."""
    found, grown = set(), set(tasks)
    while grown:
        found |= grown
        grown = {child for parent, child in said('creation', records) if parent in grown} - found
    return found


def parent_of(records, task):
    """IsCreatedAt: the parent of an explicit task."""
    return next(parent for parent, child in said('creation', records) if child == task)


def path_of(records, task):
    """HasPath: the root of the task, and its path below it."""
    path = []
    while not is_root(records, task):
        parent = parent_of(records, task)
        path.insert(0, children(records, parent).index(task))
        task = parent
    return task, path


# Turns

def turn_at(records):
    """turn_at, for all places: the turn of the task that the record is of, by the earlier records of its thread."""
    last, turns = {}, []
    for record in records:
        turns.append(last.get((record.thread, record.running), 0))
        if record.begun_turn:
            task, turn = record.begun_turn
            last[record.thread, task] = turn
    return turns


def own_places(records):
    """own_places: all places by turn, and then in file order."""
    return sorted(places(records), key=turn_at(records).__getitem__)


def in_own_order(records):
    """in_own_order: the records in that order, which in version 1 is file order."""
    return [records[i] for i in own_places(records)]


def own_place(records):
    """own_place, for all places: the position of the record at a place in that order."""
    return {i: at for at, i in enumerate(own_places(records))}


def begun_turns(records):
    """BeginsTurn: the pairs of a task and a turn that begins, where it runs next; or turn 0, where a root begins."""
    return said('begun_turn', records) | {(task, 0) for task in said('begun_root', records)}


def resumptions(records):
    """IsResumption: the pairs of places a, b where a suspends a task and b, another one, begins its next turn."""
    begins = {}
    for b in places(records):
        begins.setdefault(records[b].begun_turn, []).append(b)
    suspensions = [(a, records[a].suspended_turn) for a in places(records) if records[a].suspended_turn]
    return {(a, b) for a, (task, turn) in suspensions for b in begins.get((task, turn + 1), []) if a != b}


# Which task a thread runs

# at_start: before its first record a thread has no root and runs no task.
AT_START = Walk([], [], None)


def innermost(walk):
    """Walk: the innermost open root, where there is one."""
    return walk.roots[0] if walk.roots else None


def after_record(walk, record):
    """after_record: the state of the thread after the record. Where a root ends, the task that ran when it began is
    current, if the record nests, and else the root below."""
    if record.begun_root is not None:
        return Walk([record.begun_root, *walk.roots], [walk.current, *walk.outer], record.begun_root)
    if record.ended_root is not None:
        roots, outer = walk.roots[1:], walk.outer[1:]
        again = walk.outer if record.nests else roots
        return Walk(roots, outer, again[0] if again else None)
    return walk._replace(current=record.started) if record.started is not None else walk


def walks(records):
    """walk_of, for each place: the walk of the record's thread before it."""
    before, stands = [], {}
    for record in records:
        before.append(stands.get(record.thread, AT_START))
        stands[record.thread] = after_record(before[-1], record)
    return before


def misfits(records, walk, record):
    """Misfits: by the rules not_running, not_innermost, other_root and other_parent."""
    return (record.running not in (None, walk.current)
            or record.ended_root not in (None, innermost(walk))
            or is_root(records, record.started) and record.started != innermost(walk)
            or is_explicit(records, record.wait_completed)
            and parent_of(records, record.wait_completed) != walk.current)


# Regions and teams

def open_regions(records, task, i):
    """open_regions: the begins of the task's regions that are open before i, the innermost first."""
    opened = []
    for k in own_before(records, task, i):
        endpoint = records[k].region and records[k].region.endpoint
        if endpoint == 'begin':
            opened = [k, *opened]
        elif endpoint == 'end':
            opened = opened[1:]
    return opened


def begin_of(records, i):
    """IsRegion: the place at which the region that ends at i began, or None where EndsNoRegion holds."""
    task, kind, endpoint = records[i].region
    if endpoint == 'beginend':
        return i
    opened = open_regions(records, task, i)
    return opened[0] if opened and records[opened[0]].region.kind == kind else None


def barrier_begins(records, task):
    """barrier_begins: the places at which the task begins its barriers, in order, whether or not they end there."""
    regions = [(k, records[k].region) for k in own_before(records, task, len(records)) if records[k].region]
    return [k for k, region in regions if region.kind in BARRIERS and region.endpoint != 'end']


def members(records, parallel):
    """members: the members of the team of the parallel region, in file order."""
    return [record.joined for record in records if record.joined and record.joined.parallel == parallel]


def teammates(records, task):
    """IsTeammate: an initial task is a team of one; the members of one parallel region are in one team."""
    alone = {task} & said('begun_initial', records)
    together = [members(records, member.parallel) for member in said('joined', records) if member.member == task]
    return alone | {member.member for team in together for member in team}


# The states of a task

def moves_by(task, record):
    """moves_by: the moves of the task by the record, as the prior task before as the next one."""
    status, prior = record.schedule or (None, None)
    moves = [('Stopped', status, status is not None and prior == task), ('Started', None, record.started == task),
             ('Discarded', None, record.discarded == task)]
    return [(what, status) for what, status, happens in moves if happens]


def home_of(records, task):
    """home_of: the thread on which a root begins, or on which an explicit task first runs, or None."""
    begins = 'begun_root' if is_root(records, task) else 'started'
    return next((record.thread for record in records if getattr(record, begins) == task), None)


def moves_of(records, task):
    """moves_of: the task's moves, each with its place: early ones elsewhere, those at home, all others."""
    home = home_of(records, task)
    moves = [(i, move) for i in places(records) for move in moves_by(task, records[i])]
    at_home = [(i, move) for i, move in moves if records[i].thread == home]
    early = [(i, move) for i, move in moves if records[i].thread != home and move == ('Stopped', 'early_fulfill')]
    return early + at_home + [it for it in moves if it not in early + at_home]


def has_moved(records, task):
    """has_moved: the task runs next on another thread than its home, at a record with turns."""
    home = home_of(records, task)
    return any(record.started == task and record.told_turns and record.thread != home for record in records)


def moved_moves(records, task):
    """moved_moves: of a task that moved: early fulfilments; turn by turn its begin and its end; all others."""
    moves = [(i, move) for i in places(records) for move in moves_by(task, records[i])]
    early = [(i, move) for i, move in moves if move[1] == 'early_fulfill']
    begins = [(records[i].begun_turn[1], 0, i, move) for i, move in moves if move[0] == 'Started']
    ends = [(records[i].ended_turn[1], 1, i, move) for i, move in moves if move[1] in DEMANDS_NEXT]
    by_turn = [(i, move) for _, _, i, move in sorted(begins + ends)]
    return early + by_turn + [it for it in moves if it not in early + by_turn]


def all_moves_of(records, task):
    """all_moves_of: the task's moves, each with its place, in the order in which they are read."""
    return moved_moves(records, task) if has_moved(records, task) else moves_of(records, task)


def nature_of(records, task):
    """nature_of: whether the task is a root, a taskwait with dependences, or any other."""
    if is_root(records, task):
        return 'root'
    return 'taskwait' if any(record.created == task and 'taskwait' in record.flags for record in records) else 'any'


def may(nature, what, status):
    """may: a root only yields, switches and runs next; taskwait_complete is for taskwaits, which allow no other."""
    if nature == 'root':
        return what == 'Started' or status in ('yield', 'switch')
    return (nature == 'taskwait') == (status == 'taskwait_complete')


def state_after(state, what, status):
    """next_state_of, start_state_of, discard_state_of: the state after the move, or None where it is not allowed."""
    if what == 'Stopped':
        return NEXT_STATE[state].get(status)
    return (START_STATE if what == 'Started' else DISCARD_STATE).get(state)


# What happens before what, and orders

def starts(records):
    """IsStart: for each task that runs next in turn 0, the first place after which it does."""
    begun = [(i, *records[i].begun_turn) for i in reversed(places(records)) if records[i].begun_turn]
    return {task: i for i, task, turn in begun if turn == 0}


def program_steps(records):
    """IsProgramStep: the pairs of places a, b where a comes before b by a step that the program takes."""
    thread_order = {(a, b) for b in places(records) for a in places(records)[:b]
                    if records[a].thread == records[b].thread}
    creations = [(a, records[a].created) for a in places(records) if records[a].creation]
    starts_of = starts(records)
    born = {(a, b) for a, task in creations for b in places(records)
            if starts_of.get(task) == b or task in (records[b].discarded, records[b].fulfilled)}
    return thread_order | born | resumptions(records)


def steps(records):
    """IsStep: the program steps, and those from a finishing record to each that names a length above its entry."""
    return program_steps(records) | {(a, b) for a in places(records) if records[a].finish
                                     for b in places(records) if records[a].seen < records[b].seen}


def happens_before(records):
    """HappensBefore: for each place b the set of places from which steps lead to b (the steps, and their chains)."""
    before = [set() for _ in records]
    for a, b in steps(records):
        before[b].add(a)
    for middle in places(records):
        for b in places(records):
            if middle in before[b]:
                before[b] |= before[middle]
    return before


def greedy(before, may, standing):
    """IsGreedyAfter: after the placed records, repeatedly takes the first other place of `may` before which all
    that happens is placed, as long as there is one."""
    order = []
    while True:
        there = {*standing, *order}
        ready = next((i for i in sorted(may - there) if before[i] <= there), None)
        if ready is None:
            return order
        order.append(ready)


def earliest_order(before, i):
    """IsEarliestOrder: what happens before i, then i, then all others; both groups in greedy order."""
    first = [*greedy(before, before[i], []), i]
    return first + greedy(before, {*places(before)}, first)


def is_linearization(before, order):
    """IsLinearization: the order has each place once, and what happens before a place comes earlier than it."""
    return sorted(order) == [*places(before)] and all(before[i] <= {*order[:at]} for at, i in enumerate(order))


def linearizations(before, standing=()):
    """IsLinearization: yields each linearization that begins with the placed records."""
    missing = [i for i in places(before) if i not in standing]
    if not missing:
        yield standing
    for i in missing:
        if before[i] <= {*standing}:
            yield from linearizations(before, (*standing, i))


# What must be complete, and what is

def covered(records, i):
    """Covers: the tasks that the end at i covers."""
    kind = kind_ended(records[i])
    if kind not in WAITS_FOR_TASKS:
        return set()
    task, begin = records[i].region.task, begin_of(records, i)
    if kind == 'taskwait':
        return set(children_before(records, task, begin))
    if kind == 'taskgroup':
        return families(records, children_between(records, task, begin, i))
    number = barrier_begins(records, task).index(begin)
    return families(records, [child for other in teammates(records, task)
                              for start in barrier_begins(records, other)[number:number + 1]
                              for child in children_before(records, other, start)])


def depends_on(records, task):
    """DependsOn: the dependences in the lists of the task."""
    lists = [record.dependences for record in records if record.dependences]
    return [dep for listed, deps in lists if listed == task for dep in deps]


def conflict(dep, other):
    """conflict, at the same location: unless both are in, both inoutset or both mutexinoutset."""
    alike = dep['type'] == other['type'] and dep['type'] in ('in', 'inoutset', 'mutexinoutset')
    return dep['var'] == other['var'] and not alike


def predecessors(records, task):
    """IsPredecessor: the siblings with smaller numbers that have a dependence in conflict with one of the task's."""
    siblings = children(records, parent_of(records, task))
    return {sibling for sibling in siblings[:siblings.index(task)]
            if any(conflict(dep, other) for dep in depends_on(records, sibling) for other in depends_on(records, task))}


def starts_task(records, i):
    """StartsTask: the explicit task of which the record at i is the start, or None."""
    task = records[i].started
    return task if is_explicit(records, task) and starts(records).get(task) == i else None


def dependent_at(records, i):
    """dependent_at: the explicit task that starts at i, or the taskwait with dependences that is complete there."""
    return records[i].wait_completed if records[i].wait_completed is not None else starts_task(records, i)


def must_be_complete(records):
    """MustBeComplete: for each place the tasks that must be complete there; covers and predecessors by own order."""
    own, stands, found = in_own_order(records), own_place(records), []
    for i in places(records):
        task = dependent_at(records, i)
        found.append(covered(own, stands[i]) | (predecessors(own, task) if task is not None else set()))
    return found


def is_finished(records, counts, task):
    """IsFinished: of the records that count, one finishes the task whole, or one its body and one its event."""
    parts = {part for finished, part in said('finish', [records[k] for k in counts]) if finished == task}
    return 'Whole' in parts or {'Body', 'Event'} <= parts


def incomplete(records, required, i, earlier):
    """The tasks required at i and not complete there, if the earlier places count, and i where it starts a task."""
    counts = earlier if starts_task(records, i) is None else earlier | {i}
    return {task for task in required[i] if not is_finished(records, counts, task)}


def unfinished(records, required, i):
    """IsUnfinished: the tasks required at i and not complete by what the record there has seen (IsCompleteAt)."""
    return incomplete(records, required, i, {k for k in places(records) if records[k].seen < records[i].seen})


def incomplete_in(records, order, i):
    """IsViolation: the tasks required at i and not complete there in this order (IsCompleteIn)."""
    return incomplete(records, must_be_complete(records), i, {*order[:order.index(i)]})


def missed(records, required, before):
    """IsMissed: for each place the tasks required there and not complete in some linearization, by trying all of them."""
    tried = {(i, frozenset(order[:at])) for order in linearizations(before) for at, i in enumerate(order)}
    found = [set() for _ in records]
    for i, earlier in tried:
        found[i] |= incomplete(records, required, i, earlier)
    return found


# The causes of malformed. Each gives the places of the records that have it, if no cause above it occurs.

def seq_gap(records):
    """HasSeqGap: its seq is not the number of earlier records of its thread."""
    threads = [record.thread for record in records]
    return {i for i in places(records) if records[i].seq != threads[:i].count(threads[i])}


def created_twice(records):
    """IsMadeAgain, IsForkedAgain: an earlier record makes the same task, or begins the same parallel region."""
    def forks(some):
        return {parallel for _, parallel in said('forked', some)}
    return {i for i in places(records) if records[i].made in said('made', records[:i])
            or forks([records[i]]) & forks(records[:i])}


def rootless(records):
    """HasNoRoot: by the rules unmade, unrooted and no_region."""
    made, rooted = said('made', records), families(records, said('begun_root', records))
    regions = {parallel for _, parallel in said('forked', records)}
    return {i for i in places(records) if not records[i].named <= made
            or not {records[i].created} <= rooted | {None}
            or not {records[i].region_named} <= regions | {None}}


def not_current(records):
    """IsNotCurrent: it is the first record of its thread that does not fit the task that the thread runs."""
    first = {}
    for i, walk in enumerate(walks(records)):
        if misfits(records, walk, records[i]):
            first.setdefault(records[i].thread, i)
    return set(first.values())


def moved(records):
    """IsMoved: an explicit task runs next that ran next earlier in the file on another thread; no turns are
    recorded."""
    return {b for b in places(records) if not records[b].told_turns and is_explicit(records, records[b].started)
            for a in places(records)[:b]
            if records[a].started == records[b].started and records[a].thread != records[b].thread}


def turn_gap(records):
    """HasTurnGap: the turns that it gives are not those of its tasks."""
    return {i for i in places(records) if gap_rules(records, i)}


def gap_rules(records, i):
    """HasTurnGap: the rules that hold at i, of other_turn, begun_again, falling, of_root and missing."""
    if not records[i].told_turns:
        return set()
    (task, turn), thread = records[i].begun_turn, records[i].thread
    earlier_there = said('begun_turn', [record for record in records[:i] if record.thread == thread])
    rules = {'other_turn': records[i].told_turns.prior != turn_at(records)[i],
             'begun_again': (task, turn) in said('begun_turn', records[:i]),
             'falling': any(other == task and turn < later for other, later in earlier_there),
             'of_root': turn == 0 and is_root(records, task),
             'missing': turn > 0 and (task, turn - 1) not in begun_turns(records)}
    return {name for name, holds in rules.items() if holds}


def status_order(records):
    """HasNoState: it makes the first move of a task that the task's state does not allow."""
    found = set()
    for task in said('made', records):
        nature = nature_of(records, task)
        state = 'Running' if nature == 'root' else 'Created'
        for i, move in all_moves_of(records, task):
            state = state_after(state, *move) if may(nature, *move) else None
            if state is None:
                found.add(i)
                break
    return found


def region_order(records):
    """HasNoBegin, HasBarrier: a region ends that is not open, or an explicit task begins or ends a barrier."""
    at = [i for i in places(records) if records[i].region]
    return {i for i in at if kind_ended(records[i]) and begin_of(records, i) is None
            or records[i].region.kind in CALLED_BARRIERS and is_explicit(records, records[i].region.task)}


def lacks_members(records, i):
    """IsShort, by the rules outside, same_index, other_size and few: of the member that begins at i."""
    parallel, actual, index, _ = records[i].joined
    earlier = members(records[:i], parallel)
    return (index >= actual or any(member.index == index or member.actual != actual for member in earlier)
            or len(members(records, parallel)) < actual)


def lacks_barriers(records, i):
    """IsShort, by the rule missed: of the barrier that ends at i."""
    task = records[i].region.task
    number = barrier_begins(records, task).index(begin_of(records, i))
    return any(len(barrier_begins(records, other)) <= number for other in teammates(records, task))


def team_short(records):
    """IsShort: a team or one of its barriers lacks a member."""
    return {i for i in places(records) if records[i].joined and lacks_members(records, i)
            or kind_ended(records[i]) in BARRIERS and lacks_barriers(records, i)}


def nested_parallel(records):
    """IsNested: by the rules forked_inside, joined_inside and initial_inside; of records that do not nest."""
    initial = said('begun_initial', records)
    in_teams = {member.member for member in said('joined', records)}
    return {i for i, walk in enumerate(walks(records)) if not records[i].nests and (
            records[i].forked and records[i].running not in initial
            or records[i].joined and innermost(walk) in in_teams
            or records[i].begun_initial is not None and walk.roots)}


def region_nesting(records):
    """IsMisnested: a root begins inside another, in no region that the task which runs there began; of records that
    nest."""
    return {i for i, walk in enumerate(walks(records)) if records[i].nests and walk.roots
            and nesting_rules(records, walk, i)}


def nesting_rules(records, walk, i):
    """IsMisnested: the rules that hold at i, where the thread has an open root: other_region and other_league."""
    earlier_there = [record for record in records[:i] if record.thread == records[i].thread]
    begun = {parallel for task, parallel in said('forked', earlier_there) if task == walk.current}
    rules = {'other_region': records[i].joined and records[i].joined.parallel not in begun,
             'other_league': records[i].begun_initial is not None and not begun}
    return {name for name, holds in rules.items() if holds}


def deps_place(records):
    """HasMisplacedDeps: by the rules stray and missing, where AreFollowed pairs a creation with its list."""
    creations = {a for a in places(records) if records[a].created_with_deps is not None}
    lists = {b for b in places(records) if records[b].dependences}
    followed = set()
    for a in creations:
        b = next((b for b in places(records)[a + 1:] if records[b].thread == records[a].thread), None)
        if b in lists and records[b].dependences[0] == records[a].created:
            followed |= {a, b}
    return (creations | lists) - followed


def share_wrong(records):
    """HasWrongShare: a task is finished with a claim that is not right (IsRightClaim)."""
    finishing = [(i, records[i].finish[0]) for i in places(records) if records[i].finish]
    return {i for i, task in finishing
            if records[i].claim != Claim(*path_of(records, task), len(children(records, task)))}


def entry_twice(records):
    """RepeatsEntry: an earlier finishing record in file order names the same entry."""
    finishing = [i for i in places(records) if records[i].finish]
    return {i for i in finishing for k in finishing if k < i and records[k].seen == records[i].seen}


def entries_in(records):
    """entries_in: the final length of the ledger, the number of finishing records."""
    return len([record for record in records if record.finish])


def length_ahead(records):
    """IsAhead: it names an entry or a length that the ledger never has."""
    return {i for i in places(records) if known_after(records[i]) > entries_in(records)}


def length_back(records):
    """IsBehind: its ledger length is less than one known at a program step before."""
    return {b for a, b in program_steps(records) if records[b].seen < known_after(records[a])}


def no_order(records):
    """HasNoOrder, as the law no_order_is_a_circle says it: it happens before itself, or after a record that does."""
    before = happens_before(records)
    circle = {i for i in places(records) if i in before[i]}
    return {i for i in places(records) if before[i] & circle}


def target_task(records):
    """MakesTarget: a task is made that has the flag target, by a record that does not nest."""
    return {i for i in places(records) if records[i].made is not None and 'target' in records[i].flags
            and not records[i].nests}


# Each with its number; a trace shows one of Moved and TurnGap at most, and one of NestedParallel and RegionNesting.
ALL_CAUSES = {
    'SeqGap': (1, seq_gap), 'CreatedTwice': (2, created_twice), 'Rootless': (3, rootless),
    'NotCurrent': (4, not_current), 'Moved': (5, moved), 'TurnGap': (5, turn_gap), 'StatusOrder': (6, status_order),
    'RegionOrder': (7, region_order), 'TeamShort': (8, team_short), 'NestedParallel': (9, nested_parallel),
    'RegionNesting': (9, region_nesting), 'DepsPlace': (10, deps_place), 'ShareWrong': (11, share_wrong),
    'EntryTwice': (12, entry_twice), 'LengthAhead': (13, length_ahead), 'LengthBack': (14, length_back),
    'NoOrder': (15, no_order), 'TargetTask': (16, target_task)}
# The causes that no file of a version has.
NEVER = {1: {'TurnGap', 'RegionNesting'}, 2: {'Moved', 'RegionNesting'}, 3: {'Moved', 'NestedParallel', 'TargetTask'}}
IN_OWN_ORDER = {'RegionOrder', 'TeamShort', 'ShareWrong'}


def shows(records, name):
    """Shows: the places at which the trace shows the cause. Three causes are read in own order, all others in file
    order."""
    _, places_with = ALL_CAUSES[name]
    if name not in IN_OWN_ORDER:
        return places_with(records)
    file_places = own_places(records)
    return {file_places[at] for at in places_with(in_own_order(records))}


# The verdict and its report

def verdict(records, most_tried=MOST_TRIED):
    """IsVerdict: Malformed with the least cause that occurs, else No at the first unfinished record, else Yes. With a No
    goes an order too (IsShownBy)."""
    for name, (number, _) in ALL_CAUSES.items():
        found = shows(records, name)
        if found:
            return Malformed(min(found), number, name)
    before, required = happens_before(records), must_be_complete(records)
    left = [unfinished(records, required, i) for i in places(records)]
    check_earliest(records, required, before, left)
    if len(records) <= most_tried:
        check_all_orders(records, required, before, left)
    i = next((i for i in places(records) if left[i]), None)
    if i is None:
        return Yes(approved_order(before))
    task = next(record.created for record in records if record.created in left[i])
    why = 'Unfinished' if covered(in_own_order(records), own_place(records)[i]) else 'Predecessor'
    return No(i, why, task, counter_order(records, before, i, task))


def check_earliest(records, required, before, left):
    """Checks that in a trace without a cause the tasks which are unfinished by what a record has seen are those
    that some order leaves incomplete there. In each order all that happens before i comes before i, and in its
    earliest order nothing else."""
    earliest = [incomplete(records, required, i, before[i]) for i in places(records)]
    assert left == earliest, 'what the records have seen disagrees with the orders in which they are earliest'


def check_all_orders(records, required, before, left):
    """Checks the same by all orders; for few records."""
    assert left == missed(records, required, before), 'what the records have seen disagrees with all orders'


def counter_orders(records):
    """IsCounterOrder: in a trace without a cause, for each place and each task that is missed there an order."""
    before, required = happens_before(records), must_be_complete(records)
    return {(i, task): counter_order(records, before, i, task) for i in places(records)
            for task in incomplete(records, required, i, before[i])}


def approved_order(before):
    """IsApproved: the greedy order, after a check that it is a linearization."""
    order = greedy(before, {*places(before)}, [])
    assert is_linearization(before, order), 'the greedy order is no linearization'
    return order


def counter_order(records, before, i, task):
    """IsCounterOrder: the order in which i is earliest, after a check that it is a linearization and misses the task."""
    order = earliest_order(before, i)
    assert is_linearization(before, order), 'the order of a no is no linearization'
    assert task in incomplete_in(records, order, i), 'the order of a no leaves its task complete'
    return order


def report(records, found):
    """report_of and outcome_status: the line of a verdict, without its line feed, and the exit status."""
    if isinstance(found, Yes):
        tasks = len([record for record in records if record.creation])
        waits = len([record for record in records if kind_ended(record) in WAITS_FOR_TASKS])
        return f'yes: {len(records)} records, {entries_in(records)} entries, {tasks} tasks, {waits} waits', 0
    where = place_text(records, found.place)
    if isinstance(found, Malformed):
        return f'malformed: {where}: cause {found.number} {found.name}', 2
    if found.why == 'Unfinished':
        return f'no: {where}: task {found.task} unfinished', 1
    return f'no: {where}: task {found.task} must precede task {dependent_at(records, found.place)}', 1


def place_text(records, i):
    """record_place: where the record at i is; line 1 of the file is the header."""
    return f'line {i + 2}, thread {records[i].thread}, seq {records[i].seq}'


def violation_text(records, i, tasks):
    """violation_line: the record at i, of the tasks that are missed there the one created first, and how many others
    there are."""
    task = next(record.created for record in records if record.created in tasks)
    is_wait = bool(covered(in_own_order(records), own_place(records)[i]))
    why = 'unfinished' if is_wait else f'must precede task {dependent_at(records, i)}'
    others = f', and {len(tasks) - 1} more' if len(tasks) > 1 else ''
    return f'{place_text(records, i)}: task {task} {why}{others}'


def finding_lines(records, found, most):
    """findings_text: what `check --all` prints after the report: of a malformed trace each record that shows the cause,
    of a no each record at which some order misses a task, at most so many, and how many are left out."""
    if isinstance(found, Yes):
        return []
    if isinstance(found, Malformed):
        lines = [place_text(records, i) for i in sorted(shows(records, found.name))]
    else:
        required = must_be_complete(records)
        left = [unfinished(records, required, i) for i in places(records)]
        lines = [violation_text(records, i, left[i]) for i in places(records) if left[i]]
    return [*lines[:most], f'left out: {max(len(lines) - most, 0)}']


def order_lines(records, found):
    """What `order` prints after the report: thread and seq of each record, in the order that goes with a yes or a
    no."""
    order = [] if isinstance(found, Malformed) else found.order
    return [f'{records[i].thread} {records[i].seq}' for i in order]


def main(words):
    """Prints the answer, with the order or the findings where they are asked for, and gives the exit status."""
    asks_all = len(words) == 2 and words[0] == 'all' and words[1].isdigit()
    if words not in ([], ['order']) and not asks_all:
        print(__doc__)
        return 4
    records = read(sys.stdin.buffer.read())
    found = verdict(records)
    text, status = report(records, found)
    more = order_lines(records, found) if words == ['order'] else []
    print('\n'.join([text, *(finding_lines(records, found, int(words[1])) if asks_all else more)]))
    return status


if __name__ == '__main__':
    sys.exit(main(sys.argv[1:]))
