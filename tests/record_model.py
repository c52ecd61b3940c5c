"""What `record` must return for a script, by docs/FORMAT.md, docs/RECORDER.md and docs/MODEL.md.

Whether a call is refused depends only on its tasks and on its thread's earlier calls, and a step waits only for
earlier lines. So the calls are made one by one in file order: the first that is refused must be reported; and where
none is, each record is known except for its `seen`. These lengths may be any that a run can give, and
`wrong_lengths` says whether there is one."""
import json
from collections import defaultdict

from model import CALLED_BARRIERS, DEMANDS_NEXT, STATUS_PART, may, state_after

# by the version of a script the header of the trace
HEADERS = {version: f'{{"format":"task-credit-audit","version":{version + 1}}}' for version in (1, 2)}
DEEPEST = 1024
WRONG_STATE, TOO_DEEP = '3 WrongState', '4 TooDeep'
# why a call is WrongState
REASONS = ('a list is awaited', 'no such list is awaited', 'has the flag target', 'a root is open',
           'a member is open', 'not a region of the running task', 'no region of the running task',
           'no root of the thread', 'no initial task', 'does not run',
           'a barrier of an explicit task', 'no such region is open', 'cannot be discarded', 'cannot stop so',
           'the parent does not run', 'cannot run next', 'another root')


class Task:
    """The value of a task."""

    def __init__(self, number, flags, parent, actual=0, index=0):
        self.number, self.flags, self.parent, self.kept, self.regions = number, flags, parent, 0, []
        # of a root, its place in the team
        self.actual, self.index = actual, index
        self.root, self.path = (parent.root, [*parent.path, parent.kept]) if parent else (number, [])
        self.state, self.turn = ('Created', -1) if parent else ('Running', 0)

    def moved(self, what, status=None):
        """The state after this move, if it is allowed."""
        nature = 'root' if not self.parent else 'taskwait' if 'taskwait' in self.flags else 'any'
        return state_after(self.state, what, status) if may(nature, what, status) else None


class Thread:
    """The state of a thread: its open roots, the innermost last, and for each the task that ran when it began; the task
    that it runs; the one whose list is awaited; the regions that its tasks began here; and how many records it has.
    Regions may lie inside others, or not."""

    def __init__(self, nests=False):
        self.nests = nests
        self.roots, self.outer, self.current, self.awaited, self.begun, self.count = [], [], None, None, set(), 0


# ---- whether a call is refused


def wrong_state(thread, step, tasks):
    """Why a call is WrongState, if it is."""
    cb = step['cb']
    listed = tasks[step['task']] if cb == 'dependences' else None
    if thread.awaited is not listed:
        return 'a list is awaited' if thread.awaited else 'no such list is awaited'
    if cb == 'implicit_task' and step['endpoint'] == 'begin':
        return wrong_begin(thread, step)
    if cb == 'task_schedule':
        return wrong_schedule(thread, step, tasks)
    if cb in ('thread_begin', 'thread_end', 'dependences'):
        return None
    task = tasks[step['task']]
    if cb == 'cancel' and 'discarded_task' in step['flags']:
        return None if task.moved('Discarded') else 'cannot be discarded'
    if cb == 'implicit_task' and task not in thread.roots:
        return 'no root of the thread'
    if cb == 'parallel_begin' and not thread.nests and (task.parent or 'initial' not in task.flags):
        return 'no initial task'
    if task is not thread.current or cb == 'task_create' and task.state not in ('Running', 'EarlyRunning'):
        return 'does not run'
    if cb == 'task_create' and not thread.nests and 'target' in step['flags']:
        return 'has the flag target'
    return wrong_region(task, step) if cb == 'sync_region' else None


def wrong_begin(thread, step):
    """Why no root may begin so, if it may not."""
    if thread.nests:
        return wrong_inside(thread, step) if thread.roots else None
    if 'target' in step['flags']:
        return 'has the flag target'
    if 'initial' in step['flags']:
        return 'a root is open' if thread.roots else None
    return 'a member is open' if any('initial' not in it.flags for it in thread.roots) else None


def wrong_inside(thread, step):
    """Why no root may begin so inside another one, if it may not: its region must be one that the task that runs began
    on this thread, and that of an initial task may be any of these."""
    begun = {region for task, region in thread.begun if task is thread.current}
    if 'initial' in step['flags']:
        return None if begun else 'no region of the running task'
    return None if step['parallel'] in begun else 'not a region of the running task'


def wrong_region(task, step):
    """Why a task that runs may not begin or end such a region, if it may not."""
    if step['kind'] in CALLED_BARRIERS and task.parent:
        return 'a barrier of an explicit task'
    is_open = task.regions[-1:] == [step['kind']]
    return 'no such region is open' if step['endpoint'] == 'end' and not is_open else None


def wrong_schedule(thread, step, tasks):
    """Why the prior task may not stop so, or the next one not run, if it may not."""
    prior, status = tasks[step['prior']], step['status']
    if not prior.moved('Stopped', status):
        return 'cannot stop so'
    if status == 'taskwait_complete' and prior.parent is not thread.current:
        return 'the parent does not run'
    if status not in DEMANDS_NEXT:
        return None
    following = tasks[step['next']]
    if prior is not thread.current:
        return 'does not run'
    if not following.moved('Started'):
        return 'cannot run next'
    return None if following.parent or following in thread.roots[-1:] else 'another root'


def refusal(thread, step, tasks):
    """The fault of a call that is refused, and why, if it is."""
    reason = wrong_state(thread, step, tasks)
    if reason:
        return WRONG_STATE, reason
    if step['cb'] == 'task_create' and len(tasks[step['task']].path) >= DEEPEST:
        return TOO_DEEP, 'too deep'
    return None


# ---- what a call does that is accepted


def record_of(number, thread, step, tasks, scripts):
    """The record of a call, without its `seen`. Its thread and its tasks are then in the state after it."""
    cb = step['cb']
    record = {name: step.get(name) for name in scripts.MEMBERS[cb]}
    record.update(cb=cb, thread=number, seq=thread.count)
    if 'flags' in record:
        names = scripts.CANCEL_FLAGS if cb == 'cancel' else scripts.TASK_FLAGS
        record['flags'] = [name for name in names if name in step['flags']]
    if 'list' in record:
        record['list'] = [{'type': it['type'], 'var': it['var']} for it in step['list']]
    thread.count, thread.awaited = thread.count + 1, None
    if cb == 'implicit_task':
        pass_root(thread, record, tasks)
    elif cb == 'parallel_begin':
        thread.begun.add((tasks[step['task']], step['parallel']))
    elif cb == 'task_create':
        parent = tasks[step['task']]
        tasks[step['child']] = Task(step['child'], record['flags'], parent)
        parent.kept += 1
        thread.awaited = tasks[step['child']] if step['deps'] else None
    elif cb == 'task_schedule':
        schedule(thread, record, tasks)
    elif cb == 'sync_region' and step['endpoint'] == 'begin':
        tasks[step['task']].regions.append(step['kind'])
    elif cb == 'sync_region' and step['endpoint'] == 'end':
        tasks[step['task']].regions.pop()
    elif 'discarded_task' in record.get('flags', []):
        record.update(claim_of(tasks[step['task']]))
    return record


def pass_root(thread, record, tasks):
    """A root begins or ends; its end repeats its begin."""
    if record['endpoint'] == 'begin':
        root = Task(record['task'], record['flags'], None, record['actual'], record['index'])
        tasks[record['task']] = root
        thread.roots.append(root)
        thread.outer.append(thread.current)
        thread.current = root
        return
    root, outer = thread.roots.pop(), thread.outer.pop()
    record.update(actual=root.actual, index=root.index, flags=root.flags)
    below = thread.roots[-1] if thread.roots else None
    thread.current = outer if thread.nests else below


def schedule(thread, record, tasks):
    """The prior task stops, or is fulfilled, and the next one runs."""
    prior, status = tasks[record['prior']], record['status']
    if status in STATUS_PART:
        record.update(claim_of(prior))
    prior.state = prior.moved('Stopped', status)
    if status in DEMANDS_NEXT:
        following = tasks[record['next']]
        record.update(prior_turn=max(prior.turn, 0), next_turn=following.turn + 1)
        following.state = following.moved('Started')
        following.turn += 1
        thread.current = following


def claim_of(task):
    return {'root': task.root, 'path': task.path, 'kept': task.kept}


# ---- the answer


class Lines(list):
    """The lines of a script whose calls are accepted, and its version."""

    def __init__(self, version):
        super().__init__()
        self.version = version


class Line:
    """A line of a script whose call is accepted: its record without `seen`, and the lines that it waits for."""

    def __init__(self, record):
        self.record, self.waits = record, set()
        # the lines on other threads from which a value comes, with a note
        self.givers = set()

    def enters(self):
        return 'kept' in self.record

    def looks(self):
        cb, endpoint = self.record['cb'], self.record.get('endpoint')
        return not self.enters() and (cb == 'task_schedule' or cb == 'sync_region' and endpoint != 'begin')


def answer_of(data, scripts):
    """The expected result: the exit status, the line on standard error, why a call was refused, and the lines of a
    script that is run. `scripts` is the module script_files, which says whether a script can be read."""
    said, cause = scripts.answer_of(data)
    if cause != 'steps':
        return 3, f'unreadable: {said[-1]}', None, None
    header, *texts = data.split(b'\n')[:-1]
    lines = Lines(json.loads(header)['version'])
    threads, tasks, last, own = defaultdict(lambda: Thread(lines.version == 2)), {}, {}, defaultdict(list)
    for at, text in enumerate(texts):
        step = json.loads(text)
        number, named = step['thread'], [it for it in scripts.fates(step)[0] if it in last]
        refused = refusal(threads[number], step, tasks)
        if refused:
            return 2, f'refused: line {at + 2}: {refused[0]}', refused[1], None
        line = Line(record_of(number, threads[number], step, tasks, scripts))
        line.waits = {last[it] for it in named} | {*own[number][-1:]}
        line.waits |= {own[step['after'][0]][step['after'][1]]} if 'after' in step else set()
        line.givers = {last[it] for it in named if lines[last[it]].record['thread'] != number}
        lines.append(line)
        last.update(dict.fromkeys(scripts.fates(step)[0], at))
        own[number].append(at)
    return 0, '', None, lines


def text_of(record, seen):
    return json.dumps({**record, 'seen': seen}, sort_keys=True, separators=(',', ':'))


def wrong_trace(lines, output):
    """Why the output is no trace of a run of these lines, if it is none."""
    order = sorted(range(len(lines)), key=lambda at: lines[at].record['thread'])
    texts = output.split('\n')
    if texts[0] != HEADERS[lines.version] or texts[-1] or len(texts) != len(lines) + 2:
        return f'{len(texts)} texts, the first one {texts[0][:60]}'
    seen = {}
    for at, text in zip(order, texts[1:]):
        seen[at] = value_of(text).get('seen')
        if type(seen[at]) is not int or text_of(lines[at].record, seen[at]) != text:
            return f'line {at + 2}: {text[:200]}, wanted {text_of(lines[at].record, seen[at])[:200]}'
    return wrong_lengths(lines, seen)


def value_of(text):
    try:
        value = json.loads(text)
    except ValueError:
        value = None
    return value if isinstance(value, dict) else {}


def wrong_lengths(lines, seen):
    """Why no run gives these lengths, if none does."""
    makers = sorted((seen[at], at) for at, line in enumerate(lines) if line.enters())
    if [index for index, _ in makers] != [*range(len(makers))]:
        return f'entries {[index for index, _ in makers]}'
    known, lengths = defaultdict(int), {}
    for at, line in enumerate(lines):
        thread = line.record['thread']
        if line.looks():
            lengths[at] = seen[at]
        elif not line.enters() and line.givers:
            # what was read where the note was met
            lengths[meeting(at)] = seen[at]
        elif not line.enters() and seen[at] != known[thread]:
            return f'line {at + 2} names {seen[at]}, but its thread knew {known[thread]}'
        known[thread] = seen[at] + line.enters()
    if any(length > len(makers) for length in lengths.values()):
        return f'a length of {max(lengths.values())}, where {len(makers)} entries are made'
    return circle(edges_of(lines, [at for _, at in makers], lengths))


def meeting(at):
    """The event that the last note is met that comes to a line."""
    return f'the note for line {at + 2}'


def edges_of(lines, makers, lengths):
    """What is before what in a run: lines that are waited for; the entries in their order; and a look after the
    entries below its length, and before all others. The last note that comes to a line is met after all lines from
    which notes come, and between the line and the one before it."""
    edges = [(other, at) for at, line in enumerate(lines) for other in line.waits]
    own = {}
    for at, line in enumerate(lines):
        if line.givers:
            earlier = line.givers | own.get(line.record['thread'], set())
            edges += [(other, meeting(at)) for other in earlier] + [(meeting(at), at)]
        own[line.record['thread']] = {at}
    edges += zip(makers, makers[1:])
    edges += [(makers[length - 1], look) for look, length in lengths.items() if length > 0]
    edges += [(look, makers[length]) for look, length in lengths.items() if length < len(makers)]
    return edges


def circle(edges):
    """Says which events are each before the next one, and the last before the first, if some are."""
    before, after, waits = defaultdict(list), defaultdict(list), defaultdict(int)
    for one, other in edges:
        before[other].append(one)
        after[one].append(other)
        waits[other] += 1
    ready = [it for it in after if not waits[it]]
    while ready:
        for other in after[ready.pop()]:
            waits[other] -= 1
            if not waits[other]:
                ready.append(other)
    left = {it for it, count in waits.items() if count}
    if not left:
        return None
    found = [next(iter(left))]
    while found[-1] not in found[:-1]:
        found.append(next(it for it in before[found[-1]] if it in left))
    found = found[found.index(found[-1]):][::-1]
    names = [it if isinstance(it, str) else f'line {it + 2}' for it in found]
    return f'no run has these lengths: {", then ".join(names)}'
