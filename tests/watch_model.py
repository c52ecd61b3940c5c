"""What `taskaudit watch` must answer to a trace file that can be read: the first record that fails a test, and the
test or the task that is missed there, or that none does (docs/LONG_RUNS.md).

Whether recorders make the records is asked of `record_model.py`, and what must be complete of `online_model.py`. Three
tests ask for more than docs/MODEL.md, and are written here: a taskwait, and a barrier of an initial task, also wait for
the children that the task creates inside; a barrier waits for the children of each member of the team, also of one that
has not begun it; and a task waits for all siblings whose uses of a location are in an earlier group than its own, each
group of one type of dependence, not only for those that are in conflict with it."""
import json
from collections import defaultdict, namedtuple

from model import BARRIERS, conflict, known_after, read
from online_model import Watch, families, incomplete, length_back, team_short
from record_model import Thread, record_of, refusal
from scripts import script

TESTS = ('Calls', 'Regions', 'Teams', 'Lengths', 'Waits', 'Predecessors', 'End')
SCRIPTS = script('script_files')
# Uses of a location by which tasks need not wait for each other, where both are of the same type.
SHARED = ('in', 'inoutset', 'mutexinoutset')
# Where `watch` ends without a yes: the line, the text of the test, and the record and the task that is missed there, if
# one is told, with the task that starts there or the taskwait that is complete there, if it must be preceded by that one.
Failure = namedtuple('Failure', 'line test record missed dependent')
# The list of dependences of a task, and its parent.
Listed = namedtuple('Listed', 'parent deps')


class Calls:
    """Recorders that are given the calls of the records."""

    def __init__(self, version):
        self.threads, self.tasks, self.used = defaultdict(lambda: Thread(version == 3)), {}, set()
        # a file of version 1 tells no turns, which recorders do
        self.untold = ('prior_turn', 'next_turn') if version == 1 else ()

    def make(self, line):
        """Makes the record of this call, and returns whether it is this one, but for its `seen`."""
        named, made, ended = SCRIPTS.fates(line)
        if len(set(named)) < len(named):
            return False
        if not all(it not in self.used if it == made else it in self.tasks for it in named):
            return False
        if line['cb'] == 'dependences' and not self.runs(self.tasks[line['task']].parent):
            return False
        thread = self.threads[line['thread']]
        if refusal(thread, line, self.tasks):
            return False
        record = record_of(line['thread'], thread, line, self.tasks, SCRIPTS)
        self.used.add(made)
        self.tasks.pop(ended, None)
        told = {name: None if name in self.untold else line.get(name) for name in record}
        return shown(record) == shown(told)

    def runs(self, task):
        return task and task.number in self.tasks and task.state in ('Running', 'EarlyRunning')


def shown(record):
    """The members that must be the same. The end of a root need not repeat the size of its team and its number in it,
    and flags have no order."""
    is_end = record['cb'] == 'implicit_task' and record['endpoint'] == 'end'
    found = {name: it for name, it in record.items() if not (is_end and name in ('actual', 'index'))}
    if 'flags' in found:
        found['flags'] = sorted(set(found['flags']))
    if 'list' in found:
        found['list'] = [(it['type'], it['var']) for it in found['list']]
    return found


class Uses:
    """By parent and location the groups of children, one behind the other; and by child the group that it is in of each
    location."""

    def __init__(self):
        self.groups, self.of = defaultdict(list), defaultdict(list)

    def list(self, parent, task, items):
        for location in {it['var'] for it in items}:
            types = {it['type'] for it in items if it['var'] == location}
            kind = types.pop() if len(types) == 1 and types <= set(SHARED) else None
            groups = self.groups[parent, location]
            if not groups or kind is None or groups[-1][0] != kind:
                groups.append((kind, []))
            groups[-1][1].append(task)
            self.of[task].append((groups, len(groups) - 1))

    def before(self, task):
        """The tasks in the groups before those that the task is in."""
        return [it for groups, at in self.of[task] for _, tasks in groups[:at] for it in tasks]


class Tests:
    """The tests, by what is kept of the records so far."""

    def __init__(self, version):
        self.calls, self.watch, self.uses = Calls(version), Watch(version), Uses()
        # by team how many of its barriers have ended, and by parent the child whose dependences must follow
        self.over, self.awaited = defaultdict(int), {}
        self.begun, self.named = set(), set()
        # by task its list, the one that came first first
        self.lists = {}
        # whether no task has created a child inside a taskwait of its own; and the task that is missed where a region
        # has just ended
        self.outside, self.missed, self.dependent = True, None, None

    def failed(self, i, line, record):
        """The name of the first test that the record fails, or None."""
        self.missed = self.dependent = None
        if not self.calls.make(line):
            return 'Calls'
        if not self.take_region_names(record):
            return 'Regions'
        thread = self.watch.threads[record.thread]
        if team_short(self.watch, thread, record):
            return 'Teams'
        if not self.names_length(record) or length_back(self.watch, thread, record):
            return 'Lengths'
        if record.creation:
            parent = self.watch.tasks[record.running]
            if self.is_over(parent):
                return 'Waits'
            self.outside &= all(it.kind != 'taskwait' for it in parent.regions)
        self.watch.take(i, record)
        if record.region and incomplete(self.required_by_region(i, record), record.seen):
            return 'Waits'
        if self.may_go_on(record):
            return None
        self.missed = self.missed_predecessor(record)
        return 'Predecessors'

    def missed_predecessor(self, record):
        """Of the predecessors of the task that starts, or of the taskwait that is complete, the first one created that
        no record so far completes, or None."""
        starts = record.begun_turn and record.begun_turn[1] == 0
        self.dependent = record.started if starts else record.wait_completed
        own = self.lists.get(self.dependent)
        for task, other in self.lists.items():
            if task == self.dependent:
                break
            if (own and other.parent == own.parent and self.watch.tasks[task].fin() is None
                    and any(conflict(a, b) for a in other.deps for b in own.deps)):
                return task
        return None

    def take_region_names(self, record):
        """Notes the regions that the record names. Returns whether one that it begins is new."""
        self.named |= {record.region_named} - {None}
        if not record.forked:
            return True
        is_new = record.forked[1] not in self.begun
        self.begun.add(record.forked[1])
        return is_new

    def names_length(self, record):
        entries = self.watch.entries
        return record.seen == entries if record.finish else record.seen <= entries

    def is_over(self, parent):
        """Whether a barrier of its team has ended that waits for the children which this member creates now."""
        return parent.is_root() and parent.team.joins and parent.barriers < self.over[parent.team]

    def required_by_region(self, i, record):
        """The tasks that must be complete where the record ends a region."""
        found = self.watch.required_by_region(i, record)
        kind, endpoint, task = record.region.kind, record.region.endpoint, self.watch.tasks[record.region.task]
        self.missed = self.missed_of(found, kind, endpoint, task)
        if endpoint == 'begin' or kind not in {'taskwait', *BARRIERS}:
            return found
        if kind == 'taskwait':
            return task.children
        if not task.team.joins:
            return families(task.children)
        number = task.barriers - 1
        self.over[task.team] = max(self.over[task.team], number + 1)
        return self.watch.phases(task.team.members.values(), number)

    def missed_of(self, required, kind, endpoint, task):
        """Of the tasks that must be complete where the region ends, the one with the least id that no record so far
        completes. None is told at a taskwait once a task has created a child inside one, at a barrier of an initial
        task, and at a barrier that begins in the same record."""
        is_told = self.outside if kind == 'taskwait' else kind not in BARRIERS or task.team.joins and endpoint == 'end'
        return min((it.task for it in required if it.fin() is None), default=None) if is_told else None

    def may_go_on(self, record):
        """Whether the predecessors are complete of a task that starts, or of a taskwait with dependences that is
        complete. Notes the dependences that the record lists."""
        if record.dependences:
            task, items = record.dependences
            parent = self.awaited.pop(task)
            self.uses.list(parent, task, items)
            self.lists[task] = Listed(parent, items)
        if record.created_with_deps is not None:
            self.awaited[record.created] = record.running
        starts = record.begun_turn and record.begun_turn[1] == 0
        return (self.are_complete_before(record.wait_completed, record.seen)
                and self.are_complete_before(record.started if starts else None, known_after(record)))

    def are_complete_before(self, task, counts):
        """Whether the tasks that this one waits for are complete by so many entries, and its dependences are listed."""
        before = [self.watch.tasks[it] for it in self.uses.before(task)]
        return task not in self.awaited and not incomplete(before, counts)

    def may_end(self):
        teams = self.watch.teams.values()
        return (self.named <= self.begun and not self.awaited
                and all(len(team.members) >= team.size for team in teams)
                and all(it.barriers >= self.over[team] for team in teams for it in team.members.values()))


def failure(data):
    """Where `watch` ends without a yes on these whole lines; None for a yes."""
    header, *lines = [json.loads(line) for line in data.split(b'\n')[:-1]]
    tests = Tests(header['version'])
    for i, (line, record) in enumerate(zip(lines, read(data))):
        failed = tests.failed(i, line, record)
        if failed:
            is_told = failed in ('Waits', 'Predecessors')
            return Failure(i + 2, said(failed), record, tests.missed if is_told else None, tests.dependent)
    return None if tests.may_end() else Failure(len(lines) + 2, said('End'), None, None, None)


def said(test):
    return f'{TESTS.index(test) + 1} {test}'


def answer(data, report):
    """What `watch` must print on each stream, and its status; where it says yes, this report of `check`."""
    found = failure(data)
    if not found:
        return f'{report}\n'.encode(), b'', 0
    if found.missed is None:
        return b'', f'undecided: line {found.line}: {found.test}\n'.encode(), 6
    place = f'line {found.line}, thread {found.record.thread}, seq {found.record.seq}'
    how = 'unfinished' if found.dependent is None else f'must precede task {found.dependent}'
    return f'no: {place}: task {found.missed} {how}\n'.encode(), b'', 1
