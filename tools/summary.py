"""summary.py < FILE: prints what the records of a readable trace file exercised, as one JSON object.

Of each kind of wait, start, task and region: how many there are, and how many were at risk, by the definitions of
docs/SUMMARY.md. One pass reads the records, and one goes along them in the tasks' own order. The words are those of
docs/MODEL.md; a length is a ledger length, and the limit of a task the least length at which it is complete."""
import gc
import json
import os
import sys
from collections import defaultdict, namedtuple

TOP = os.path.dirname(os.path.dirname(os.path.realpath(__file__)))
sys.path[:0] = [os.path.join(TOP, it) for it in ('tools', 'tests')]
from model import BARRIERS, DEMANDS_NEXT, STATUS_PART

# The kinds, by their names in an object, and what they are called.
KINDS = {'taskwaits': 'taskwaits', 'taskgroups': 'taskgroups', 'barriers': 'barriers',
         'starts': 'starts with predecessors', 'detached': 'detached tasks', 'discarded': 'discarded tasks',
         'moved': 'moved tasks', 'nested': 'nested regions'}
# The kinds that are waits, with what is said where none of them was at risk.
WAITS = {'taskwaits': '{} of {} taskwaits began before their tasks were known to be done.',
         'taskgroups': '{} of {} taskgroups began to wait before their tasks were known to be done.',
         'barriers': '{} of {} ends of barriers are of barriers that began before their tasks were known to be done.',
         'starts': '{} of {} tasks with predecessors were created before these were known to be done.'}
NO_RISK = ('No wait and no start was at risk, so this yes exercised nothing: a runtime that waits for nothing could have'
           ' given the same records.')
NO_WAITS = 'There is no wait and no start with predecessors in the file, so this yes exercised nothing.'
NOT_JUDGED = 'The file is malformed, so none of these was judged.'
# More than any length.
NEVER = 1 << 62
# The classes of types of dependences: two of one class conflict only in the first one, two of different classes always.
CLASS_OF = {'out': 'out', 'inout': 'out', 'in': 'in', 'inoutset': 'inoutset', 'mutexinoutset': 'mutexinoutset'}
CLASSES = ('out', 'in', 'inoutset', 'mutexinoutset')
CREATES, REGION, OTHER = range(3)

# How many there are of a kind, and how many of them were at risk.
Figure = namedtuple('Figure', 'count at_risk')


class Facts:
    """What the records say of each task and region; and the tasks' own records, but for schedules, by turn."""

    def __init__(self, lines, tells_turns):
        self.tells_turns, self.known, self.turns, self.by_turn = tells_turns, {}, {}, defaultdict(list)
        self.whole, self.bodies, self.events = {}, {}, {}
        self.children, self.parents, self.lists = defaultdict(list), {}, defaultdict(list)
        self.teams, self.initial, self.forks = {}, set(), []
        self.homes, self.started, self.moved, self.completed, self.discarded = {}, set(), set(), set(), set()
        takes = {'parallel_begin': self.take_fork, 'parallel_end': self.take_other, 'cancel': self.take_cancel,
                 'implicit_task': self.take_root, 'task_create': self.take_creation, 'sync_region': self.take_region,
                 'dependences': self.take_list, 'task_schedule': self.take_schedule}
        for it in lines:
            take = takes.get(it['cb'])
            finishes = take(it) if take else False
            self.known[it['thread']] = it['seen'] + 1 if finishes else it['seen']

    def own_records(self):
        """Returns the tasks' own records in own order, but for schedules."""
        return [it for turn in sorted(self.by_turn) for it in self.by_turn[turn]]

    def add(self, it, what, *more):
        """Adds an own record of its task in the turn in which that is on the thread."""
        turn = self.turns.get((it['thread'], it['task']), 0) if self.tells_turns else 0
        self.by_turn[turn].append((what, it['task'], it['seen'], *more))

    def take_other(self, it):
        self.add(it, OTHER)

    def take_fork(self, it):
        self.forks.append((it['task'], it['parallel']))
        self.add(it, OTHER)

    def take_root(self, it):
        if it['endpoint'] == 'end':
            self.add(it, OTHER)
        elif 'initial' in it['flags']:
            self.initial.add(it['task'])
        else:
            self.teams[it['task']] = it['parallel']

    def take_creation(self, it):
        self.children[it['task']].append(it['child'])
        self.parents[it['child']] = it['task']
        self.add(it, CREATES, it['child'])

    def take_region(self, it):
        # a beginend reads the ledger itself, so what was known before it is asked of its thread
        self.add(it, REGION, it['kind'], it['endpoint'], self.known.get(it['thread'], 0))

    def take_list(self, it):
        self.lists[it['task']] += [(CLASS_OF[dep['type']], dep['var']) for dep in it['list']]

    def take_cancel(self, it):
        """Returns whether the record finishes a task."""
        if 'discarded_task' not in it['flags']:
            return self.add(it, OTHER)
        self.discarded.add(it['task'])
        self.whole.setdefault(it['task'], it['seen'] + 1)
        return True

    def take_schedule(self, it):
        """Returns whether the record finishes a task."""
        status, prior = it['status'], it['prior']
        part = STATUS_PART.get(status)
        if part:
            parts = {'Whole': self.whole, 'Body': self.bodies, 'Event': self.events}[part]
            parts.setdefault(prior, it['seen'] + 1)
        if status == 'taskwait_complete':
            self.completed.add(prior)
        if status in DEMANDS_NEXT:
            self.take_start(it['thread'], it['next'], it['next_turn'] if self.tells_turns else 0)
        return part is not None

    def take_start(self, thread, task, turn):
        if self.homes.setdefault(task, thread) != thread and self.tells_turns:
            self.moved.add(task)
        if turn == 0:
            self.started.add(task)
        if self.tells_turns:
            self.turns[thread, task] = turn

    def limits(self):
        """Returns the limit of each explicit task that is finished."""
        both = {task: max(body, self.events[task]) for task, body in self.bodies.items() if task in self.events}
        return both | self.whole

    def by_level(self):
        """Returns the tasks that have a root above them, or are one, each behind its parent."""
        order = [task for task in self.children if task not in self.parents]
        met = set(order)
        for task in order:
            below = [it for it in self.children.get(task, ()) if it not in met]
            met.update(below)
            order += below
        return order


class Life:
    """What a task did so far in its own order: its children, the greatest limits of them and of their families, its
    open regions, and the length that it knew at its last record that was no schedule."""
    __slots__ = ('children', 'most', 'most_family', 'opened', 'waited', 'gathered', 'barriers', 'length')

    def __init__(self):
        self.children, self.opened = [], []
        self.most = self.most_family = self.waited = self.gathered = self.barriers = self.length = 0


class Region:
    """An open region: its kind, the length known when it began, how many children its task had, the greatest limit of
    those, the greatest of the families of those that came since, and of a barrier its number."""
    __slots__ = ('kind', 'length', 'children', 'most', 'most_family', 'barrier')

    def __init__(self, kind, length, life):
        self.kind, self.length, self.children, self.most = kind, length, len(life.children), life.most
        self.most_family, self.barrier = 0, None


class Dependences:
    """The siblings that list a location so far, by class: the greatest limit of them, and those of which it is not yet
    known at which length they are first awaited."""

    def __init__(self):
        self.cells = {}

    def awaited(self, parent, items):
        """Returns the cells of the siblings with which these items conflict."""
        found = (self.cells.get((parent, place, it)) for kind, place in items for it in CLASSES
                 if it != kind or it == 'out')
        return [it for it in found if it]

    def add(self, parent, items, child, limit):
        for kind, place in items:
            cell = self.cells.setdefault((parent, place, kind), [0, []])
            cell[0] = max(cell[0], limit)
            cell[1].append(child)


class Pass:
    """One pass along the tasks' own records. A wait that covers a task beyond the length known when it began is at risk.
    Along a task's own order lengths do not fall, so a task is at risk by the first wait that covers it, if by any."""

    def __init__(self, facts):
        self.facts, self.limits, self.order = facts, facts.limits(), facts.by_level()
        self.families = self.greatest_of_families()
        self.lives, self.dependences = defaultdict(Life), Dependences()
        self.counts, self.risks = dict.fromkeys(KINDS, 0), dict.fromkeys(KINDS, 0)
        self.barriers, self.ends, self.risky = {}, [], set()
        # by task the length at which it is first awaited, alone or with its family
        self.awaited, self.awaited_families = {}, {}
        for it in facts.own_records():
            self.take(*it)
        self.judge_barriers()
        self.judge_tasks()

    def greatest_of_families(self):
        """Returns the greatest limit of each task and its descendants."""
        found = {task: self.limits.get(task, NEVER) for task in self.facts.parents}
        for task in reversed(self.order):
            parent = self.facts.parents.get(task)
            if parent in found and found[parent] < found[task]:
                found[parent] = found[task]
        return found

    def count(self, kind, is_at_risk):
        self.counts[kind] += 1
        self.risks[kind] += is_at_risk

    def take(self, what, task, seen, *more):
        life = self.lives[task]
        if what == CREATES:
            self.take_creation(life, task, more[0], seen)
        elif what == REGION:
            kind, endpoint, known = more
            if endpoint != 'end':
                self.begin(life, task, Region(kind, seen if endpoint == 'begin' else known, life))
            if endpoint != 'begin' and life.opened:
                self.end(life, life.opened.pop(), kind)
        life.length = seen

    def take_creation(self, life, parent, child, seen):
        limit, family = self.limits.get(child, NEVER), self.families[child]
        life.children.append(child)
        life.most, life.most_family = max(life.most, limit), max(life.most_family, family)
        if life.opened:
            life.opened[-1].most_family = max(life.opened[-1].most_family, family)
        items = self.facts.lists.get(child)
        if items:
            self.take_start(self.dependences.awaited(parent, items), child, seen)
            self.dependences.add(parent, items, child, limit)

    def take_start(self, cells, child, length):
        """Counts a task that has predecessors and starts, or is a taskwait that is complete."""
        if not cells or child not in self.facts.started and child not in self.facts.completed:
            return
        self.count('starts', max(most for most, _ in cells) > length)
        for cell in cells:
            for it in cell[1]:
                self.await_task(it, length)
            cell[1] = []

    def await_task(self, task, length):
        self.awaited[task] = min(self.awaited.get(task, NEVER), length)

    def begin(self, life, task, region):
        life.opened.append(region)
        if region.kind in BARRIERS and task not in self.facts.parents:
            region.barrier = (self.facts.teams.get(task, (task,)), life.barriers)
            most, slices = self.barriers.setdefault(region.barrier, (0, []))
            slices.append(life.children[life.gathered:])
            self.barriers[region.barrier] = max(most, life.most_family), slices
            life.barriers, life.gathered = life.barriers + 1, len(life.children)

    def end(self, life, region, kind):
        if life.opened:
            life.opened[-1].most_family = max(life.opened[-1].most_family, region.most_family)
        if region.kind != kind:
            return
        if kind == 'taskwait':
            self.count('taskwaits', region.most > region.length)
            for it in life.children[life.waited:region.children]:
                self.await_task(it, region.length)
            life.waited = max(life.waited, region.children)
        elif kind == 'taskgroup':
            self.count('taskgroups', region.most_family > life.length)
            for it in life.children[region.children:]:
                self.awaited_families.setdefault(it, life.length)
        elif region.barrier:
            self.ends.append((region.barrier, region.length))

    def judge_barriers(self):
        """Counts the ends of barriers, which cover what all members of the team created."""
        least = {}
        for barrier, length in self.ends:
            is_at_risk = self.barriers[barrier][0] > length
            self.count('barriers', is_at_risk)
            if is_at_risk:
                self.risky.add(barrier[0])
            least[barrier] = min(least.get(barrier, NEVER), length)
        for barrier, length in least.items():
            for children in self.barriers[barrier][1]:
                for it in children:
                    self.awaited_families[it] = min(self.awaited_families.get(it, NEVER), length)

    def judge_tasks(self):
        """Counts detached, discarded and moved tasks, and nested regions."""
        facts = self.facts
        for task in self.order:
            above = self.awaited_families.get(facts.parents.get(task), NEVER)
            if above < self.awaited_families.get(task, NEVER):
                self.awaited_families[task] = above
        for kind, tasks in (('detached', facts.bodies), ('discarded', facts.discarded), ('moved', facts.moved)):
            for task in tasks:
                length = min(self.awaited.get(task, NEVER), self.awaited_families.get(task, NEVER))
                self.count(kind, self.limits.get(task, NEVER) > length)
        for task, parallel in facts.forks:
            if task not in facts.initial:
                self.count('nested', parallel in self.risky)


def summary_of(lines):
    """Returns the figure of each kind for the lines of a readable trace file."""
    lines = iter(lines)
    tells_turns = json.loads(next(lines))['version'] >= 2
    passed = Pass(Facts(map(json.loads, lines), tells_turns))
    return {kind: Figure(passed.counts[kind], passed.risks[kind]) for kind in KINDS}


def summary_of_file(path):
    """Returns the figure of each kind for a readable trace file."""
    with open(path, encoding='utf-8') as lines:
        return summary_of(lines)


def as_object(figures):
    """Returns the figures as one JSON object."""
    return {kind: it._asdict() for kind, it in figures.items()}


def from_object(told):
    """Returns the figures of such an object."""
    return {kind: Figure(**it) for kind, it in told.items()}


def sentences_on(figures, verdict):
    """Returns sentences on the kinds of waits of which none was at risk; of a yes whether any was; and whether the file
    is malformed."""
    found = [text.format(*reversed(figures[kind])) for kind, text in WAITS.items()
             if figures[kind].count and not figures[kind].at_risk]
    if verdict == 'yes' and not any(figures[kind].at_risk for kind in WAITS):
        found.append(NO_RISK if found else NO_WAITS)
    return found + [NOT_JUDGED] * (verdict == 'malformed')


def table(heads, rows):
    """Returns the lines of a table: a column of words, and columns of numbers."""
    cells = [['', *heads], *([row[0], *(f'{it:,}' for it in row[1:])] for row in rows)]
    widths = [max(map(len, column)) for column in zip(*cells)]
    return ['  '.join([row[0].ljust(widths[0]), *(it.rjust(width) for it, width in zip(row[1:], widths[1:]))]).rstrip()
            for row in cells]


def as_text(figures, verdict):
    """Returns the figures of one file, whose answer begins with this word, as lines."""
    rows = [(name, *figures[kind]) for kind, name in KINDS.items()]
    said = sentences_on(figures, verdict)
    return '\n'.join([*table(['in the file', 'at risk'], rows), *[''] * bool(said), *said])


def of_many(told):
    """Returns lines on many files, of which each has a verdict and figures: a table, and what no file touches. Malformed
    files are not judged, so what is in them counts apart."""
    judged = [figures for verdict, figures in told if verdict != 'malformed']
    others = [figures for verdict, figures in told if verdict == 'malformed']
    rows = [(name, sum(it[kind].count for it in judged), sum(it[kind].at_risk for it in judged),
             sum(it[kind].at_risk > 0 for it in judged), sum(it[kind].count for it in others))
            for kind, name in KINDS.items()]
    idle = [figures for verdict, figures in told if verdict == 'yes'
            and not any(figures[kind].at_risk for kind in WAITS)]
    yeses = sum(verdict == 'yes' for verdict, _ in told)
    said = {'No file that was judged has any of these: {}.': [name for name, count, *_ in rows if not count],
            'None of these was at risk: {}.': [name for name, count, at_risk, *_ in rows if count and not at_risk],
            '{} exercised nothing, since no wait and no start in them was at risk.':
                [f'{len(idle)} of {yeses} yeses'] * bool(idle)}
    sentences = [text.format(', '.join(names)) for text, names in said.items() if names]
    return [*table(['in all files', 'at risk', 'files at risk', 'not judged'], rows), '', *sentences]


if __name__ == '__main__':
    # what is kept has no circles, and looking for them takes a fifth of the time
    gc.disable()
    json.dump(as_object(summary_of(sys.stdin)), sys.stdout)
