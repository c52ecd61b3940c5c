"""The waits that a page shows, and its arrows: from the record that finishes a task to the end of a wait for the task, and
to the start of a task that depends on it. They take about as many steps as there are records and dependences."""
from bisect import bisect_left
from collections import defaultdict, namedtuple
from itertools import islice

from contents import LISTS
from model import WAITS_FOR_TASKS, conflict

# The greatest numbers of arrows to the named record, and of the others of one kind.
MOST_NAMED, MOST = 24, 1000

# A wait: the records that begin and end it.
Wait = namedtuple('Wait', 'begin end')
# An arrow: the CSS class of its kind, the task, the record that it leads to, and a title.
Arrow = namedtuple('Arrow', 'kind task record title')


def waits_of(chosen):
    """Returns the waits for tasks that begin and end within one group; and that of the named record, where it is shown."""
    found = [it for group in chosen.groups for it in waits_within(group.records)]
    named = chosen.named()
    if named and named.region and all(it.end is not named for it in found):
        begins = [it for _, it in chosen.found.shown
                  if it.region and it.region.endpoint == 'begin' and it.region.task == named.region.task]
        found += [Wait(it, named) for it in begins[:1]]
    return found


def waits_within(records):
    """Yields the waits for tasks that these records begin and end."""
    opened = defaultdict(list)
    for it in records:
        if it.region and it.region.endpoint == 'begin':
            opened[it.region.task].append(it)
        elif it.region and it.region.endpoint == 'end' and opened[it.region.task]:
            begin = opened[it.region.task].pop()
            if it.region.kind in WAITS_FOR_TASKS:
                yield Wait(begin, it)


class Arrows:
    """What the arrows are found in: the records that finish tasks, by task; of each parent the children that are finished
    there or start there, as they were created; and the lists of dependences of these."""

    def __init__(self, chosen):
        self.chosen, trace = chosen, chosen.trace
        self.ends = {it.finish[0]: it for it in chosen.records if it.finish}
        self.starts = {}
        for it in reversed(chosen.records):
            self.starts |= {task: it for task in (it.started, it.wait_completed) if task is not None}
        tasks = [it for it in self.ends | self.starts if it in trace.creations]
        self.children = defaultdict(list)
        for task in sorted(tasks, key=lambda it: trace.creations[it][1]):
            self.children[trace.creations[task][0]].append(task)
        self.lists = {task: found for task in tasks if (found := self.list_of(task))}

    def list_of(self, task):
        """The dependences of the task."""
        lines = self.chosen.trace.lines_of_task(task, LISTS)
        return [dep for _, it in self.chosen.trace.values(lines) for dep in it['list']]

    def created_at(self, task):
        """The place of the task's creation in the order."""
        return self.chosen.ranks[self.chosen.trace.creations[task][2]]

    def of_named(self, waits):
        """Returns the arrows to the named record by task: that of the answer's task, where it is finished there, and those
        of the others."""
        named, task = self.chosen.named(), self.chosen.found.task
        if named is None:
            return {}
        wait = next((it for it in waits if it.end is named), None)
        found = {it.task: it for it in (self.to_wait(wait) if wait else ())}
        later = named.wait_completed if named.wait_completed is not None else named.started
        if later in self.lists and self.starts[later] is named:
            found |= {it.task: it for it in self.to_start(later)}
        # a barrier and a taskgroup wait for more than children
        if task in self.ends:
            found[task] = self.to_end(task, named) if named.region else self.to_dependent(task, later, named)
        return found

    def nearest(self, arrows):
        """Of the arrows to the named record that of the answer's task, and of the others the shortest ones."""
        ranks, found = self.chosen.ranks, self.chosen.found
        def length(it):
            return it.task != found.task, abs(ranks[self.ends[it.task].number] - ranks[found.line])
        return sorted(arrows.values(), key=length)[:MOST_NAMED]

    def to_end(self, task, record):
        return Arrow('waited', task, record, f'task {record.region.task} waits for task {task}')

    def to_dependent(self, task, later, record):
        return Arrow('dependence', task, record, f'task {later} depends on task {task}')

    def to_wait(self, wait, first=0):
        """Yields the arrows to the end of a wait from the children of its task that are created at this place or later: for
        a taskgroup within it, else before it."""
        ranks, children = self.chosen.ranks, self.children.get(wait.end.region.task, [])
        begin, end = ranks[wait.begin.number], ranks[wait.end.number]
        first, last = (max(begin, first), end) if wait.end.region.kind == 'taskgroup' else (first, begin)
        some = islice(children, bisect_left(children, first, key=self.created_at), None)
        for task in some:
            if self.created_at(task) >= last:
                break
            if task in self.ends:
                yield self.to_end(task, wait.end)

    def to_waits(self, waits):
        """Yields the arrows to the ends of all waits, each from the children that no earlier wait of their task has one
        from."""
        behind = defaultdict(int)
        for it in waits:
            yield from self.to_wait(it, behind[it.end.region.task])
            if it.end.region.kind != 'taskgroup':
                behind[it.end.region.task] = self.chosen.ranks[it.begin.number]

    def to_start(self, later):
        """Yields the arrows to the start of this task, or to its end if it is a taskwait, from those that it depends on."""
        kinds = defaultdict(dict)
        for it in self.lists[later]:
            kinds[it['var']].setdefault(it['type'], it)
        siblings = self.children[self.chosen.trace.creations[later][0]]
        for task in siblings[:siblings.index(later)]:
            deps = self.lists.get(task, ()) if task in self.ends else ()
            if any(conflict(it, other) for it in deps for other in kinds.get(it['var'], {}).values()):
                yield self.to_dependent(task, later, self.starts[later])

    def to_starts(self):
        """Yields the arrows to the starts of all tasks, each from the last tasks that it depends on: those before these are
        known by their own arrows."""
        for tasks in self.children.values():
            yield from self.among_siblings([it for it in tasks if it in self.lists])

    def among_siblings(self, tasks):
        cells = {}
        for later in tasks:
            if later in self.starts:
                before = {task: True for dep in self.lists[later] for task in awaited(cells, dep)}
                yield from (self.to_dependent(it, later, self.starts[later]) for it in before)
            for dep in self.lists[later] if later in self.ends else ():
                add(cells, dep, later)


def awaited(cells, dep):
    """The last siblings that list the location of the dependence, and conflict with it."""
    last, before = cells.get(dep['var'], (None, None))
    if last is None:
        return []
    return last[1] if conflict({**dep, 'type': last[0]}, dep) else before


def add(cells, dep, task):
    """Adds a task: to those that list the location last, if none of them conflicts with it; else these come before it."""
    last, _ = cells.get(dep['var'], (None, None))
    if last and not conflict({**dep, 'type': last[0]}, dep):
        last[1].append(task)
    else:
        cells[dep['var']] = ((dep['type'], [task]), last[1] if last else [])
