"""The shape of a recorded run: what does not depend on ids, addresses, threads and timing, so that the files of two
runtimes can be compared. It is a bag of lines:

    task NAME                            an explicit task; its name says where it is in the tree of creations
    lists NAME: ..                       which children of the task list a location, and how, for each location
    wait NAME after N taskwait: NAMES    a wait of the task after so many creations, and the tasks that it covers

A task is named by the name of its parent and its number among the parent's children, a member of a team by the region
and the tree of what it creates, since any member may be the one that creates. All kinds of barriers are one. Two
barriers with nothing between them on any member are one, since gcc leaves out the one that is last in a region; and
teams of one thread have none, since LLVM's runtime reports none."""
import hashlib
import json
import os
import sys
from collections import Counter, defaultdict

TOP = os.path.dirname(os.path.dirname(os.path.realpath(__file__)))
sys.path[:0] = [os.path.join(TOP, it) for it in ('tools', 'tests')]
from model import BARRIERS
from summary import CREATES, REGION, Facts

FORKS = 'forks'
# Names of tasks that are longer than this are shortened, as are the trees of members.
LONGEST = 60
# How many lines of each run are said where two differ.
MOST_SAID = 3


def short(text):
    return text if len(text) <= LONGEST else '#' + hashlib.sha1(text.encode()).hexdigest()[:12]


class Own(Facts):
    """What the records say of each task, with its regions in their places."""

    def take_fork(self, it):
        self.forks.append((it['task'], it['parallel']))
        self.add(it, FORKS, it['parallel'])


class Wait:
    """A wait of a task: what it is, how many children and other records the task had before it, and at its end."""

    def __init__(self, kind, task, children, others):
        self.kind, self.task, self.children, self.others = kind, task, children, others
        self.end = None


class Run:
    """The tasks of a run, and their waits in own order."""

    def __init__(self, lines):
        self.facts = Own(map(json.loads, lines), True)
        self.waits, self.opened, self.others = defaultdict(list), defaultdict(list), Counter()
        self.created, self.regions = Counter(), defaultdict(list)
        self.trees, self.names = {}, {}
        teams = self.facts.teams
        self.members = {region: [it for it in teams if teams[it] == region] for region in {*teams.values()}}
        for what, task, _, *more in self.facts.own_records():
            self.take(what, task, more)

    def take(self, what, task, more):
        if what == CREATES:
            self.created[task] += 1
            self.others[task] += 1
        elif what == FORKS:
            self.regions[task].append(more[0])
            self.others[task] += 1
        elif what == REGION and more[0] in (*BARRIERS, 'taskwait', 'taskgroup'):
            self.take_wait(task, *more[:2])

    def take_wait(self, task, kind, endpoint):
        kind = 'barrier' if kind in BARRIERS else kind
        if endpoint != 'end':
            wait = Wait(kind, task, self.created[task], self.others[task])
            self.opened[task].append(wait)
            self.waits[task].append(wait)
            # what a barrier is between does not count the barriers themselves
            self.others[task] += kind != 'barrier'
        if endpoint != 'begin' and self.opened[task]:
            self.opened[task].pop().end = self.created[task]

    def tree(self, task):
        """The tree of what a task creates."""
        if task not in self.trees:
            below = [self.tree(it) for it in self.facts.children.get(task, ())]
            inside = [sorted(map(self.tree, self.members.get(it, ()))) for it in self.regions[task]]
            self.trees[task] = short(f'({"".join(below)}{inside or ""}{self.lists(task)})')
        return self.trees[task]

    def lists(self, task):
        """For each location, which children list it and how; a child that lists it as `out` too need not list it else."""
        places, children = defaultdict(dict), self.facts.children.get(task, ())
        items = [(number, *it) for number, child in enumerate(children) for it in self.facts.lists.get(child, ())]
        for number, kind, place in items:
            if places[place].get(number) != 'out':
                places[place][number] = kind
        return ' '.join(sorted(','.join(f'{number}{kind}' for number, kind in it.items()) for it in places.values()))

    def name(self, task):
        if task not in self.names:
            self.names[task] = short(self.name_of(task))
        return self.names[task]

    def name_of(self, task):
        parent = self.facts.parents.get(task)
        if parent is not None:
            return f'{self.name(parent)}.{self.facts.children[parent].index(task)}'
        region = self.facts.teams.get(task)
        return f'{self.name_of_region(region)}{self.tree(task)}' if region is not None else f'initial{self.tree(task)}'

    def name_of_region(self, region):
        forking = next((task for task, it in self.facts.forks if it == region), None)
        return f'{self.name(forking)}/{self.regions[forking].index(region)}'

    def families(self, tasks):
        """These tasks and their descendants."""
        found = list(tasks)
        for it in found:
            found += self.facts.children.get(it, ())
        return found

    def covered(self, wait):
        """The tasks that a wait covers."""
        children = self.facts.children.get(wait.task, [])
        if wait.kind == 'taskwait':
            return children[:wait.children]
        if wait.kind == 'taskgroup':
            return self.families(children[wait.children:wait.end])
        number = self.barriers(wait.task).index(wait)
        teams = [self.barriers(it)[number] for it in self.team(wait.task) if number < len(self.barriers(it))]
        return self.families(it for other in teams for it in self.facts.children.get(other.task, [])[:other.children])

    def team(self, task):
        return self.members.get(self.facts.teams.get(task), [task])

    def barriers(self, task):
        return [it for it in self.waits[task] if it.kind == 'barrier']

    def is_left_out(self, wait):
        """Whether a barrier is of a team of one, or nothing is between it and the one before on any member."""
        if wait.kind != 'barrier':
            return False
        team, number = self.team(wait.task), self.barriers(wait.task).index(wait)
        if len(team) == 1:
            return True
        pairs = [self.barriers(it)[number - 1:number + 1] for it in team] if number else []
        return bool(pairs) and all(len(it) == 2 and it[0].others == it[1].others for it in pairs)

    def line(self, wait):
        covers = ' '.join(sorted(map(self.name, self.covered(wait))))
        return f'wait {self.name(wait.task)} after {wait.children} {wait.kind}: {covers}'

    def lines(self):
        """The lines of the shape."""
        waits = [it for of_task in [*self.waits.values()] for it in of_task]
        return [*(f'task {self.name(it)}' for it in self.facts.parents),
                *(f'lists {self.name(it)}: {self.lists(it)}' for it in [*self.facts.children]),
                *(self.line(it) for it in waits if it.end is not None and not self.is_left_out(it))]


def shape_of(lines):
    """The shape of the run that these lines behind the header say."""
    sys.setrecursionlimit(10000)
    return Counter(Run(lines).lines())


def shape(path):
    """The shape of the run in a file."""
    with open(path, encoding='utf-8') as lines:
        next(lines)
        return shape_of(lines)


def difference(first, second):
    """What is in one shape and not in the other, in a few lines; or None."""
    said = [f'{mark} {line} ({count} times)' for mark, bag in (('+', first - second), ('-', second - first))
            for line, count in sorted(bag.items())[:MOST_SAID]]
    return '; '.join(said) or None


if __name__ == '__main__':
    for line, count in sorted(shape(sys.argv[1]).items()):
        print(count, line)
