"""Which task a thread runs, and which initial and implicit tasks are open there (docs/MODEL.md, "Walk")."""
from collections import deque, namedtuple

from contents import FORKS, ROOT, RUNS

# A parallel region inside another, begun by a task that is no initial one: the record that begins it, and on its thread
# the begin of a root of it, for which the task stops, and the end of that root, where the task goes on. Each of the last
# two is None where it is not in the file.
Inner = namedtuple('Inner', 'fork begin end')

# An open root: the line that begins it, the task, and the task that the thread ran before.
Opened = namedtuple('Opened', 'number task outer')


class Walk:
    """What is open on a thread, the innermost last, and the task that it runs."""

    def __init__(self, nests, opened=(), current=None):
        self.nests, self.opened, self.current = nests, [*opened], current

    @property
    def innermost(self):
        """The innermost open root, or None."""
        return self.opened[-1] if self.opened else None

    def take(self, number, it):
        """Goes past a record that begins or ends a root, or after which a task runs next."""
        if it['cb'] == 'task_schedule':
            self.current = it['next']
        elif it['endpoint'] == 'begin':
            self.opened.append(Opened(number, it['task'], self.current))
            self.current = it['task']
        else:
            outer = self.opened.pop().outer if self.opened else None
            self.current = outer if self.nests else self.innermost and self.innermost.task


def walked(trace, walk, thread, first=0, last=None):
    """Goes on with the walk of the thread along the lines behind `first`, up to `last`. Yields number and value of each
    record that begins or ends a root, before it is gone past."""
    for number, it in trace.values(turns_of_walk(trace.contents, thread, first, last)):
        if it['cb'] != 'task_schedule':
            yield number, it
        walk.take(number, it)


def turns_of_walk(contents, thread, first, last):
    """Returns the lines of the thread that begin or end a root, and of those after which a task runs next the last one
    before each of these and before the end."""
    roles = contents.roles
    lines = [it for it in contents.lines_of_thread(thread, first, last) if roles[it] & (ROOT | RUNS)]
    return [one for one, other in zip(lines, [*lines[1:], None])
            if other is None or (roles[one] | roles[other]) & ROOT]


def walks_behind(trace, thread, lines):
    """Yields the walk of the thread behind each of these lines, which do not fall."""
    walk, first = Walk(trace.version == 3), 0
    for last in lines:
        deque(walked(trace, walk, thread, first, last), maxlen=0)
        yield Walk(walk.nests, walk.opened, walk.current)
        first = last


def walk_before(trace, record):
    """The walk of the record's thread before it."""
    return next(walks_behind(trace, record.thread, [record.number - 1]))


def inner_region(trace, root):
    """The region of the initial or implicit task that this record begins, where a task began it that is no initial one; or
    None."""
    fork = fork_of(trace, root)
    begun_by = fork and trace.maker(fork.forked[0])
    if begun_by is None or begun_by.begun_initial is not None:
        return None
    walk, begin, end = Walk(root.nests), None, None
    for number, it in walked(trace, walk, fork.thread):
        if begin is None and number > fork.number and begins_inside(it, walk, *fork.forked):
            begin = trace.record(number)
        elif begin and (it['endpoint'], it['task']) == ('end', begin.begun_root):
            end = trace.record(number)
            break
    return Inner(fork, begin, end)


def begins_inside(it, walk, task, parallel):
    """Whether a root begins, which may be of this region, while this task runs."""
    is_of_region = 'initial' in it.get('flags', ()) or it['parallel'] == parallel
    return it['endpoint'] == 'begin' and walk.current == task and is_of_region


def fork_of(trace, root):
    """The record that begins the region of this root; of an initial task the last parallel_begin by the task that it
    stops; or None."""
    if root.joined:
        return trace.fork(root.joined.parallel)
    walk = walk_before(trace, root)
    last = deque(begun_there(trace, root, walk.current) if walk.opened else (), maxlen=1)
    return last[0] if last else None


def begun_there(trace, record, task):
    """Yields the earlier records of the record's thread by which the task begins regions."""
    return (it for it in trace.of_thread(record.thread, FORKS, last=record.number - 1) if it.forked[0] == task)
