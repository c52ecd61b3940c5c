"""The audit of records one after another: an answer at each record, by what is kept of the records before it, and of none
that follow. It serves records of which

- a finishing record makes the next entry, and no record names more entries than are before it;
- a task is named only where its creation, or its begin, is before;
- a task resumes only where it was suspended before;
- a taskwait with dependences is complete, and an event is fulfilled, only while the task is not complete.

The answer at a record, the first that applies: `malformed` with the least cause that every list of records has which
begins with those so far, as far as single records show it; `unordered` where one of these does not hold; `no` with the
first record so far at which a task is missed, and the task. At the end it is `malformed` with what only the end shows, or
`yes`. The words are those of docs/MODEL.md."""
from collections import defaultdict, namedtuple

from model import (AT_START, BARRIERS, CALLED_BARRIERS, NEXT_STATE, START_STATE, after_record, conflict, innermost,
                   kind_ended, known_after)

Answer = namedtuple('Answer', 'kind place detail')
# A region that began: its kind, and of a taskwait how many children the task had created, of a taskgroup too, of a
# barrier its number.
Begun = namedtuple('Begun', 'kind count')
# A fulfilment that came before the end of the body: its place and thread, and how many children it claims.
Late = namedtuple('Late', 'place thread kept')


class Thread:
    """What is kept of a thread: how many records it has, the length that it knows, its walk, the creation whose
    dependences must follow, by task the regions begun here, and the turn of each task that runs next here."""

    def __init__(self):
        self.count, self.known, self.walk, self.awaits = 0, 0, AT_START, None
        self.begun, self.turns = defaultdict(set), {}


class Task:
    """What is kept of a task."""

    def __init__(self, task, kind, place, seen, parent=None):
        self.task, self.kind, self.place, self.seen, self.parent = task, kind, place, seen, parent
        self.root = parent.root if parent else task
        self.path = [*parent.path, len(parent.children)] if parent else []
        self.state = 'Created' if parent else 'Running'
        self.children, self.home, self.moved, self.threads, self.start = [], None, False, set(), None
        self.turns, self.suspended = set(), None
        self.regions, self.barriers, self.team = [], 0, None
        # of an explicit task its root, and how many barriers this had begun when it created the task or its ancestor
        self.phase = parent and (parent.phase or (parent, parent.barriers))
        self.items, self.before = [], []
        # the lengths from which on body and event are finished
        self.ends = {}
        self.late = None

    def is_root(self):
        return self.parent is None

    def fin(self):
        """The length from which on it is complete, or None."""
        return max(self.ends.values()) if len(self.ends) == 2 else None

    def has_run(self):
        """Whether its body has ended, or it was discarded."""
        return 'Body' in self.ends


class Team:
    """What is kept of a team: its members and where they began, their number, and the ends of its barriers: place,
    number and length."""

    def __init__(self):
        self.members, self.joins, self.size, self.ends = {}, [], None, []


class Watch:
    """What is kept of the records so far."""

    def __init__(self, version):
        self.tells_turns, self.nests = version >= 2, version == 3
        self.threads, self.tasks, self.teams = defaultdict(Thread), {}, defaultdict(Team)
        self.entries, self.forked, self.unforked = 0, set(), {}

    def answer(self, i, record):
        """The answer that stands from this record on, or None."""
        causes = {number for number, shows in CAUSES if shows(self, self.threads[record.thread], record)}
        if causes:
            return Answer('malformed', i, min(causes))
        if not self.is_in_order(record):
            return Answer('unordered', i, None)
        self.take(i, record)
        return self.miss(i, record)

    def is_in_order(self, record):
        """The conditions above."""
        known = self.tasks.keys()
        if record.seen > self.entries or record.finish and record.seen < self.entries:
            return False
        if not record.named - {record.made} <= known:
            return False
        ended = [self.tasks[it] for it in (record.wait_completed, record.fulfilled) if it is not None]
        if any(it.fin() or it.state == 'Done' for it in ended):
            return False
        if not record.told_turns or record.told_turns.next == 0:
            return True
        suspended = self.tasks[record.started].suspended
        last = record.told_turns.prior if record.started == record.running else suspended and suspended[0]
        return last == record.told_turns.next - 1

    # What a record does

    def take(self, i, record):
        thread = self.threads[record.thread]
        thread.count, thread.known = thread.count + 1, max(thread.known, known_after(record))
        thread.awaits = (record.created, i) if record.created_with_deps is not None else None
        self.take_region_names(i, record, thread)
        if record.creation:
            parent, child = self.tasks[record.running], record.created
            kind = 'taskwait' if 'taskwait' in record.flags else 'any'
            self.tasks[child] = Task(child, kind, i, record.seen, parent)
            parent.children.append(self.tasks[child])
        if record.begun_root is not None:
            self.take_root(i, record)
        if record.dependences:
            self.take_items(*record.dependences)
        if record.schedule:
            self.take_stop(i, record)
        if record.started is not None:
            self.take_start(i, record, thread)
        if record.finish:
            self.take_finish(record)
        thread.walk = after_record(thread.walk, record)

    def take_region_names(self, i, record, thread):
        if record.forked:
            task, parallel = record.forked
            self.forked.add(parallel)
            self.unforked.pop(parallel, None)
            thread.begun[task].add(parallel)
        if record.region_named is not None and record.region_named not in self.forked:
            self.unforked.setdefault(record.region_named, i)

    def take_root(self, i, record):
        task = Task(record.begun_root, 'root', i, record.seen)
        self.tasks[task.task], task.home = task, record.thread
        member = record.joined
        task.team = self.teams[member.parallel] if member else Team()
        task.team.members[member.index if member else 0] = task
        if member:
            task.team.size = member.actual
            task.team.joins.append(i)

    def take_items(self, task, items):
        """Notes the earlier siblings whose items conflict with these."""
        task = self.tasks[task]
        task.items = items
        siblings = task.parent.children
        task.before = [it for it in siblings[:siblings.index(task)]
                       if any(conflict(dep, other) for dep in it.items for other in items)]

    def take_stop(self, i, record):
        status, prior = record.schedule
        task = self.tasks[prior]
        if status == 'late_fulfill' and task.state != 'Detached':
            task.late = Late(i, record.thread, record.claim.kept)
        else:
            task.state = 'Done' if task.late and status == 'detach' else NEXT_STATE[task.state][status]
        if record.suspended_turn:
            task.suspended = (record.suspended_turn[1], known_after(record))

    def take_start(self, i, record, thread):
        task, turn = self.tasks[record.started], record.begun_turn[1]
        task.state = START_STATE[task.state]
        task.home = record.thread if task.home is None else task.home
        task.moved |= bool(record.told_turns) and task.home != record.thread
        task.threads.add(record.thread)
        task.turns.add(turn)
        thread.turns[task.task] = turn
        if turn == 0 and not task.is_root() and task.start is None:
            task.start = i

    def take_finish(self, record):
        task, part = record.finish
        self.entries += 1
        for it in ('Body', 'Event') if part == 'Whole' else (part,):
            self.tasks[task].ends[it] = self.entries

    # What must be complete

    def miss(self, i, record):
        """The answer no at the first record so far at which a task is missed now, or None."""
        counts = record.seen + 1 if record.finish and record.started is not None else record.seen
        found = {i: incomplete(self.required(i, record), counts)}
        if record.region and record.region.endpoint != 'end' and record.region.kind in BARRIERS:
            # by this begin the ends of the barrier that are before it cover more
            task = self.tasks[record.region.task]
            found |= {at: incomplete(self.phases([task], task.barriers - 1), seen)
                      for at, number, seen in task.team.ends if number == task.barriers - 1 and at != i}
        left = {at: tasks for at, tasks in found.items() if tasks}
        return Answer('no', min(left), min(left[min(left)], key=lambda it: it.place).task) if left else None

    def phases(self, members, number):
        """The tasks that these roots created before their barriers of this number, and their descendants."""
        return [it for it in self.tasks.values() if it.phase and it.phase[0] in members and it.phase[1] <= number]

    def required(self, i, record):
        """The tasks that must be complete there."""
        if record.wait_completed is not None:
            return self.tasks[record.wait_completed].before
        if record.started is not None and self.tasks[record.started].start == i:
            return self.tasks[record.started].before
        return self.required_by_region(i, record) if record.region else []

    def required_by_region(self, i, record):
        kind, endpoint, task = record.region.kind, record.region.endpoint, self.tasks[record.region.task]
        if endpoint != 'end':
            task.regions.append(Begun(kind, task.barriers if kind in BARRIERS else len(task.children)))
            task.barriers += kind in BARRIERS
        if endpoint == 'begin':
            return []
        begun = task.regions.pop()
        if kind == 'taskwait':
            return task.children[:begun.count]
        if kind == 'taskgroup':
            return families(task.children[begun.count:])
        if kind not in BARRIERS:
            return []
        task.team.ends.append((i, begun.count, record.seen))
        return self.phases([it for it in task.team.members.values() if it.barriers > begun.count], begun.count)

    # The end

    def end(self):
        """The answer at the end."""
        causes = [(3, place) for place in self.unforked.values()]
        for task in self.tasks.values():
            causes += self.causes_of_late(task)
        for team in self.teams.values():
            if len(team.members) < (team.size or 0):
                causes += [(8, place) for place in team.joins]
            causes += [(8, at) for at, number, _ in team.ends
                       if any(it.barriers <= number for it in team.members.values())]
        causes += [(10, it.awaits[1]) for it in self.threads.values() if it.awaits]
        return Answer('malformed', min(causes)[1], min(causes)[0]) if causes else Answer('yes', None, None)

    def causes_of_late(self, task):
        """A fulfilment before the end of the body, which must come, and on the same thread only of a task that moves."""
        late = task.late
        if not late:
            return []
        is_early = not task.has_run() or late.thread == task.home and not task.moved
        return [(6, late.place)] * is_early + [(11, late.place)] * (not task.has_run() and late.kept != len(task.children))


def incomplete(tasks, counts):
    """Of these tasks those that are not complete by so many entries. What a record finishes itself counts where it starts
    a task."""
    return [it for it in tasks if it.fin() is None or it.fin() > counts]


def families(tasks):
    """These tasks and all of their descendants."""
    found, left = [], [*tasks]
    while left:
        found.append(left.pop())
        left += found[-1].children
    return found


# The causes that single records show: each by what is kept, and the record

def seq_gap(watch, thread, record):
    return record.seq != thread.count


def created_twice(watch, thread, record):
    return record.made in watch.tasks or bool(record.forked) and record.forked[1] in watch.forked


def not_current(watch, thread, record):
    started, waited = (watch.tasks.get(it) for it in (record.started, record.wait_completed))
    return (record.running not in (None, thread.walk.current)
            or record.ended_root not in (None, innermost(thread.walk))
            or started and started.is_root() and started.task != innermost(thread.walk)
            or waited and not waited.is_root() and waited.parent.task != thread.walk.current)


def moved(watch, thread, record):
    task = watch.tasks.get(record.started)
    return task and not task.is_root() and not record.told_turns and task.threads - {record.thread}


def turn_gap(watch, thread, record):
    """But for the rule `missing`: where no suspension is before, the records are unordered."""
    if not record.told_turns:
        return False
    (name, turn), task = record.begun_turn, watch.tasks.get(record.started)
    return (record.told_turns.prior != thread.turns.get(record.running, 0)
            or task and (turn in task.turns or turn < thread.turns.get(name, 0) or turn == 0 and task.is_root()))


def status_order(watch, thread, record):
    status, prior = record.schedule or (None, None)
    stopped, started, discarded = (watch.tasks.get(it) for it in (prior, record.started, record.discarded))
    return (stopped and not may_stop(watch, stopped, status, record.thread)
            or started and not may_start(started, status, started is stopped, record)
            or discarded and (discarded.kind != 'any' or discarded.state != 'Created' or discarded.late))


def may_stop(watch, task, status, thread):
    """Whether the status may be one of the task's now, in some list. Fulfilments are read apart from the turns unless they
    are on the task's own thread, and where the task moves there too."""
    if task.is_root():
        return status in ('yield', 'switch') and task.state == 'Running'
    if (task.kind == 'taskwait') != (status == 'taskwait_complete'):
        return False
    is_apart = task.home != thread or watch.tells_turns
    if status == 'late_fulfill' and task.state != 'Detached':
        return is_apart and not task.late and task.state in ('Created', 'Running', 'Suspended')
    if status == 'early_fulfill' and task.state == 'Done':
        return is_apart and not task.late and 'Event' in task.ends
    if task.late and status in ('complete', 'cancel', 'early_fulfill'):
        return False
    return status in NEXT_STATE[task.state]


def may_start(task, status, is_stopped, record):
    """Whether the task may run next now, in some list: where turns are recorded its suspension may come later."""
    if task.kind == 'taskwait':
        return False
    state = NEXT_STATE[task.state].get(status) if is_stopped else task.state
    return state in START_STATE or not is_stopped and bool(record.told_turns) and state in ('Running', 'EarlyRunning')


def region_order(watch, thread, record):
    task, kind = record.region and watch.tasks.get(record.region.task), kind_ended(record)
    ends_none = task and kind and record.region.endpoint == 'end' and (not task.regions or task.regions[-1].kind != kind)
    return ends_none or task and record.region.kind in CALLED_BARRIERS and not task.is_root()


def team_short(watch, thread, record):
    """The rules outside, same_index and other_size."""
    member, team = record.joined, record.joined and watch.teams.get(record.joined.parallel)
    return member and (member.index >= member.actual
                       or team and (member.index in team.members or team.size not in (None, member.actual)))


def nesting(watch, thread, record):
    """NestedParallel, or in version 3 RegionNesting."""
    roots, begun = thread.walk.roots, thread.begun.get(thread.walk.current, ())
    if watch.nests:
        return roots and (record.joined and record.joined.parallel not in begun
                          or record.begun_initial is not None and not begun)
    outer, forks = (watch.tasks.get(it) for it in (innermost(thread.walk), record.forked and record.running))
    return (forks and not is_initial(forks) or record.joined and outer and not is_initial(outer)
            or record.begun_initial is not None and roots)


def is_initial(task):
    return task.is_root() and not task.team.joins


def deps_place(watch, thread, record):
    listed = record.dependences[0] if record.dependences else None
    return listed != (thread.awaits[0] if thread.awaits else None)


def share_wrong(watch, thread, record):
    """An event that is fulfilled before the body's end may have more children than the task has now."""
    task = record.finish and watch.tasks.get(record.finish[0])
    if not task or task.is_root():
        return False
    if (record.claim.root, record.claim.path) != (task.root, task.path) or record.claim.kept < len(task.children):
        return True
    is_last = record.finish[1] != 'Event' or task.has_run()
    return is_last and {record.claim.kept, task.late.kept if task.late else record.claim.kept} != {len(task.children)}


def entry_twice(watch, thread, record):
    return record.finish and record.seen < watch.entries


def length_back(watch, thread, record):
    """Less than the thread knows; or than the creation or the suspension that the record awaits."""
    lengths = [thread.known]
    starts = record.begun_turn and record.begun_turn[1] == 0 and record.started
    for task in (watch.tasks.get(it) for it in (record.fulfilled, record.discarded)):
        lengths += [task.seen] if task and not task.is_root() else []
    started = watch.tasks.get(record.started)
    if started and starts and not started.is_root() and started.start is None:
        lengths.append(started.seen)
    if started and started.suspended and started.suspended[0] + 1 == record.begun_turn[1]:
        lengths.append(started.suspended[1])
    return record.seen < max(lengths)


def target_task(watch, thread, record):
    return not watch.nests and record.made is not None and 'target' in record.flags


CAUSES = [(1, seq_gap), (2, created_twice), (4, not_current), (5, moved), (5, turn_gap), (6, status_order),
          (7, region_order), (8, team_short), (9, nesting), (10, deps_place), (11, share_wrong), (12, entry_twice),
          (14, length_back), (16, target_task)]


def watched(records, version):
    """The answer to the records, and how many were read by then."""
    watch = Watch(version)
    for i, record in enumerate(records):
        answer = watch.answer(i, record)
        if answer:
            return answer, i + 1
    return watch.end(), len(records)
