"""Random runs of OpenMP programs as a right tool records them, and the same with one thing changed; for tests/compare.

A run keeps what its tasks and threads do, and takes random steps that a runtime may take. A hasty one takes one
step too early: a wait ends, or a dependent task starts, before it may. In a run of version 2 untied tasks resume on
any thread, and the turns of all tasks are counted. In one of version 3 any task begins parallel regions and leagues,
inside others. The recorder is that of examples/recorder.py."""
import itertools
import os
import sys
from functools import partial

HERE = os.path.dirname(os.path.abspath(__file__))
sys.path.insert(0, os.path.join(HERE, '../examples'))
from model import BARRIERS, conflict
from recorder import Ledger, Recorder, Task

WAITING = sorted(BARRIERS | {'taskwait'})
DEP_KINDS = ('in', 'out', 'inout', 'mutexinoutset', 'inoutset')
FLAGS = ['untied', 'final', 'undeferred']
MOST_TASKS = 12
# So many regions are inside one another at most.
MOST_DEPTH = 4


class Job(Task):
    """A task of the run: what a tool keeps of it, and its progress."""

    def __init__(self, parent=None):
        super().__init__(parent)
        self.parent, self.children, self.items, self.regions, self.barriers = parent, [], [], [], 0
        # the parallel regions that it began and did not end, and how many regions a root is in
        self.forks, self.depth = [], 0
        self.stands, self.is_done, self.event = 'created', False, None
        self.is_taskwait = self.is_initial = self.is_untied = False
        self.thread = self.context = None
        # the turn that it began last
        self.turn = -1 if parent else 0
        if parent:
            parent.children.append(self)

    def family(self):
        """The task and all that descends from it."""
        return [self, *(other for child in self.children for other in child.family())]

    def predecessors(self):
        before = self.parent.children[:self.parent.children.index(self)]
        return [it for it in before if any(conflict(one, other) for one in it.items for other in self.items)]

    def is_ready(self, ending=None):
        """Whether all predecessors are complete, if the task `ending` is."""
        return all(it.is_done or it is ending for it in self.predecessors())

    def awaits(self):
        """The taskwait with dependences at which the task waits, if any."""
        return next((it for it in self.children if it.is_taskwait and not it.is_done), None)


class Region:
    """An open region of a task; a barrier knows its team, and its number in each member."""

    def __init__(self, kind, job):
        self.kind, self.job, self.children = kind, job, len(job.children)
        self.number = job.barriers if kind in BARRIERS else None
        if kind in BARRIERS:
            job.barriers += 1
            job.team.arrived.setdefault(self.number, {})[job.id] = list(job.children)

    def has_met(self):
        """Whether all who must begin the barrier did."""
        return self.number is None or len(self.job.team.arrived[self.number]) == self.job.team.size

    def may_end(self):
        """Whether all that the end waits for is complete."""
        if self.kind == 'taskwait':
            return all(it.is_done for it in self.job.children[:self.children])
        if self.kind == 'taskgroup':
            return all(it.is_done for child in self.job.children[self.children:] for it in child.family())
        if self.kind in BARRIERS:
            arrived = self.job.team.arrived[self.number].values()
            return self.has_met() and all(it.is_done for made in arrived for child in made for it in child.family())
        return True


class Team:
    """A team, and for each number of a barrier who is there, with the children that it had made then."""

    def __init__(self, size):
        self.size, self.arrived = size, {}


class Thread(Recorder):
    """A thread of the run: its records, its open roots and the task that it runs."""

    def __init__(self, number, run):
        super().__init__(number, True)
        self.run, self.ledger = run, run.ledger
        # its open roots, the innermost last, and for each the task that it ran when that root began
        self.roots, self.outer, self.current = [], [], None

    def record(self, cb, **members):
        super().record(cb, **members)
        self.run.records.append(self.records[-1])

    def begin(self, root, flag, *place):
        self.implicit_task('begin', root, flag, *place)
        self.roots.append(root)
        self.outer.append(self.current)
        self.current = root
        root.stands, root.thread, root.place = 'running', self, (flag, *place)

    def end(self):
        root = self.roots.pop()
        self.implicit_task('end', root, *root.place)
        self.current = self.outer.pop()

    def run_next(self, status, job):
        """The current task stops with this status, and the job runs."""
        prior = self.current
        self.task_schedule(prior, status, job)
        if self.run.tells_turns:
            self.records[-1].update(prior_turn=prior.turn, next_turn=job.turn + 1)
        self.run.was_moving |= job.thread not in (None, self)
        if status in ('switch', 'yield'):
            prior.stands = 'suspended'
        self.current, job.stands, job.thread, job.context = job, 'running', self, self.roots[-1]
        job.turn += 1

    def discard(self, job):
        self.known = self.ledger.append()
        self.record('cancel', task=job.id, flags=['taskgroup', 'discarded_task'], root=job.root.id, path=job.path,
                    kept=job.kept)
        self.known += 1


class Run:
    """A run, and its records in the order of time. `haste` is set while a hasty step may be taken."""

    def __init__(self, chance, threads, version):
        Task.ids = itertools.count(1)
        self.chance, self.haste, self.was_hasty, self.was_moving = chance, False, False, False
        self.tells_turns = version >= 2
        self.flags = FLAGS + ['untied'] * 3 if self.tells_turns else FLAGS
        self.ledger, self.records, self.jobs, self.regions = Ledger(), [], [], itertools.count(100)
        self.threads = [Thread(it, self) for it in range(threads)]

    def step(self, thread):
        """One random step of a thread, as often as not one that ends something; less often in version 2, where
        tasks are suspended and resume."""
        ends, others = self.ends(thread), self.others(thread)
        steps = ends if ends and self.chance.random() < (0.2 if self.tells_turns else 0.5) else ends + others
        hasty = [(action, is_due) for action, is_due in steps if not is_due]
        if steps:
            action, is_due = self.chance.choice(hasty or steps)
            self.was_hasty |= not is_due
            self.haste &= is_due
            action()

    def allowed(self, *steps):
        """Those of the steps (what is done, and whether it may be done now) that may be taken."""
        return [(action, is_due) for action, is_due in steps if is_due or self.haste]

    def beginnings(self):
        """What a short run may begin with: a task that a wait may cover, or two of which one may depend on the other, and
        the other runs."""
        group = partial(self.begin_region, kind='taskgroup')
        pair = [partial(self.create, with_items=True)] * 2
        return ([self.create], [self.create, self.begin_region], [group, self.create], pair,
                [*pair, lambda thread: thread.run_next('switch', self.jobs[-2])])

    def moving_beginnings(self):
        """What a short run of version 2 may begin with besides: a task runs, is suspended and resumes elsewhere. It
        may create a child or begin a region before, create a child or end after it, and another may depend on it."""
        plain, start = partial(self.create, is_untied=True, with_items=False), self.start_first
        pair = [partial(self.create, is_untied=True, with_items=True)] * 2
        moves = [self.suspend_first, self.resume_elsewhere]
        return ([plain, start, *moves], [plain, start, *moves, self.end_first], [*pair, start, *moves],
                [plain, start, *moves, self.create_in_first], [plain, start, self.create, *moves],
                [plain, start, self.create, self.begin_region, *moves], [plain, start, self.begin_region, *moves])

    def start_first(self, thread):
        thread.run_next('switch', self.jobs[0])

    def suspend_first(self, thread):
        thread.run_next(self.chance.choice(['switch', 'yield']), thread.roots[-1])

    def resume_elsewhere(self, thread):
        """The first task resumes on the second thread, which may have to begin."""
        other = self.threads[1]
        if not other.roots:
            self.begin_initial(other)
        other.run_next('switch', self.jobs[0])

    def create_in_first(self, thread):
        self.create(self.threads[1])

    def end_first(self, thread):
        """The first task ends on the second thread."""
        job = self.threads[1].current
        self.end_body(self.threads[1], 'detach' if job.event == 'due' else 'complete', self.threads[1].roots[-1])

    # What a thread may do

    def ends(self, thread):
        """The steps by which something ends: a region, a taskwait with dependences, a task's body or event, a root."""
        steps, job = self.fulfilments(thread), thread.current
        if job is None:
            return self.allowed(*steps)
        awaited = job.awaits()
        if awaited:
            steps.append((lambda: self.complete_taskwait(thread, awaited), awaited.is_ready()))
        elif job.regions:
            steps += [(lambda: self.end_region(thread), it.may_end()) for it in job.regions[-1:] if it.has_met()]
        elif job.forks:
            steps.append((lambda: self.join(thread), True))
        elif job not in thread.roots:
            steps += self.endings_of_body(thread)
        elif not any(it.stands == 'suspended' and it.context is job and not it.is_untied for it in self.jobs):
            steps.append((thread.end, True))
        return self.allowed(*steps)

    def fulfilments(self, thread):
        """The events that may be fulfilled, and the tasks that may be discarded; any thread does that."""
        due = [it for it in self.jobs if it.event == 'due' and not it.is_done]
        unborn = [it for it in self.jobs if it.stands == 'created' and not it.is_taskwait and it.event != 'fulfilled']
        steps = [(lambda job=job: self.fulfil(thread, job), True) for job in due]
        discards = [(lambda job=job: self.discard(thread, job), True) for job in unborn]
        return steps + self.chance.sample(discards, min(1, len(discards)))

    def endings_of_body(self, thread):
        """The ways in which the current task may end, each with a task that runs next; that may be one which waited
        only for this one."""
        job = thread.current
        status = 'detach' if job.event == 'due' else 'complete'
        statuses = [status] if job.event else [status, status, 'cancel']
        ending = None if status == 'detach' else job
        after = [(it, True) for it in self.runnable(thread, ending)] + [(it, False) for it in self.waiting(ending)]
        return [(lambda status=status, it=it: self.end_body(thread, status, it), is_due) for status in statuses
                for it, is_due in after]

    def others(self, thread):
        """All other steps: something begins or is made, or another task runs."""
        job = thread.current
        if job is None:
            return self.allowed((lambda: self.begin_initial(thread), True))
        steps = [(lambda it=it: thread.run_next(self.chance.choice(['switch', 'yield']), it), True)
                 for it in self.runnable(thread) * (3 if self.tells_turns else 1) + [job] * job.is_untied
                 + self.movable(thread) * 3]
        steps += [(lambda it=it: thread.run_next('switch', it), False) for it in self.waiting()] if self.haste else []
        if job.awaits() or job.regions and job.regions[-1].kind in WAITING:
            return self.allowed(*steps)
        if len(self.jobs) < MOST_TASKS:
            steps += [(lambda: self.create(thread), True)] * 3 + [(lambda: self.create(thread, 'taskwait'), True)]
        steps += [(lambda: self.begin_region(thread), True)] * 2 + [(lambda: self.pass_region(thread), True)]
        steps.append((lambda: thread.record('cancel', task=job.id, flags=['taskgroup', 'activated']), True))
        return self.allowed(*steps, *self.forkings(thread))

    def forkings(self, thread):
        """The steps by which the current task begins a parallel region."""
        job = thread.current
        return [(lambda: self.fork(thread), True)] if job.is_initial and not job.forks and not job.regions else []

    def runnable(self, thread, ending=None):
        """The tasks that may run next on the thread, if the task `ending` is complete: its innermost root, those it
        suspended there, untied ones that any thread suspended, and new ones."""
        root = thread.roots[-1]
        roots = [root] if root is not thread.current else []
        return roots + [it for it in self.jobs if it is not thread.current and not it.is_taskwait and (
            it.stands == 'suspended' and (it.context is root and it.thread is thread or it.is_untied)
            or it.stands == 'created' and it.is_ready(ending))]

    def movable(self, thread):
        """The tasks that another thread suspended, and that may resume on this one."""
        return [it for it in self.jobs if it.stands == 'suspended' and it.is_untied and it.thread is not thread]

    def waiting(self, ending=None):
        """The tasks that may not start yet, since a predecessor is not complete, even if the task `ending` is."""
        return [it for it in self.jobs if it.stands == 'created' and not it.is_taskwait and not it.is_ready(ending)]

    # What happens then

    def begin_initial(self, thread):
        root = Job()
        root.is_initial, root.team = True, Team(1)
        thread.begin(root, 'initial')

    def fork(self, thread):
        idle = [it for it in self.threads if not it.roots]
        threads = [thread, *self.chance.sample(idle, self.chance.randint(0, len(idle)))]
        parallel, team = next(self.regions), Team(len(threads))
        thread.record('parallel_begin', task=thread.current.id, parallel=parallel, requested=self.chance.randint(0, 5))
        thread.current.forks.append(parallel)
        self.chance.shuffle(threads)
        for index, it in enumerate(threads):
            member = Job()
            member.team = team
            it.begin(member, 'implicit', parallel, len(threads), index)

    def join(self, thread):
        thread.record('parallel_end', parallel=thread.current.forks.pop(), task=thread.current.id)

    def create(self, thread, *flags, with_items=None, is_untied=False):
        job = Job(thread.current)
        if with_items is None:
            with_items = flags or self.chance.random() < 0.5
        job.items = [{'type': self.chance.choice(DEP_KINDS), 'var': self.chance.randint(7, 9)}
                     for _ in range(self.chance.randint(1, 3) if with_items else 0)]
        job.is_taskwait = 'taskwait' in flags
        job.event = 'due' if not flags and self.chance.random() < 0.3 else None
        self.jobs.append(job)
        flag = 'untied' if is_untied else self.chance.choice(self.flags)
        job.is_untied = self.tells_turns and flag == 'untied'
        thread.record('task_create', task=job.parent.id, child=job.id, deps=bool(with_items),
                      flags=['explicit', *flags, flag])
        if with_items:
            thread.record('dependences', task=job.id, list=job.items)

    def kind_of_region(self, job):
        kinds = ['taskwait', 'taskwait', 'taskgroup', 'taskgroup', 'reduction']
        return self.chance.choice(kinds if job.parent else kinds + [*WAITING, 'barrier_implementation'])

    def begin_region(self, thread, kind=None):
        job = thread.current
        region = Region(kind or self.kind_of_region(job), job)
        job.regions.append(region)
        thread.sync_region(region.kind, 'begin', job)

    def pass_region(self, thread):
        """A region that begins and ends at once; where it must wait first, a usual one begins."""
        job = thread.current
        region = Region(self.kind_of_region(job), job)
        at_once = region.may_end()
        if not at_once:
            job.regions.append(region)
        thread.sync_region(region.kind, 'beginend' if at_once else 'begin', job)

    def end_region(self, thread):
        region = thread.current.regions.pop()
        thread.sync_region(region.kind, 'end', thread.current)

    def complete_taskwait(self, thread, job):
        thread.task_schedule(job, 'taskwait_complete')
        job.stands, job.is_done = 'ended', True

    def end_body(self, thread, status, after):
        job = thread.current
        thread.run_next(status, after)
        job.stands, job.is_done = 'ended', status != 'detach'

    def fulfil(self, thread, job):
        is_late = job.stands == 'ended'
        thread.task_schedule(job, 'late_fulfill' if is_late else 'early_fulfill')
        job.event, job.is_done = 'fulfilled', is_late

    def discard(self, thread, job):
        thread.discard(job)
        job.stands, job.is_done = 'ended', True


class NestingRun(Run):
    """A run in which each task that runs may begin a parallel region or a league: one root begins on its thread, where
    the task runs again once that root has ended, and others on threads that have no root."""

    def __init__(self, chance, threads):
        super().__init__(chance, threads, 3)
        # for each region the thread on which it began, as long as no root of it did
        self.forked_on = {}
        # whether version 2 has no such run
        self.was_nesting = False
        self.flags = [*self.flags, 'target']

    def others(self, thread):
        """Most threads have no root until they come into a region."""
        is_free = thread.current is None and any(it.roots for it in self.threads)
        return [] if is_free and self.chance.random() < 0.9 else super().others(thread)

    def forkings(self, thread):
        """A region begins, or a root of one that the task began before on this thread."""
        job = thread.current
        if thread.roots[-1].depth == MOST_DEPTH:
            return []
        steps = [(lambda: self.fork(thread), True)] * 3
        awaited = [it for it in job.forks if self.forked_on[it] is thread]
        return steps + [(lambda: self.enter(thread, awaited[-1]), True)] * bool(awaited)

    def ends(self, thread):
        """Where a root ends, the region mostly ends at once."""
        return [((lambda: self.end_root(thread)) if action == thread.end else action, is_due)
                for action, is_due in super().ends(thread)]

    def end_root(self, thread):
        thread.end()
        job = thread.current
        if job and job.forks and not job.awaits() and self.chance.random() < 0.7:
            self.join(thread)

    def fork(self, thread):
        """A region begins, and mostly its roots do at once; more often a league where an initial task begins it."""
        parallel, job = self.begin_parallel(thread, self.chance.randint(0, 5)), thread.current
        if self.chance.random() < 0.85:
            is_plain = job.is_initial and job.depth == 0
            self.enter(thread, parallel, self.chance.random() < (0.4 if is_plain else 0.1))

    def fork_at_once(self, thread, is_league=False):
        self.enter(thread, self.begin_parallel(thread, 2), is_league)

    def begin_parallel(self, thread, requested):
        """A region begins, of which no root has begun."""
        parallel, job = next(self.regions), thread.current
        thread.record('parallel_begin', task=job.id, parallel=parallel, requested=requested)
        job.forks.append(parallel)
        self.forked_on[parallel] = thread
        return parallel

    def enter(self, thread, parallel, is_league=False):
        """The roots of a region begin: the members of a team, or initial tasks, whose number of a region may be any."""
        self.forked_on[parallel] = None
        idle = [it for it in self.threads if not it.roots]
        threads = [thread, *self.chance.sample(idle, self.chance.randint(0, len(idle)))]
        job, depth, team = thread.current, thread.roots[-1].depth + 1, Team(len(threads))
        self.was_nesting |= is_league or not job.is_initial or depth > 1
        self.chance.shuffle(threads)
        for index, it in enumerate(threads):
            root = Job()
            root.depth, root.is_initial, root.team = depth, is_league, Team(1) if is_league else team
            told = self.chance.choice([parallel, 0, 99]) if is_league else parallel
            it.begin(root, 'initial' if is_league else 'implicit', told, len(threads), index)

    def nested_beginnings(self):
        """What a short run of version 3 begins with: a region inside another, one in an explicit task, or a league; and
        inside it what other short runs begin with."""
        plain = [partial(self.create, is_untied=True, with_items=False), self.start_first]
        inner, league = self.fork_at_once, partial(self.fork_at_once, is_league=True)
        outer = self.chance.choice([[inner, inner], [*plain, inner], [*plain, inner], [league], [league, inner]])
        return [*outer, *self.chance.choice(self.beginnings())]


def long_run(chance, is_hasty, version=1):
    """A run of one to four threads, of up to some hundred records; of version 2 one of two threads or more, and of
    version 3 one of two to six."""
    run = NestingRun(chance, chance.randint(2, 6)) if version == 3 else Run(chance, chance.randint(version, 4), version)
    for thread in run.threads:
        if chance.random() < 0.3:
            thread.record('thread_begin', kind=chance.choice(['initial', 'worker', 'other', 'unknown']))
        if version == 2 and chance.random() < 0.5:
            run.begin_initial(thread)
    steps = chance.randint(20 if version >= 2 else 0, chance.choice([20, 60, 120]))
    hasty_from = chance.randint(0, steps) if is_hasty else None
    for number in range(steps):
        run.haste |= number == hasty_from
        # of version 3 mostly a thread that runs something, since the others wait to be in a region
        inside = [it for it in run.threads if it.roots] if version == 3 and chance.random() < 0.8 else []
        run.step(chance.choice(inside or run.threads))
    return run


def short_run(chance, is_hasty, most, version=1):
    """A run that ends once it has this many records. It begins with a task for which something soon may wait, and
    mostly with a second thread, so that its records have several orders."""
    run = NestingRun(chance, chance.randint(2, 3)) if version == 3 else Run(chance, chance.randint(2, 3), version)
    first = run.threads[0]
    run.begin_initial(first)
    if version == 3:
        return short_rest(run, run.nested_beginnings(), is_hasty, most)
    others = chance.choice(['in a team', 'at once', 'at once', 'later'])
    if others == 'in a team':
        run.fork(first)
    for thread in run.threads[1:] if others == 'at once' else []:
        run.begin_initial(thread)
    moves = version == 2 and chance.random() < 0.7
    return short_rest(run, chance.choice(run.moving_beginnings() if moves else run.beginnings()), is_hasty, most)


def short_rest(run, beginning, is_hasty, most):
    """The run after these actions of its first thread and some steps."""
    for action in beginning:
        action(run.threads[0])
    run.haste = is_hasty
    while len(run.records) < most and run.chance.random() < 0.95:
        run.step(run.chance.choice(run.threads))
    return run
