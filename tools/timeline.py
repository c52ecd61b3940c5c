"""A timeline of a trace file, in the Trace Event format that Perfetto and Chrome open: a track for each thread, slices
for the tasks that it runs and for their regions, flows for dependences, and the named record. docs/TIMELINE.md says how
to read it.

One pass reads the file; a second one goes along its records in the order of time and writes events. So what is open on
a thread, and in a task that moves, is known where it is needed."""
import json
from bisect import bisect
from collections import defaultdict, namedtuple
from sys import intern

from model import DEMANDS_NEXT, STATUS_PART, WAITS_FOR_TASKS
from orders import in_order, needs
from summary import CLASS_OF

# The time of a place in an order, in nanoseconds.
STEP = 1000
# The process of a file that names none. Viewers take the thread with the number of its process as the main one, so this
# is more than the number of any thread.
PROCESS = 256
# Greater whole numbers are not exact in JavaScript, which viewers are written in.
GREATEST = 2**53
# So many events are written at once.
PIECE = 4096
# The greatest number of open regions with which a task goes on, so that what is written stays linear.
MOST_REGIONS = 16
# The colours of what a no is about, by their names in the format.
RED, ORANGE = 'terrible', 'bad'
SUSPENDS = {'yield', 'switch'}
FULFILS = {'early_fulfill', 'late_fulfill'}
ROOTS, CREATES, REGIONS = {'initial', 'implicit'}, {'create', 'await'}, {'begin', 'end', 'beginend'}
# What records do that are of the task which runs on their thread.
OF_CURRENT = DEMANDS_NEXT | CREATES | REGIONS | {'cancellation'}
BY_CLOCK = 'time stamps of the recorder, in nanoseconds from the least one on'
BY_ORDER = 'places in an order that the records allow, one microsecond each'
BY_FILE = 'places in the file, one microsecond each, since no order was found that keeps the order of each thread'


class Event(namedtuple('Event', 'number thread seen what task other turn next_turn code')):
    """What a record does: its line and thread, the ledger length that it names, the word for what it does, the task
    that does it or that it is about, what stands beside the task (the next one, a child, the kind of a region, the
    place of a root in its team), the turns that end and begin, and where it is in the program. `orders` reads the
    other names."""
    __slots__ = ()

    @property
    def finish(self):
        return self.what in STATUS_PART or self.what == 'discard' or None

    @property
    def needs(self):
        return needs(self)

    @property
    def created(self):
        return self.other if self.what in CREATES else None

    @property
    def started(self):
        return self.other if self.what in DEMANDS_NEXT else None

    @property
    def discarded(self):
        return self.task if self.what == 'discard' else None

    @property
    def fulfilled(self):
        return self.task if self.what in FULFILS else None

    @property
    def begun_turn(self):
        return (self.other, self.next_turn) if self.what in DEMANDS_NEXT else None

    @property
    def suspended_turn(self):
        return (self.task, self.turn) if self.what in SUSPENDS else None


# What the records of each callback do: the word, the task, what stands beside it, and the turns.

def root_of(value):
    if value['endpoint'] == 'end':
        return 'ended', value['task'], None, 0, 0
    what = 'initial' if 'initial' in value['flags'] else 'implicit'
    return what, value['task'], (value['parallel'], value['index'], value['actual']), 0, 0


def creation_of(value):
    return 'await' if 'taskwait' in value['flags'] else 'create', value['task'], value['child'], 0, 0


def schedule_of(value):
    return intern(value['status']), value['prior'], value.get('next'), 0, 0


def schedule_with_turns_of(value):
    return intern(value['status']), value['prior'], value.get('next'), value.get('prior_turn'), value.get('next_turn')


def region_of(value):
    return intern(value['endpoint']), value['task'], intern(value['kind']), 0, 0


def cancel_of(value):
    return 'discard' if 'discarded_task' in value['flags'] else 'cancellation', value['task'], None, 0, 0


def other_of(value):
    return 'other', None, None, 0, 0


READS = {'implicit_task': root_of, 'task_create': creation_of, 'task_schedule': schedule_of, 'sync_region': region_of,
         'cancel': cancel_of}


def classes_in(items):
    """Returns the class of each location in a list of dependences. Whatever conflicts with one of two classes, or with
    both, conflicts with `out`."""
    found = {}
    for it in items:
        kind = CLASS_OF[it['type']]
        found[it['var']] = kind if found.get(it['var'], kind) == kind else 'out'
    return found


class Facts:
    """The records of a file and their time stamps, and what they say of each task."""

    def __init__(self, lines):
        header = json.loads(next(lines))
        self.version, recorder = header['version'], header.get('recorder')
        self.recorder = recorder if isinstance(recorder, dict) else {}
        self.events, self.stamps, self.threads = [], [], defaultdict(list)
        # by task: the record that makes it, the one at which it starts, those that finish it, and what it depends on
        self.made, self.starts, self.finishes = {}, {}, {'Whole': {}, 'Body': {}, 'Event': {}}
        self.lists, self.suspended, self.stays = {}, {}, set()
        takes, reads = self.takes(), READS | ({'task_schedule': schedule_with_turns_of} if self.version >= 2 else {})
        for number, line in enumerate(lines, 2):
            value = json.loads(line)
            code = value.get('codeptr')
            event = Event(number, value['thread'], value['seen'], *reads.get(value['cb'], other_of)(value),
                          intern(code) if type(code) is str else code)
            self.events.append(event)
            self.stamps.append(value.get('time'))
            self.threads[event.thread].append(event)
            if event.what in takes:
                takes[event.what](event)
            elif value['cb'] == 'dependences':
                self.lists[value['task']] = classes_in(value['list'])

    def takes(self):
        """Returns what notes a record, by what that does."""
        return {**dict.fromkeys(ROOTS | CREATES, self.take_maker), **dict.fromkeys(DEMANDS_NEXT, self.take_schedule),
                **dict.fromkeys(('late_fulfill', 'taskwait_complete', 'discard'), self.take_finish)}

    def take_maker(self, event):
        self.made.setdefault(event.task if event.what in ROOTS else event.other, event)

    def take_finish(self, event):
        self.finishes[STATUS_PART.get(event.what, 'Whole')].setdefault(event.task, event)

    def take_schedule(self, event):
        """Notes also which suspended tasks stay on their thread: those whose next turn begins there too."""
        before = self.suspended.pop((event.thread, event.other), None)
        if before and (self.version == 1 or before.turn + 1 == event.next_turn):
            self.stays.add(before.number)
        if event.what in SUSPENDS:
            self.suspended[event.thread, event.task] = event
        else:
            self.take_finish(event)
        if self.version == 1 or event.next_turn == 0:
            self.starts.setdefault(event.other, event)

    def is_root(self, task):
        made = self.made.get(task)
        return made is not None and made.what in ROOTS


# When each record is

def clock_times(facts):
    """Returns the nanoseconds of each record by its time stamp, and None; or None and why there are none."""
    stamps = facts.stamps
    timed = sum(type(it) is int and it >= 0 for it in stamps)
    if timed < len(stamps):
        return None, f'only {timed} of {len(stamps)} records have a time stamp' if timed else None
    for events in facts.threads.values():
        falls = next((it for before, it in zip(events, events[1:])
                      if stamps[it.number - 2] < stamps[before.number - 2]), None)
        if falls:
            return None, f'the time stamp on line {falls.number} is less than one before it in its thread'
    least = min(stamps, default=0)
    return [it - least for it in stamps], None


def ordered(facts, order):
    """Returns the records in an order of threads and numbers in them; None where that has not each record once."""
    threads = facts.threads
    found = [threads[thread][seq] for thread, seq in order if seq < len(threads[thread])]
    return found if len({it.number for it in found}) == len(facts.events) == len(found) else None


def keeps_threads(facts, times):
    """Whether the times keep the order of each thread."""
    return all(times[one.number - 2] < times[other.number - 2]
               for events in facts.threads.values() for one, other in zip(events, events[1:]))


def order_times(facts, order):
    """Returns the nanoseconds of each record by its place in an order, and which order that is."""
    times = [0] * len(facts.events)
    for place, it in enumerate(ordered(facts, order) or in_order(facts.events)):
        times[it.number - 2] = place * STEP
    if keeps_threads(facts, times):
        return times, BY_ORDER
    return [place * STEP for place in range(len(times))], BY_FILE


def times_of(facts, order):
    """Returns the nanoseconds of each record, and which time that is, with the reason where stamps are not used."""
    times, why = clock_times(facts)
    if times:
        return times, BY_CLOCK
    times, which = order_times(facts, order)
    return times, f'{which}; {why}' if why else which


# What waits for what

class Location:
    """A location so far among the children of one task: the latest ones that list it in one class, and those before
    them, or of these the one that finishes last."""
    __slots__ = ('kind', 'latest', 'before')

    def __init__(self):
        self.kind, self.latest, self.before = 'out', [], []

    def add(self, task, kind, last_of):
        """Adds a task. Returns those that it waits for: where it begins a class all the latest ones, and where it joins
        one only the last of those before, so that there are no more flows than dependences."""
        if kind == self.kind != 'out':
            self.latest.append(task)
            self.before = last_of(self.before) if len(self.before) > 1 else self.before
        else:
            self.before, self.kind, self.latest = self.latest, kind, [task]
        return self.before


class Flows:
    """The flows, by the line of a record: those that are bound to what ends there, and those to what begins there. Each
    is the phase of its event, its number and its name."""

    def __init__(self, facts, times, events, found):
        self.facts, self.times, self.count = facts, times, 0
        self.at_end, self.at_begin = defaultdict(list), defaultdict(list)
        # by task the record at which it is complete: of a detached one the later of body and event
        whole, bodies, fulfilments = facts.finishes.values()
        self.done = {task: max(it, fulfilments[task], key=self.moment)
                     for task, it in bodies.items() if task in fulfilments} | whole
        # the unfinished task of a no, the named record, and the colours of the slices that begin at some lines
        self.task, self.named, self.colours = found.task, None, {}
        if found.task is not None:
            self.named = facts.events[found.line - 2]
            self.add_finding(events)
        self.add_dependences(events)

    def moment(self, event):
        return self.times[event.number - 2], event.number

    def add(self, name, one, other):
        """Adds a flow from one record to another; of each it has where it is bound."""
        self.count += 1
        (one_side, first), (other_side, last) = one, other
        one_side[first.number].append(('s', self.count, name))
        other_side[last.number].append(('f', self.count, name))

    def add_from(self, task, name, side, event):
        """Adds a flow from the record that finishes the task to this one, where that comes before: no flow goes back.
        Returns whether it does."""
        done = self.done.get(task)
        is_before = done is not None and self.moment(done) <= self.moment(event)
        if is_before:
            self.add(name, (self.at_end, done), (side, event))
        return is_before

    def last_of(self, tasks):
        """Returns the one of these tasks that finishes last, in a list; none where none finishes."""
        finished = [it for it in tasks if it in self.done]
        return [max(finished, key=lambda it: self.moment(self.done[it]))] if finished else []

    def is_discarded(self, task):
        return task in self.done and self.done[task].what == 'discard'

    def add_dependences(self, events):
        """Adds flows to the start of each task from those that it waits for; `events` are in the order of time. A
        discarded task has none: it waits for nothing, so what is before it would be lost behind it."""
        locations, lists = defaultdict(Location), self.facts.lists
        for it in events:
            if it.what in CREATES and it.other in lists and not self.is_discarded(it.other):
                found = [locations[it.task, place].add(it.other, kind, self.last_of)
                         for place, kind in lists[it.other].items()]
                self.add_start(it, {task for tasks in found for task in tasks})

    def add_start(self, made, predecessors):
        """Adds the flows to the start of a task, or to the end of a taskwait with dependences."""
        task, is_wait = made.other, made.what == 'await'
        start = (self.facts.finishes['Whole'] if is_wait else self.facts.starts).get(task)
        for it in sorted(predecessors) if start else ():
            if it != self.task or start is not self.named:
                self.add_from(it, 'dependence', self.at_end if is_wait else self.at_begin, start)

    def add_finding(self, events):
        """Adds the flows of a no: to the end of its wait from other children, and the one of the unfinished task. Where
        this finishes after the named record, its flow goes from there to where it finishes."""
        named, begin = self.named, self.begin_of_wait(events)
        side, colour = (self.at_end, RED) if named.started is None else (self.at_begin, ORANGE)
        self.colours = dict.fromkeys((named.number, begin.number), colour)
        for it in self.children_of_wait(events, begin):
            self.add_from(it, 'wait', side, named)
        done = self.done.get(self.task, named)
        if not self.add_from(self.task, 'unfinished', side, named) and self.moment(done)[0] > self.moment(named)[0]:
            self.add('unfinished', (side, named), (self.at_end, done))

    def begin_of_wait(self, events):
        """Returns the record at which the wait begins that ends at the named one; the named one where none ends."""
        named, opened = self.named, []
        if named.what == 'taskwait_complete':
            return self.facts.made[named.task]
        for it in events if named.what == 'end' else ():
            if it is named:
                break
            if it.task == named.task and it.what == 'begin':
                opened.append(it)
            elif it.task == named.task and it.what == 'end' and opened:
                opened.pop()
        return opened[-1] if opened else named

    def children_of_wait(self, events, begin):
        """Returns the other tasks that the named wait waits for, as far as its own task created them."""
        named, first, last = self.named, self.moment(begin), self.moment(self.named)
        if named.what not in ('end', 'beginend'):
            return []
        is_group = named.other == 'taskgroup'
        return [it.other for it in events if it.what in CREATES and it.task == named.task and it.other != self.task
                and (first < self.moment(it) < last if is_group else self.moment(it) < first)]


# What is written

# How a flow is bound where it begins and where it ends: to the slice around it.
BOUND = {'s': '', 'f': ',"bp":"e"'}
# What is open on a thread: a task, or a region of a task. It begins on the line `number`.
Open = namedtuple('Open', 'task name cat number code')


class Track:
    """A thread: how its events begin, what is open on it, the outermost first, where tasks are among that, where its
    roots are, and the time of its last record."""
    __slots__ = ('head', 'open', 'places', 'roots', 'last')

    def __init__(self, process, thread):
        self.head, self.open, self.places = f'"pid":{process},"tid":{thread},"ts":', [], {}
        self.roots, self.last = [], 0

    def place_of(self, task):
        """Returns the place of a task that may go on here, which is not below the innermost root; or None."""
        place = self.places.get(task)
        return place if place is not None and place >= (self.roots[-1] if self.roots else 0) else None

    def remove(self):
        """Removes the innermost of what is open, and returns it."""
        it, place = self.open.pop(), len(self.open)
        if it.cat == 'task':
            self.places.pop(it.task, None)
        if self.roots and self.roots[-1] == place:
            self.roots.pop()
        return it


def category(kind):
    """Returns the category of a kind of region."""
    return 'wait' if kind in WAITS_FOR_TASKS else 'region'


def exact(number):
    """Returns a number of the file as JSON that each viewer shows as it is."""
    return str(number) if number <= GREATEST else f'"{number}"'


def micros(time):
    """Returns nanoseconds as microseconds."""
    whole, rest = divmod(time, 1000)
    return f'{whole}.{rest:03}' if rest else str(whole)


def process_of(recorder):
    """Returns the process that the header names."""
    found = recorder.get('process')
    return found if type(found) is int else PROCESS


class Timeline:
    """Writes events along the records in the order of time."""

    def __init__(self, facts, times, flows, found):
        self.facts, self.times, self.flows, self.found = facts, times, flows, found
        self.process = process_of(facts.recorder)
        self.tracks = {thread: Track(self.process, thread) for thread in sorted(facts.threads)}
        # by task its open regions that no track has, the outermost first; by number the times at which flows begin
        self.out, self.left_open, self.begun = [], {}, {}
        self.time, self.stamp, self.last = 0, '0', max(times, default=0)
        self.takes = {**dict.fromkeys(ROOTS, self.take_root), 'ended': self.take_end_of_root, 'await': self.take_await,
                      **dict.fromkeys(DEMANDS_NEXT, self.take_schedule), 'begin': self.take_begin, 'end': self.take_end,
                      'beginend': self.take_both, 'taskwait_complete': self.take_await_end,
                      **dict.fromkeys((*FULFILS, 'discard'), self.take_finish), 'cancellation': self.take_cancellation}

    def pieces(self, events):
        """Yields the events of the timeline as text, in pieces."""
        between = ''
        self.out += self.metadata()
        for it in events:
            self.take(it)
            if len(self.out) >= PIECE:
                yield between + ',\n'.join(self.out)
                between, self.out = ',\n', []
        self.out += [self.event('E', track, '') for track in self.tracks.values() for _ in track.open]
        if self.out:
            yield between + ',\n'.join(self.out)

    def metadata(self):
        """Yields the names of the process and of the threads."""
        program = self.facts.recorder.get('program')
        told = [(0, 'process_name', 'name', json.dumps(program))] * isinstance(program, str)
        told += [(it, 'thread_name', 'name', f'"thread {it}"') for it in self.tracks]
        told += [(it, 'thread_sort_index', 'sort_index', it) for it in self.tracks]
        for thread, name, member, value in told:
            yield f'{{"ph":"M","pid":{self.process},"tid":{thread},"name":"{name}","args":{{"{member}":{value}}}}}'

    def take(self, it):
        """Writes what a record does."""
        track = self.tracks[it.thread]
        self.time = self.times[it.number - 2]
        self.stamp = micros(self.time)
        if not track.open and it.what in OF_CURRENT:
            self.begin_task(track, it.task, it)
        if it.what in self.takes:
            self.takes[it.what](track, it)
        if it.number == self.found.line:
            self.mark(track, it)
        track.last = self.time

    def event(self, phase, track, more):
        return f'{{"ph":"{phase}",{track.head}{self.stamp}{more}}}'

    def write(self, phase, track, more):
        self.out.append(self.event(phase, track, more))

    def mark(self, track, it):
        """Writes the named record, with the answer."""
        told = json.dumps({'line': it.number, 'explanation': ' '.join(self.found.sentences)})
        self.write('i', track, f',"s":"g","name":{json.dumps(self.found.answer)},"cat":"finding","cname":"{RED}"'
                               f',"args":{told}')

    def flow(self, track, side, it, time):
        """Writes the flows of a record that are bound on one side, at this time, or where they begin if that is later:
        with equal times the nanosecond inside a slice may be too much."""
        for phase, number, name in side.pop(it.number):
            begun = self.begun.pop(number, time) if phase == 'f' else self.begun.setdefault(number, time)
            self.out.append(f'{{"ph":"{phase}",{track.head}{micros(max(time, begun))},"id":{number},"name":"{name}"'
                            f',"cat":"{name}"{BOUND[phase]}}}')

    def time_inside(self, it):
        """Returns a time at which what begins at a record is surely open: a nanosecond later, since at the time itself
        something else may end; but no later than the next record of the thread."""
        events = self.facts.threads[it.thread]
        at = bisect(events, (it.number + 1,))
        return min(self.time + 1, self.times[events[at].number - 2] if at < len(events) else self.last)

    def flow_at_end(self, track, it):
        """Writes the flows that are bound to what ends at a record: a nanosecond before, where that is surely open."""
        if it.number in self.flows.at_end and track.open:
            self.flow(track, self.flows.at_end, it, max(track.last, self.time - 1))
        elif it.number in self.flows.at_end:
            self.point(track, it, f'{it.what} of task {it.task}', 'task')

    # slices

    def begin(self, track, it, args):
        """Begins a slice."""
        colour = RED if it.cat == 'task' and it.task == self.found.task else self.flows.colours.get(it.number)
        told = f',"cname":"{colour}"' * (colour is not None)
        code = f',"codeptr":{json.dumps(it.code)}' if it.code is not None else ''
        self.write('B', track, f',"name":"{it.name}","cat":"{it.cat}"{told},"args":{{{args}{code}}}')
        track.open.append(it)

    def point(self, track, it, name, cat):
        """Writes a slice of no length, and in it the flows that are bound to what ends there."""
        self.begin(track, Open(it.task, name, cat, it.number, it.code), f'"line":{it.number}')
        if it.number in self.flows.at_end:
            self.flow(track, self.flows.at_end, it, self.time)
        self.write('E', track, '')
        track.open.pop()

    def begin_task(self, track, task, it):
        """Begins a slice of a task, and those of the regions with which it goes on."""
        made, args = self.facts.made.get(task), f'"line":{it.number}'
        kind = f'{made.what} task' if made and made.what in ROOTS else 'task'
        if made and made.what in CREATES:
            args += f',"parent":{exact(made.task)},"created on line":{made.number}'
        elif made:
            region, index, actual = made.other
            args += f',"region":{exact(region)},"index":{index},"actual":{actual}'
        track.places[task] = len(track.open)
        self.begin(track, Open(task, f'{kind} {task}', 'task', it.number, made and made.code), args)
        regions = self.left_open.get(task, [])
        for region in regions[-MOST_REGIONS:]:
            self.begin(track, region, f'"line":{region.number}')
        del regions[-MOST_REGIONS:]

    def close(self, track, depth, it):
        """Closes what is open from this depth on, at a record. Open regions are kept, since their task may go on."""
        regions = []
        while len(track.open) > depth:
            closed = track.remove()
            self.write('E', track, f',"args":{{"end line":{it.number}}}' if closed.cat == 'task' else '')
            if closed.cat != 'task':
                regions.append(closed)
            elif regions:
                self.left_open.setdefault(closed.task, []).extend(reversed(regions))
                regions = []

    def go_on(self, track, task, it):
        """Closes what is open above a task; begins a slice of the task where it has none here."""
        if track.place_of(task) is None:
            self.begin_task(track, task, it)
            return
        depth = len(track.open)
        while track.open[depth - 1].task != task:
            depth -= 1
        self.close(track, depth, it)

    # what records do

    def take_root(self, track, it):
        self.begin_task(track, it.task, it)
        track.roots.append(track.places[it.task])

    def take_end_of_root(self, track, it):
        place = track.place_of(it.task)
        if place is None:
            return
        self.close(track, place, it)
        # what the root stood on goes on; in versions 1 and 2 that is the root below
        if self.facts.version < 3 and track.roots:
            self.go_on(track, track.open[track.roots[-1]].task, it)

    def take_schedule(self, track, it):
        self.flow_at_end(track, it)
        place = track.place_of(it.task)
        if place is not None and it.number not in self.facts.stays and not self.facts.is_root(it.task):
            self.close(track, place, it)
        self.go_on(track, it.other, it)
        if it.number in self.flows.at_begin:
            self.flow(track, self.flows.at_begin, it, self.time_inside(it))

    def take_begin(self, track, it):
        self.begin_region(track, it, it.other, category(it.other))

    def begin_region(self, track, it, name, cat):
        """Begins a region of the task that runs."""
        if track.open[-1].task == it.task:
            self.begin(track, Open(it.task, name, cat, it.number, it.code), f'"line":{it.number}')

    def take_end(self, track, it):
        if not self.end_region(track, it, it.task, it.other) and it.number in self.flows.at_end:
            self.take_both(track, it)

    def end_region(self, track, it, task, name):
        """Ends the innermost region of a task, if it has this name. Returns whether a slice ends."""
        top, regions = track.open[-1], self.left_open.get(task)
        if top.cat != 'task' and (top.task, top.name) == (task, name):
            self.flow_at_end(track, it)
            self.write('E', track, f',"args":{{"end line":{it.number}}}')
            track.open.pop()
            return True
        if regions and regions[-1].name == name:
            regions.pop()
        return False

    def take_both(self, track, it):
        self.point(track, it, it.other, category(it.other))

    def take_await(self, track, it):
        self.begin_region(track, it, f'taskwait {it.other}', 'wait')

    def take_await_end(self, track, it):
        name, made = f'taskwait {it.task}', self.facts.made.get(it.task)
        if not track.open or not made or not self.end_region(track, it, made.task, name):
            self.point(track, it, name, 'wait')

    def take_finish(self, track, it):
        """A task is discarded or fulfilled, whatever the thread runs."""
        self.point(track, it, f'{"discard" if it.what == "discard" else "fulfil"} task {it.task}', 'task')

    def take_cancellation(self, track, it):
        self.write('i', track, f',"s":"t","name":"cancel","cat":"cancel","args":{{"line":{it.number}}}')


def timeline(path, found, order):
    """Yields the text of a timeline of a readable file, in pieces. `found` explains the answer, and `order` yields
    thread and seq of each record in the order of a yes or a no."""
    with open(path, encoding='utf-8', newline='\n') as lines:
        facts = Facts(lines)
    times, which = times_of(facts, order)
    events = sorted(facts.events, key=lambda it: times[it.number - 2])
    yield '{"traceEvents":[\n'
    yield from Timeline(facts, times, Flows(facts, times, events, found), found).pieces(events)
    told = {'answer': found.answer, 'time': which, 'records': len(events)}
    yield f'\n],\n"displayTimeUnit":"ns","otherData":{json.dumps(told)}}}\n'
