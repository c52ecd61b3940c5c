"""Orders of records: what has to come before what, a cycle of that where there is no order, one order where there
is, and segments of an order."""
from array import array
from bisect import bisect_left, bisect_right
from collections import defaultdict, deque, namedtuple
from heapq import heapify, heappop, heappush
from itertools import groupby

from contents import CREATES, FINISHES, MOVES

# The limit of the search for a shortest cycle; past it the shortest one found so far is used.
MOST_LOOKED_AT = 10**6
# The number of records kept at the begin and at the end of a segment of an order.
MOST_KEPT = 10


def needs(record):
    """The tasks that must be created before the record: those that it starts, discards or fulfils."""
    return [it for it in (record.started, record.discarded, record.fulfilled) if it is not None]


def stopped(record):
    """The task that resumes in its next turn where the record begins a later turn than 0, and the turn that was
    before; or None. The record that suspended the task in that turn comes before this one, unless it is this one."""
    if not record.begun_turn or record.begun_turn[1] == 0:
        return None
    task, turn = record.begun_turn
    return (task, turn - 1) if record.suspended_turn != (task, turn - 1) else None


def reason(one, other):
    """Why the one record comes before the other."""
    if one.created is not None and one.created in needs(other):
        return f'since it creates task {one.created}'
    if one.suspended_turn is not None and one.suspended_turn == stopped(other):
        task, turn = one.suspended_turn
        return f'since it suspends task {task} in turn {turn}'
    return f'in thread {one.thread}'


# What a record is in the search for cycles and orders: small, since a file may have millions.
Event = namedtuple('Event', 'number thread seq created needs begun_turn suspended_turn')


def event_of(record, tells_turns):
    return Event(record.number, record.thread, record.seq, record.created, needs(record), record.begun_turn,
                 record.suspended_turn if tells_turns else None)


class Steps:
    """The creations of tasks, their suspensions by task and turn, the start of each task, and all records that create,
    start, discard or fulfil a task, in file order."""

    def __init__(self, trace):
        self.creations, self.suspensions, self.starts, self.events = {}, defaultdict(list), {}, []
        for record in trace.doing(CREATES | MOVES):
            it = event_of(record, trace.tells_turns)
            if it.created is not None:
                self.creations.setdefault(it.created, it)
            if it.begun_turn and it.begun_turn[1] == 0:
                self.starts.setdefault(it.begun_turn[0], it.number)
            if it.suspended_turn:
                self.suspensions[it.suspended_turn].append(it)
            if it.created is not None or it.needs:
                self.events.append(it)

    def awaited(self, record):
        """The creations and suspensions that the record must come after."""
        started = record.begun_turn[0] if record.begun_turn else None
        created = [self.creations[task] for task in record.needs if task in self.creations
                   and (task != started or self.starts.get(task) == record.number)]
        return created + self.suspensions.get(stopped(record), [])

    def stuck(self):
        """The records left of each thread, in its order, without all that can be put in an order: each first one
        awaits a record that is left too."""
        lanes = defaultdict(deque)
        for it in self.events:
            lanes[it.thread].append(it)
        placed, waiting, ready = set(), defaultdict(list), deque(lanes)
        while ready:
            lane = lanes[ready.popleft()]
            while lane:
                missing = next((it.number for it in self.awaited(lane[0]) if it.number not in placed), None)
                if missing is not None:
                    waiting[missing].append(lane[0].thread)
                    break
                it = lane.popleft()
                placed.add(it.number)
                ready.extend(waiting.pop(it.number, []))
        return {thread: lane for thread, lane in lanes.items() if lane}


def shortest_circle(trace):
    """The records of a shortest cycle, or of a short one where very many records are in cycles: each creation or
    suspension, the record that must come after it, and in the thread of that the next creation or suspension."""
    steps = Steps(trace)
    lanes = steps.stuck()
    left = {it.number for lane in lanes.values() for it in lane}
    pairs = [(made, it) for lane in lanes.values() for it in lane for made in steps.awaited(it) if made.number in left]
    best, budget = circle_of_heads(steps, lanes, left), MOST_LOOKED_AT
    by_thread = defaultdict(list)
    for at in sorted(range(len(pairs)), key=lambda at: pairs[at][0].seq):
        by_thread[pairs[at][0].thread].append(at)
    for start in range(len(pairs)):
        budget -= len(pairs)
        if budget < 0:
            break
        circle = circle_from(pairs, by_thread, start)
        if circle and len(circle) < len(best):
            best = circle
    lines = [it.number for pair in best for it in pair]
    # where a record awaits one and is awaited, it ends a pair and begins the next one
    lines = [it for at, it in enumerate(lines) if it != lines[at - 1]]
    return [*trace.at(lines)]


def circle_of_heads(steps, lanes, left):
    """A cycle by the first stuck record of each thread: it awaits another record, which comes after the first stuck
    record of its own thread, or is that."""
    seen, head = {}, next(iter(lanes.values()))[0]
    found = []
    while head.thread not in seen:
        seen[head.thread] = len(found)
        made = next(it for it in steps.awaited(head) if it.number in left)
        found.insert(0, (made, head))
        head = lanes[made.thread][0]
    return found[:len(found) - seen[head.thread]]


def circle_from(pairs, by_thread, start):
    """The pairs of a shortest cycle through this one, or None. A pair leads to those whose first record comes after
    its second one in the thread, or is that: the last ones of the thread's list, which are taken from it, so each
    is met once."""
    left = {thread: [*found] for thread, found in by_thread.items()}
    came, queue, made = {start: None}, deque([start]), pairs[start][0]
    while queue:
        at = queue.popleft()
        after = pairs[at][1]
        if made.thread == after.thread and made.seq >= after.seq:
            circle = []
            while at is not None:
                circle.append(pairs[at])
                at = came[at]
            return circle[::-1]
        found = left.get(after.thread, [])
        while found and pairs[found[-1]][0].seq >= after.seq:
            other = found.pop()
            if other not in came:
                came[other] = at
                queue.append(other)
    return None


class ByLengths:
    """How records are sorted by the ledger lengths that they name: a record that names one comes after the entries below
    it. Those of one length are put in an order that they allow, if there is one, where they stand so near to those of a
    wanted line, or to the first or the last one."""

    def __init__(self, trace, wanted, near):
        self.trace, self.wanted, self.near = trace, wanted, near
        trace.progress.say('sorting the records ..')
        both = zip(trace.contents.lengths, trace.contents.roles)
        self.key = array('Q', (2 * length + bool(role & FINISHES) for length, role in both)).__getitem__

    def sorted(self, lines):
        """Returns the lines, which are in file order, in that order."""
        found = array('L', sorted(lines, key=self.key))
        places = [at for at, it in enumerate(found) if it in self.wanted or at in (0, len(found) - 1)]
        for begin, end in {span for at in places for span in self.spans_near(found, at)}:
            events = [event_of(it, self.trace.tells_turns) for it in self.trace.at(found[begin:end])]
            found[begin:end] = array('L', (it.number for it in merged(events)))
        return found

    def spans_near(self, lines, at):
        """Yields begin and end of each span of one length that is so near to the span of this place."""
        begin = max(0, bisect_left(lines, self.key(lines[at]), key=self.key) - self.near)
        end = min(len(lines), bisect_right(lines, self.key(lines[at]), key=self.key) + self.near)
        while begin < end:
            begin = bisect_left(lines, self.key(lines[begin]), key=self.key)
            behind = bisect_right(lines, self.key(lines[begin]), key=self.key)
            yield begin, behind
            begin = behind


def in_order(events):
    """Events in an order that they allow, if there is one: by the ledger lengths that they name, and where these are equal
    as `merged` has them. Each has its length, and whether it finishes a task."""
    def length(it):
        return it.seen, it.finish is not None
    groups = groupby(sorted(events, key=lambda it: (*length(it), it.number)), length)
    return [it for _, group in groups for it in merged([*group])]


def merged(events):
    """Events of one length: each after the creations and suspensions that it needs, and in the order of its thread. Those
    in a cycle come at the end."""
    lanes, waiting, found = defaultdict(deque), defaultdict(list), []
    for it in events:
        lanes[it.thread].append(it)
    made = {given for it in events for given in (it.created, it.suspended_turn) if given is not None}
    ready = [(lane[0].number, thread) for thread, lane in lanes.items()]
    heapify(ready)
    while ready:
        lane = lanes[heappop(ready)[1]]
        missing = next((needed for needed in (*lane[0].needs, stopped(lane[0])) if needed in made), None)
        if missing is not None:
            waiting[missing].append(lane[0].thread)
            continue
        it = lane.popleft()
        found.append(it)
        made -= {it.created, it.suspended_turn}
        others = waiting.pop(it.created, []) + waiting.pop(it.suspended_turn, [])
        for thread in [it.thread] * bool(lane) + others:
            heappush(ready, (lanes[thread][0].number, thread))
    return found + sorted((it for lane in lanes.values() for it in lane), key=lambda it: it.number)


class Segment:
    """A segment of an order: its first records, the last ones of the others, and how many records it has."""

    def __init__(self):
        self.first, self.last, self.count = [], deque(maxlen=MOST_KEPT), 0

    def add(self, it):
        self.count += 1
        (self.first if len(self.first) < MOST_KEPT else self.last).append(it)

    def left_out(self):
        return self.count - len(self.first) - len(self.last)


def segment_up_to(order, named, own):
    """The segment of the order from the last of a task's own records before the named one to that one; where none
    of them comes before it, from the named one to the first of them. None where the named one is not in the order."""
    found, order = Segment(), iter(order)
    for it in order:
        if it in own and it != named:
            found = Segment()
        if it in own or it == named or found.count:
            found.add(it)
        if it == named:
            break
    else:
        return None
    while found.first[0] == named and (it := next(order, None)):
        found.add(it)
        if it in own:
            break
    return found
