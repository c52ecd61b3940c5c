"""What a file in the Trace Event format shows, and its faults, by the description of the format ("Trace Event Format").

It shares no code with tools/timeline.py. Numbers of a file are read as they are written, so that none is rounded. The
events of a thread are taken by time, and where times are equal as they stand, as viewers take them."""
import json
from collections import defaultdict
from decimal import Decimal
from types import SimpleNamespace

NUMBERS = (int, Decimal)
# The members of an event, by its phase: those that it must have, and those that it may have too.
MEMBERS = {
    'B': ({'name', 'ts'}, {'cat', 'args', 'cname', 'id', 'tts'}), 'E': ({'ts'}, {'name', 'cat', 'args', 'tts'}),
    'X': ({'name', 'ts', 'dur'}, {'cat', 'args', 'cname', 'tts', 'tdur'}),
    'i': ({'name', 'ts'}, {'cat', 'args', 'cname', 's'}), 'M': ({'name', 'args'}, {'cat', 'ts'}),
    's': ({'name', 'cat', 'ts', 'id'}, {'args', 'cname'}), 't': ({'name', 'cat', 'ts', 'id'}, {'args', 'cname'}),
    'f': ({'name', 'cat', 'ts', 'id'}, {'args', 'cname', 'bp'})}
OF_ALL = {'ph', 'pid', 'tid'}
FLOWS = ('s', 't', 'f')
# What a member may be.
COLOURS = {'good', 'bad', 'terrible', 'black', 'grey', 'white', 'yellow', 'olive', 'generic_work', 'startup',
           'thread_state_running', 'thread_state_runnable', 'thread_state_sleeping', 'thread_state_iowait',
           'thread_state_uninterruptible', 'thread_state_unknown', 'rail_response', 'rail_animation', 'rail_idle',
           'rail_load', 'vsync_highlight_color'}
IS_RIGHT = {
    'name': lambda it: isinstance(it, str) and it, 'cat': lambda it: isinstance(it, str) and it,
    'ts': lambda it: is_time(it), 'dur': lambda it: is_time(it), 'pid': lambda it: type(it) is int,
    'tid': lambda it: type(it) is int, 'id': lambda it: type(it) in (int, str), 'args': lambda it: isinstance(it, dict),
    'cname': lambda it: it in COLOURS, 's': lambda it: it in ('g', 'p', 't'), 'bp': lambda it: it == 'e',
    'ph': lambda it: it in MEMBERS}
METADATA = {'process_name': ('name', str), 'process_labels': ('labels', str), 'thread_name': ('name', str),
            'process_sort_index': ('sort_index', int), 'thread_sort_index': ('sort_index', int)}
OF_FILE = {'traceEvents': list, 'displayTimeUnit': str, 'otherData': dict}


def is_time(value):
    """Whether the value is microseconds, with no part of a nanosecond."""
    return type(value) in NUMBERS and value >= 0 and value * 1000 == int(value * 1000)


def read(text):
    return json.loads(text, parse_float=Decimal)


def faults_of_event(it):
    """Returns what is wrong with an event by itself."""
    must, may = MEMBERS.get(it.get('ph'), (set(), set(it)))
    faults = [f'no {name}' for name in (must | OF_ALL) - set(it)]
    faults += [f'{name} is not of this phase' for name in set(it) - must - may - OF_ALL]
    faults += [f'{name} is {it[name]!r}' for name in set(it) & set(IS_RIGHT) if not IS_RIGHT[name](it[name])]
    if it.get('ph') == 'M' and not faults:
        name, kind = METADATA.get(it['name'], (None, None))
        faults += ['no such metadata'] * (name is None or type(it['args'].get(name)) is not kind)
    return faults


class Thread:
    """The events of a thread in the order of time: its slices, and which of them flows are bound to."""

    def __init__(self, tid):
        self.tid, self.open, self.slices, self.faults, self.waiting = tid, [], [], [], []
        # by time the innermost slice of the category `task`, or None
        self.states = []

    def take(self, it):
        while self.open and self.open[-1].end is not None and self.open[-1].end <= it['ts']:
            self.close(self.open[-1].end)
        takes = {'B': self.begin, 'X': self.begin, 'E': self.end, **dict.fromkeys(FLOWS, self.bind)}
        if it['ph'] in takes:
            takes[it['ph']](it)
        self.states.append((it['ts'], next((it.name for it in reversed(self.open) if it.cat == 'task'), None)))

    def begin(self, it):
        made = SimpleNamespace(name=it['name'], cat=it.get('cat'), cname=it.get('cname'), args=dict(it.get('args', {})),
                               tid=self.tid, depth=len(self.open), begin=it['ts'], until=None,
                               end=it['ts'] + it['dur'] if it['ph'] == 'X' else None)
        self.open.append(made)
        self.slices.append(made)
        for flow in self.waiting:
            flow.bound = made
        self.waiting = []

    def end(self, it):
        if not self.open or self.open[-1].end is not None:
            self.faults.append(f'nothing is open that could end at {it["ts"]}')
            return
        top = self.open[-1]
        if it.get('name', top.name) != top.name:
            self.faults.append(f'{it["name"]} ends at {it["ts"]}, and {top.name} is open')
        if set(top.args) & set(it.get('args', {})):
            self.faults.append(f'begin and end of {top.name} have the same members of args')
        top.args |= it.get('args', {})
        self.close(it['ts'])

    def close(self, time):
        closed = self.open.pop()
        closed.until = time
        if self.open and self.open[-1].end is not None and self.open[-1].end < time:
            self.faults.append(f'{closed.name} ends at {time}, behind {self.open[-1].name} around it')

    def bind(self, it):
        flow = it['flow']
        if it['ph'] == 'f' and 'bp' not in it:
            self.waiting.append(flow)
        elif self.open:
            flow.bound = self.open[-1]

    def finished(self):
        """Returns what is wrong with the thread, behind its last event."""
        while self.open and self.open[-1].end is not None:
            self.close(self.open[-1].end)
        return self.faults + [f'{it.name} does not end' for it in self.open]


class Shown:
    """What a file shows: its threads with their slices, its flows, its instants, its names; and its faults."""

    def __init__(self, told):
        self.told, self.faults = told, [f'{name} is no {kind.__name__}' for name, kind in OF_FILE.items()
                                        if not isinstance(told.get(name, kind()), kind)]
        if told.get('displayTimeUnit', 'ms') not in ('ms', 'ns'):
            self.faults.append('displayTimeUnit is neither ms nor ns')
        events = told['traceEvents']
        self.faults += [f'event {at}: {fault}' for at, it in enumerate(events) for fault in faults_of_event(it)]
        self.threads, self.flows, self.instants, self.names = {}, defaultdict(list), [], {}
        if not self.faults:
            self.check_order(events)
            self.take_all(events)

    def check_order(self, events):
        """Begins and ends of each thread must stand in the order of time."""
        last = {}
        for it in events:
            if it['ph'] in 'BE':
                if it['ts'] < last.get((it['pid'], it['tid']), 0):
                    self.faults.append(f'thread {it["tid"]} goes back to {it["ts"]}')
                last[it['pid'], it['tid']] = it['ts']

    def take_all(self, events):
        for it in sorted((it for it in events if it['ph'] != 'M'), key=lambda it: it['ts']):
            thread = self.threads.setdefault((it['pid'], it['tid']), Thread(it['tid']))
            if it['ph'] in FLOWS:
                it['flow'] = SimpleNamespace(ph=it['ph'], ts=it['ts'], tid=it['tid'], bound=None)
                self.flows[it['cat'], it['name'], it['id']].append(it['flow'])
            elif it['ph'] == 'i':
                self.instants.append(it)
            thread.take(it)
        self.names = {(it['name'], it['pid'], it['tid']): it['args'] for it in events if it['ph'] == 'M'}
        self.faults += [f'thread {thread.tid}: {it}' for thread in self.threads.values() for it in thread.finished()]
        self.faults += [f'flow {key}: {it}' for key, flow in self.flows.items() for it in faults_of_flow(flow)]


def faults_of_flow(flow):
    """Yields what is wrong with the events of a flow, which are in the order of time."""
    phases = ''.join(it.ph for it in flow)
    if phases[:1] != 's' or phases[-1:] != 'f' or set(phases[1:-1]) - {'t'}:
        yield f'its phases are {phases}'
    if not all(it.bound for it in flow):
        yield 'it is bound to no slice'
