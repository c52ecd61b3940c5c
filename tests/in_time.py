"""Whether a file of the recorder of ompt/ is in the order of time, line by line:

- a record that finishes a task has seen as many entries as are before it, and no other record has seen more;
- a task is named only behind its creation, or the begin of its root;
- a task that is no root, and so may go on on another thread, does so only behind the end of its turn before;
- an event is fulfilled, and a taskwait with dependences is complete, only while its task is not complete;
- a member of a team begins only behind the begin of its region, if the file has that.

In a file of version 1 the turns are those that its lines imply. Of a run that ended while its threads were at work a
record may be lost, on which others go on: its file is not looked at, but where it was written while the program ran
and the program was killed."""
import json
from collections import defaultdict

NAMES = 'task', 'prior', 'next', 'child', 'root'
PARTS = {'complete': {'body', 'event'}, 'cancel': {'body', 'event'}, 'taskwait_complete': {'body', 'event'},
         'detach': {'body'}, 'late_fulfill': {'event'}}
ENDS_LATER = 'early_fulfill', 'late_fulfill', 'taskwait_complete'
AT_WORK = {'signal', 'open_region'}


class Lines:
    """What is kept of the lines so far; `regions` are those that begin somewhere in the file."""

    def __init__(self, regions):
        self.entries, self.made, self.roots, self.to_begin = 0, set(), set(), set(regions)
        # of each task the turn that it began last, how many turns have ended, and which parts of it
        self.turns, self.ended, self.parts = defaultdict(lambda: -1), defaultdict(int), defaultdict(set)

    def fault(self, line):
        """What is wrong with the place of a line, or None."""
        seen, made = line['seen'], made_by(line)
        if seen > self.entries or finishes(line) and seen < self.entries:
            return f'{self.entries} entries are before it'
        missing = {line[it] for it in NAMES if line.get(it) is not None} - self.made - {made}
        if missing:
            return f'task {min(missing)} is not made before it'
        if begins_root(line) and 'initial' not in line['flags'] and line['parallel'] in self.to_begin:
            return f'region {line["parallel"]} does not begin before it'
        if line.get('status') in ENDS_LATER and self.parts[line['prior']] == {'body', 'event'}:
            return f'task {line["prior"]} is complete before it'
        may_move = goes_on(line) and line['next'] not in {line['prior']} | self.roots
        if may_move and self.ended[line['next']] < self.next_turn(line):
            return f'turn {self.next_turn(line) - 1} of task {line["next"]} does not end before it'
        return None

    def next_turn(self, line):
        return line.get('next_turn', self.turns[line['next']] + 1)

    def take(self, line):
        made = made_by(line)
        if made is not None:
            self.made.add(made)
        if begins_root(line):
            self.roots.add(made)
        if line['cb'] == 'parallel_begin':
            self.to_begin.discard(line['parallel'])
        if goes_on(line):
            self.ended[line['prior']] = line.get('prior_turn', self.ended[line['prior']]) + 1
            self.turns[line['next']] = self.next_turn(line)
        if finishes(line):
            self.entries += 1
            self.parts[line.get('prior', line.get('task'))] |= PARTS[line.get('status', 'cancel')]


def begins_root(line):
    return line['cb'] == 'implicit_task' and line['endpoint'] == 'begin'


def made_by(line):
    """The task that is made there, or None."""
    return line['task'] if begins_root(line) else line.get('child')


def goes_on(line):
    """Whether a task runs next."""
    return line.get('next') is not None


def finishes(line):
    return 'kept' in line


def partial(path, told):
    """Why the file has a part of the run only. A file that was written while the program ran has this beside it, if the
    program was not killed: then no record was written before one on which it goes on."""
    if told.get('live'):
        try:
            with open(path + '.end', encoding='utf-8') as file:
                told = json.load(file)
        except FileNotFoundError:
            return set()
    return {*told['recording']['partial']}


def fault_of_order(path):
    """The first line that is not in the order of time, and why, in words; or None."""
    with open(path, encoding='utf-8') as file:
        header, *records = map(json.loads, file)
    if AT_WORK & partial(path, header['recorder']):
        return None
    lines = Lines(it['parallel'] for it in records if it['cb'] == 'parallel_begin')
    for number, line in enumerate(records, 2):
        fault = lines.fault(line)
        if fault:
            return f'line {number} is not in the order of time: {fault}: {line}'
        lines.take(line)
    return None
