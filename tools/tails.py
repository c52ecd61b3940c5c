"""What `taskaudit watch` said of a run, explained by the tail of that: the last lines that were handed on to it. The header
of the tail has the member `tail`, an object of `line`, the line of the run that the first record of the tail was, and
`answer`, what was said. All lines are told by their numbers in the run."""
import json
import re
from array import array
from functools import cached_property
from itertools import islice

from answers import Answer
from contents import FINISHES, LISTS, RUNS, Contents
from explanations import ANSWER, MOST_SHOWN, UNREADABLE, Explanation, few, open_region
from fields import faults_of
from progress import SILENT
from recording import value_of
from traces import Trace

# The first line that a record can have.
FIRST = 2
# The exit status that goes with what was said, by its first words; and where that is another text.
STATUSES = {'no:': 1, 'malformed:': 2, 'unreadable:': 3, 'out of memory': 5, 'undecided:': 6}
UNANSWERED = 3
UNDECIDED = re.compile(r'undecided: line \d+: (\d \w+)')
LINE = re.compile(r'\w+: line (\d+)')
# What must hold by each test, as docs/LONG_RUNS.md has it.
TESTS = {
    '1 Calls': 'recorders that are given the calls of the records so far make these records: `seq`, turns and claims are'
               ' right, and the thread runs the task',
    '2 Regions': 'a parallel region begins once',
    '3 Teams': 'a member has a number of its own below the size of its team, and all name the same size',
    '4 Lengths': 'a record sees no more entries than stand before it, a finishing one all of them; and no fewer than its'
                 ' thread and its task know',
    '5 Waits': 'where a taskwait, a taskgroup or a barrier ends, all that it covers is complete',
    '6 Predecessors': 'where a task starts, or a taskwait with dependences is complete, its predecessors are complete',
    '7 End': 'the records may end: each region that is named was begun, each team has all its members, each of them began'
             ' each barrier that ended, and no list of dependences is missing',
}
CLAIMS_NOTHING = 'docs/LONG_RUNS.md, "What undecided means", says what most often breaks this test; nothing is claimed.'
LIMIT, UNENDED = 7, 8
TOO_MANY = 'The run has more records than `watch` takes, which are 2^32 - 3.'
CUT = 'The records end in the middle of this line: the process was killed, or the pipe was closed.'


class NoTail(Exception):
    """A file is no tail of a run, or cannot be read as one: why."""


def is_tail(header):
    """Whether the header is that of a tail."""
    told = header.get('tail')
    return isinstance(told, dict) and type(told.get('line')) is int and isinstance(told.get('answer'), str)


class LaterContents(Contents):
    """The contents of a file whose records begin at a later line, up to so many of them."""

    def __init__(self, trace, most):
        self.first, self.most = trace.first, most
        super().__init__(trace.path, trace.tells_turns, trace.progress)
        self.roles, self.lengths = (dict(enumerate(it[FIRST:], self.first)) for it in (self.roles, self.lengths))

    def values(self, path, progress):
        with open(path, 'rb') as file:
            self.begins = array('Q', [0, len(file.readline())])
            for line in islice(file, self.most):
                self.begins.append(self.begins[-1] + len(line))
                yield json.loads(line)

    def doing(self, roles):
        return (number for number, it in self.roles.items() if it & roles)


class Tail(Trace):
    """A tail: `first` is the line of the run that its first record was, and `answer` what was said."""

    first = FIRST

    def __init__(self, path, progress=SILENT):
        super().__init__(path, progress)
        header = self.header()
        self.first, self.answer, self.fault = header['tail']['line'], header['tail']['answer'], ''
        place = LINE.match(self.answer)
        self.named = place and int(place[1])
        if not self.data[:].endswith(b'\n'):
            raise NoTail('it was cut: its last line has no end')
        self.last = self.first + self.data[:].count(b'\n') - FIRST

    def header(self):
        """The header, which must be that of a tail."""
        if not self.data:
            raise NoTail('it is empty, and so no tail of a run')
        header = value_of(super().line(1))
        if not is_tail(header):
            raise NoTail('it is no tail of a run: line 1 has no member `tail` with `line` and `answer`')
        if header.get('version') not in (1, 2, 3) or header['tail']['line'] < FIRST:
            raise NoTail('it is no tail of a run: line 1 is not the header of one')
        return header

    @cached_property
    def contents(self):
        return LaterContents(self, self.last - self.first + 1)

    def cut_at_fault(self):
        """Leaves out the first line that is no record, and all behind it. It must be behind the one that is named."""
        number, fault = self.first_fault()
        if self.named is None or number <= self.named:
            raise NoTail(f'line {number} of the run is no record: {fault}')
        self.fault, self.last = f'Line {number} is no record: {fault}.', number - 1
        vars(self).pop('contents', None)

    def first_fault(self):
        """The first line that is no record, and why."""
        for number, line in self.lines():
            try:
                faults = faults_of(line.decode(), self.version) if number > 1 else []
            except ValueError:
                faults = ['it is not JSON']
            if faults:
                return number, faults[0]
        return self.first, 'its members contradict each other'

    def lines(self):
        later = self.first - FIRST
        return ((number if number == 1 else number + later, line) for number, line in super().lines())

    def text(self, number):
        return super().text(number - self.first + FIRST)

    def has(self, number):
        return self.first <= number <= self.last


def explain_up_to_fault(trace):
    """Explains what was said, by the lines before the first that is no record."""
    try:
        return explain(trace)
    except (ValueError, KeyError, TypeError):
        trace.cut_at_fault()
        return explain(trace)


def explain(trace):
    """Explains what was said."""
    found = Explanation(trace.answer)
    found.line = trace.named
    told, undecided = ANSWER.fullmatch(trace.answer), UNDECIDED.fullmatch(trace.answer)
    if told and told['no']:
        found.task = int(told['task'])
        explain_no(found, trace, told['dependent'])
    elif undecided and undecided[1] in TESTS:
        explain_undecided(found, trace, undecided[1])
    elif told and told['unreadable']:
        explain_unreadable(found, trace, int(told['fault']))
    else:
        found.say('Nothing is said of the records.')
    say_what_is_kept(found, trace)
    return found


def named_record(found, trace):
    """The record on the named line, which is shown with those of its thread before it; None where it is not kept."""
    if not trace.has(found.line):
        found.say(f'Line {found.line} is not kept.')
        return None
    record = trace.record(found.line)
    found.show(record, 'the named record')
    return record


def show_thread(found, trace, record):
    """The last records of its thread before it."""
    lines = trace.contents.lines_of_thread(record.thread, last=record.number - 1)[-MOST_SHOWN:]
    for it in trace.at(lines):
        found.show(it, f'before line {record.number} in thread {record.thread}')
    if not lines:
        found.say(f'No record of thread {record.thread} before it is kept.')


# A no

def explain_no(found, trace, dependent):
    """Which region ends, or which task starts, and what is known of the unfinished task."""
    record = named_record(found, trace)
    if not record:
        return
    if record.region:
        explain_wait(found, trace, record)
    elif dependent:
        what = f'Task {dependent} starts' if record.wait_completed is None else f'Taskwait {dependent} is complete'
        found.say(f'{what} on line {record.number}, and must do so only after task {found.task} is complete.')
        for it in (found.task, int(dependent)):
            for listed in trace.of_task(it, LISTS):
                found.show(listed, f'what task {it} depends on')
    show_creation(found, trace)
    show_moves(found, trace, record)
    show_thread(found, trace, record)


def explain_wait(found, trace, record):
    """Which region ends there, and why it covers the task, as far as the creations tell."""
    task, kind, _ = record.region
    above = [one for one in trace.ancestors(found.task) if one in trace.creations]
    chain = few([f'task {it} is a child of task {trace.creations[it][0]}' for it in above], ', ')
    found.say(f'Line {record.number} ends a {kind} of task {task}, which waits for task {found.task}'
              + (f': {chain}.' if chain else '.'))
    begin = open_region(trace, record) if record.region.endpoint == 'end' else None
    if begin:
        found.show(begin, f'the begin of the {kind} that ends on line {record.number}')
    elif record.region.endpoint == 'end':
        found.say(f'The begin of this {kind} stands before line {trace.first}, and is not kept.')


def show_creation(found, trace):
    made = trace.maker(found.task)
    if made:
        found.show(made, f'the creation of task {found.task}')
    else:
        found.say(f'The creation of task {found.task} stands before line {trace.first}, and is not kept.')


def show_moves(found, trace, record):
    """The last starts and suspensions of the unfinished task before the record, and what finishes it behind."""
    task, before, behind = found.task, [], []
    for it in trace.of_task(task, RUNS | FINISHES):
        part = part_of(it, task)
        if part:
            (before if it.number <= record.number else behind).append((it, part))
    for it, part in before[-MOST_SHOWN:]:
        found.show(it, part)
    say_what_is_missing(found, trace, record, [it for it, _ in before])
    for it, part in [it for it in behind if finishes(it[0], task)][:MOST_SHOWN]:
        found.show(it, part)
        found.say(f'Line {it.number} finishes task {task}, which is too late.')


def finishes(record, task):
    return bool(record.finish) and record.finish[0] == task


def say_what_is_missing(found, trace, record, before):
    """Which part of the unfinished task is finished before the record, and whether it was started."""
    task, ends = found.task, [it for it in before if finishes(it, found.task)]
    runs = [it for it in before if it.started == task]
    if len(ends) > 1 or ends and ends[0].finish[1] == 'Whole':
        found.say(f'Line {ends[-1].number} finishes task {task} by entry {ends[-1].seen}, and the record on line'
                  f' {record.number} has seen the length {record.seen}.')
    elif ends:
        found.say(f'A part of task {task} is finished on line {ends[0].number}, and up to line {record.number} the rest is'
                  ' not.')
    else:
        none = 'none starts it' if trace.first == FIRST else 'none that is kept starts it'
        told = f'it runs from line {runs[0].number} on' if runs else none
        found.say(f'No record up to line {record.number} finishes task {task}, and {told}.')


def part_of(record, task):
    """What the record does with the task, in words; none where it neither starts, stops nor finishes it."""
    if record.started == task:
        return f'task {task} runs from here on'
    if record.finish and record.finish[0] == task:
        return f'finishes task {task} ({record.finish[1].lower()}): entry {record.seen}'
    return f'suspends task {task}' if record.schedule and record.schedule[1] == task else ''


# Where nothing is claimed

def explain_undecided(found, trace, test):
    """The record that fails a test, and the test."""
    if test != '7 End':
        record = named_record(found, trace)
        if record:
            show_thread(found, trace, record)
        found.say(f'The record on line {found.line} is the first that fails the test `{test}`: {TESTS[test]}.')
    else:
        found.say(f'The records end before line {found.line}, and fail the test `{test}`: {TESTS[test]}.')
    found.say(CLAIMS_NOTHING)


def explain_unreadable(found, trace, fault):
    """What is wrong with the line, as far as it is kept."""
    if fault == UNENDED:
        found.say(CUT)
    elif found.line > 1 and not trace.has(found.line):
        found.say(TOO_MANY if fault == LIMIT else f'Line {found.line} is not kept.')
    else:
        UNREADABLE[fault](found, trace)
        if not found.sentences:
            found.say(TOO_MANY)


def say_what_is_kept(found, trace):
    kept = f'the lines {trace.first} to {trace.last}' if trace.last >= trace.first else 'no line'
    before = '' if trace.first == FIRST else f' What stands before line {trace.first} is not kept.'
    if trace.fault:
        found.say(trace.fault)
    found.say(f'The tail has {kept} of the run.{before} No order of the events is shown: that needs the whole file.')


class TailAnswer(Answer):
    """What was said of a run, and the explanation by its tail."""

    def __init__(self, path, progress=SILENT):
        self.trace = Tail(path, progress)
        self.text, self.findings, self.left_out, self.partial = self.trace.answer, [], 0, []
        self.status = next((it for words, it in STATUSES.items() if self.text.startswith(words)), UNANSWERED)
        self.found = explain_up_to_fault(self.trace)

    def as_object(self, places):
        return super().as_object(places) | {'tail': {'line': self.trace.first, 'last': self.trace.last}}
