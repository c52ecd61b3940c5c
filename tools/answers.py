"""The answer of `taskaudit check` to a file, explained. The answer is the program's, and the order is that of `taskaudit
order`; the rest looks at the file once more."""
import re
import shutil
import subprocess
import sys
from collections import defaultdict, namedtuple
from contextlib import closing

from contents import BLOCK
from explanations import explain, lines_of, lines_of_order
from progress import SILENT
from recording import Recording
from traces import Trace

# The exit status of each answer, by its first word.
STATUSES = {'yes': 0, 'no': 1, 'malformed': 2}
ABOUT_A_PART = 'The file has a part of the run only, and the answer is about that part.'
YES_OF_A_PART = ('In what was recorded, every wait ended, and every dependent task started, only when it was allowed to,'
                 ' in every order that the records allow.')
# What `check --most` prints below a no or a malformed: the records at which it shows, and how many more there are.
FINDING = re.compile(r'^line (\d+), thread (\d+), seq (\d+)'
                     r'(?:: task (\d+) (?:unfinished|must precede task (\d+))(?:, and (\d+) more)?)?$', re.M)
LEFT_OUT = re.compile(r'^left out: (\d+)$', re.M)
OTHERS = {'no': 'Other records at which a task is unfinished:', 'malformed': 'Other records that show the same cause:'}
# How many other records are told where no number is given.
USUAL_MOST = 20
FOR_WANT_OF_THE_REST = 'The file has a part of the run only: a record that is missing may be the reason of this answer.'


class Places:
    """Where code is in the sources of a program, as far as that is known."""

    def __init__(self, program):
        self.program, self.known = program, {}
        self.tool = shutil.which('llvm-symbolizer') or shutil.which('addr2line')

    def of(self, code):
        """The function, file and line of a `codeptr`, which is a return address: the call is just before it."""
        if isinstance(code, str) and code not in self.known:
            self.look_up([code])
        return self.known.get(code) if isinstance(code, str) else None

    def look_up(self, codes):
        """Finds the places of these, by one process for each object that has some."""
        by_object = defaultdict(dict)
        for code in {it for it in codes if isinstance(it, str)} - self.known.keys():
            told = re.fullmatch(r'(?:(.*)\+)?(0x[0-9a-f]+)', code)
            self.known[code] = None
            if told and self.tool and (told[1] or self.program):
                by_object[told[1] or self.program][code] = int(told[2], 16) - 1
        for name, some in by_object.items():
            self.known |= zip(some, self.found(name, some.values()))

    def found(self, name, places):
        """Returns the function, file and line at each of these places of an object, or None."""
        option = ['--output-style=GNU', '--obj'] if self.tool.endswith('llvm-symbolizer') else ['--exe']
        words = [self.tool, *option[:-1], f'{option[-1]}={name}', '--functions', '--demangle', '--addresses']
        ran = subprocess.run(words, input=''.join(f'{at:#x}\n' for at in places), stdout=subprocess.PIPE,
                             stderr=subprocess.DEVNULL, text=True)
        # behind each address the innermost function comes first
        told = [it.split('\n') for it in re.split(r'^0x[0-9a-f]+\n', ran.stdout, flags=re.M)[1:]]
        if len(told) != len(places):
            return [None] * len(places)
        return [f'{it[1]} in {it[0]}' if len(it) > 1 and it[1] and not it[1].startswith('??') else None for it in told]


class Finding(namedtuple('Finding', 'text line thread seq task must_precede more')):
    """A record at which an answer shows, as it is printed. Of a no its task is unfinished there, or must precede another
    one that starts there, and so many more are unfinished."""

    def as_object(self):
        names = ('line', 'thread', 'seq', 'task', 'must_precede', 'more')
        return {name: getattr(self, name) for name in (names[:3] if self.task is None else names)}


def finding_of(told):
    """The finding of a line that FINDING matches."""
    line, thread, seq, task, must_precede, more = (None if it is None else int(it) for it in told.groups())
    return Finding(told[0], line, thread, seq, task, must_precede, None if task is None else more or 0)


class Answer:
    """What the check says of a file, its exit status, why the file has a part of a run only, and the explanation; and
    beside the named record at most so many other ones at which the answer shows, and how many more there are."""

    def __init__(self, path, checker, log=sys.stderr, progress=SILENT, most=USUAL_MOST):
        told, self.status = check(checker, path, most + 1, log, progress)
        self.text, _, told = told.partition('\n')
        left_out = LEFT_OUT.search(told)
        self.findings, self.left_out = [*map(finding_of, FINDING.finditer(told))], int(left_out[1]) if left_out else 0
        self.recording = Recording(path)
        counted = re.match(r'yes: (\d+) records', self.text)
        self.partial = self.recording.partial(int(counted[1]) if counted else None)
        self.trace = Trace(path, progress)
        with closing(order(checker, path, progress)) as pairs:
            self.found = explain(self.trace, self.text, (self.trace.line_of(*it) for it in pairs))
        if self.findings and self.findings[0].more:
            more = self.findings[0].more
            self.found.say(f'{more} more task{"s are" if more > 1 else " is"} unfinished at line {self.found.line}.')
        if self.partial:
            self.say_of_a_part()

    @property
    def kind(self):
        """The first word of an answer to the records; None where there is none."""
        word = self.text.partition(':')[0]
        return word if STATUSES.get(word) == self.status else None

    def others(self):
        """The other records at which the answer shows."""
        return [it for it in self.findings if it.line != self.found.line]

    def lines_of_others(self):
        """The other records as lines; none where there are none."""
        lines = [it.text for it in self.others()]
        if lines and self.left_out:
            lines.append(f'({self.left_out} more left out here)')
        return [OTHERS[self.kind], *lines] if lines else []

    def say_of_a_part(self):
        """That the answer is about a part comes first."""
        found, told = self.found, [f'{it[0].upper()}{it[1:]}.' for it in self.partial]
        if self.kind == 'yes':
            found.answer = found.answer.replace('yes:', 'yes, of what was recorded:', 1)
            found.sentences = [ABOUT_A_PART, *told, YES_OF_A_PART]
        else:
            found.sentences = [FOR_WANT_OF_THE_REST, *told, *found.sentences]

    def as_object(self, places):
        """The explanation as one JSON object."""
        def records(shown):
            return [{'line': it.number, 'part': part, 'record': it.value, 'place': places.of(it.value.get('codeptr'))}
                    for part, it in shown]
        found = self.found
        places.look_up(it.value.get('codeptr') for it in found.records())
        told = {'answer': found.answer, 'status': self.status, 'partial': self.partial, 'line': found.line,
                'task': found.task, 'records': records(found.shown), 'sentences': found.sentences, 'order': None,
                'others': [it.as_object() for it in self.others()], 'left_out': self.left_out}
        if found.order:
            sentence, first, left_out, last = found.order
            told['order'] = {'sentence': sentence, 'first': records(first), 'left_out': left_out, 'last': records(last)}
        return told

    def as_text(self, places):
        """The explanation as lines."""
        found = self.found
        places.look_up(it.value.get('codeptr') for it in found.records())
        lines = [found.answer, '', *lines_of(found.shown, places.of), *[''] * bool(found.shown), *found.sentences]
        if found.order:
            lines += ['', found.order.sentence, '', *lines_of_order(found.order, places.of)]
        others = self.lines_of_others()
        if others:
            lines += ['', others[0], '', *others[1:]]
        return '\n'.join(lines)


def check(checker, file, most, log, progress):
    """The answer of the check, with at most so many records at which it shows, and its exit status. Its other output, as
    that it is built, goes to the log."""
    words = [*checker, 'check', '--most', str(most)]
    progress.say('checking ..')
    with open(file, 'rb') as trace:
        ran = subprocess.Popen(words, stdin=trace, stdout=subprocess.PIPE, stderr=subprocess.PIPE, text=True)
    last = ''
    for line in ran.stderr:
        progress.clear()
        log.write(last)
        log.flush()
        last = line
    answer = ran.stdout.read()
    if answer:
        log.write(last)
    return answer or last, ran.wait()


def order(checker, file, progress=SILENT):
    """Yields thread and seq of each record in the order of the answer."""
    words = [*checker, 'order']
    progress.say('asking for an order ..')
    with open(file, 'rb') as trace, subprocess.Popen(words, stdin=trace, stdout=subprocess.PIPE) as ran:
        try:
            next(ran.stdout, None)
            while block := ran.stdout.readlines(BLOCK):
                numbers = [*map(int, b''.join(block).split())]
                yield from zip(numbers[::2], numbers[1::2])
        finally:
            # nobody asks for the rest of the order
            ran.kill()
