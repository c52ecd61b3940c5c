"""What the program says of one file of many, in a process of its own with a time limit; and which files there are."""
import json
import os
import re
import signal
import stat
import subprocess
import sys
import threading
import time
from contextlib import suppress
from itertools import islice

from answers import STATUSES
from recording import Recording
from summary import as_object, from_object
from traces import Trace, member

TOOLS = os.path.dirname(os.path.realpath(__file__))
# What may become of a file, from the best to the worst, each with the exit status that it gives.
OUTCOMES = {'yes': 0, 'yes of a part': 66, 'no': 1, 'malformed': 2, 'unreadable': 3, 'out of memory': 5,
            'without an answer': 71, 'not audited': 71}
# The names that recorders give to files: a number follows where the name was taken, and `.part` until the file is whole.
TRACE_NAME = re.compile(r'.\.jsonl(\.\d+)*(\.gz|\.zst|\.xz|\.part)?\Z', re.S)
PART_NAME = re.compile(r'\.jsonl(\.\d+)*\.part\Z')
# The first bytes of compressed files, and the program that prints such a file unpacked.
MARKS = {b'\x1f\x8b': 'zcat', b'\x28\xb5\x2f\xfd': 'zstdcat', b'\xfd7zXZ\x00': 'xzcat'}
ANSWER = re.compile(r'(?:yes: (?P<records>\d+) records, (?P<entries>\d+) entries, (?P<tasks>\d+) tasks, (?P<waits>\d+) waits'
                    r'|(?:no|malformed): line (?P<line>\d+), thread (?P<thread>\d+), seq (?P<seq>\d+): '
                    r'(?:task (?P<task>\d+) (?:unfinished|must precede task (?P<dependent>\d+))'
                    r'|cause (?P<cause>\d+) (?P<cause_name>\w+)))')
# How long a process that is ended may take for that.
SECONDS_TO_END = 10
INTERRUPTED = 'the audit was interrupted'
COUNTS = ('records', 'entries', 'tasks', 'waits')
NAMED = ('line', 'thread', 'seq', 'task', 'dependent', 'cause', 'cause_name')


class NoAnswer(Exception):
    """Why a process gave no answer."""


class Stopped(Exception):
    """The audit was stopped before this process ended."""


def shown(name):
    """Returns a name of a file as text that can be printed: other bytes and characters as Python escapes them."""
    text = os.fsencode(name).decode('utf-8', 'backslashreplace')
    return ''.join(it if it.isprintable() else it.encode('unicode_escape').decode() for it in text)


class Result:
    """What became of one file: the program's words, the outcome, and what is known of the file beside that."""

    def __init__(self, file, outcome, words):
        self.file, self.outcome, self.words = file, outcome, words
        self.partial, self.records, self.counts, self.named = [], [], None, {}
        self.summary, self.seconds = None, 0.0

    @property
    def verdict(self):
        """The verdict on the records, or None where there is none."""
        word = self.outcome.partition(' ')[0]
        return word if word in STATUSES else None

    def as_line(self):
        """Returns the line of the file."""
        words = self.words
        if self.partial and self.verdict == 'yes':
            words = words.replace('yes:', 'yes, of what was recorded:', 1)
        return '; '.join([f'{shown(self.file)}: {words}', *self.partial])

    def as_object(self):
        """Returns all that is known of the file as one JSON object."""
        told = {'file': shown(self.file), 'outcome': self.outcome, 'verdict': self.verdict, 'words': self.words,
                'status': OUTCOMES[self.outcome], 'partial': self.partial, 'counts': self.counts,
                **{name: self.named.get(name) for name in NAMED}, 'records': self.records,
                'seconds': round(self.seconds, 3)}
        return told | ({'summary': as_object(self.summary)} if self.summary else {})


def found_in(word, faults):
    """Yields the trace files that a word of the command line names: itself, or all in a folder and below it. Adds a
    result to the faults where a folder cannot be read, or has none."""
    if not os.path.isdir(word):
        yield word
        return

    def unread(error):
        faults.append(Result(error.filename, 'unreadable', f'unopened: {error.strerror.lower()}'))

    known, found = len(faults), 0
    for folder, below, names in os.walk(word, onerror=unread):
        below.sort()
        for name in sorted(it for it in names if TRACE_NAME.search(it)):
            found += 1
            yield os.path.join(folder, name)
    if not found and len(faults) == known:
        faults.append(Result(word, 'unreadable', 'unopened: no trace files (NAME.jsonl) are in this folder'))


def files_of(words):
    """Returns the files that the words name, each once, and a result for each word that names none."""
    faults, found = [], {}
    for word in words:
        for file in found_in(word, faults):
            found.setdefault(os.path.realpath(file), file)
    return [*found.values()], faults


def opened(file):
    """Opens a trace file; raises OSError with the reason where it is none."""
    if PART_NAME.search(file):
        raise OSError(0, 'its recorder has not completed it')
    # a pipe that nobody writes to would be waited for
    number = os.open(file, os.O_RDONLY | os.O_NONBLOCK | os.O_CLOEXEC)
    try:
        if not stat.S_ISREG(os.fstat(number).st_mode):
            raise OSError(0, 'it is no regular file')
        begin = os.pread(number, max(map(len, MARKS)), 0)
        unpack = next((it for mark, it in MARKS.items() if begin.startswith(mark)), None)
        if unpack:
            raise OSError(0, f'it is compressed; {unpack} unpacks it')
        return number
    except OSError:
        os.close(number)
        raise


class Judge:
    """Has files judged, each by processes of their own, which end when the audit is stopped."""

    def __init__(self, checker, limit, wants_summary):
        self.checker, self.limit, self.wants_summary = checker, limit, wants_summary
        self.running, self.lock, self.is_stopped = set(), threading.Lock(), False

    def stop(self):
        """Ends all processes, and starts no other."""
        with self.lock:
            self.is_stopped = True
            for it in self.running:
                end(it)

    def start(self, words, file):
        """Starts a process that reads the file."""
        number = opened(file)
        try:
            with self.lock:
                if self.is_stopped:
                    raise Stopped
                ran = subprocess.Popen(words, stdin=number, stdout=subprocess.PIPE, stderr=subprocess.PIPE, text=True,
                                       errors='replace', start_new_session=True)
                self.running.add(ran)
                return ran
        finally:
            os.close(number)

    def printed(self, words, file):
        """Returns what a process that reads the file prints on both streams, and its exit status."""
        ran = self.start(words, file)
        try:
            out, errors = ran.communicate(timeout=self.limit)
        except subprocess.TimeoutExpired as error:
            end(ran)
            with suppress(subprocess.TimeoutExpired):
                ran.communicate(timeout=SECONDS_TO_END)
            raise NoAnswer(f'it took longer than {self.limit:g} s') from error
        finally:
            with self.lock:
                self.running.discard(ran)
        if self.is_stopped and ran.returncode < 0:
            raise Stopped
        return out, errors, ran.returncode

    def result(self, file):
        """Returns what became of a file."""
        begun = time.monotonic()
        try:
            result = self.judged(file)
        except Stopped:
            result = Result(file, 'not audited', f'not audited: {INTERRUPTED}')
        except NoAnswer as error:
            result = Result(file, 'without an answer', f'no answer: {error}')
        except OSError as error:
            result = Result(file, 'unreadable', f'unopened: {error.strerror[0].lower()}{error.strerror[1:]}')
        result.seconds = time.monotonic() - begun
        return result

    def judged(self, file):
        """Returns what the program says of a file, with what else is asked for."""
        try:
            out, errors, status = self.printed([*self.checker, 'check', '-'], file)
        except FileNotFoundError as error:
            if error.filename == self.checker[0]:
                raise NoAnswer(f'{error.filename}: {error.strerror}') from error
            raise
        result = answered(file, out, errors, status)
        if result.verdict:
            try:
                tell_more(result)
            except (ValueError, KeyError, TypeError) as error:
                raise NoAnswer('the file was changed while it was audited') from error
            if self.wants_summary:
                self.summarise(result)
        return result

    def summarise(self, result):
        """Adds the figures of the file."""
        words = [sys.executable, '-B', os.path.join(TOOLS, 'summary.py')]
        try:
            out, errors, status = self.printed(words, result.file)
        except (NoAnswer, Stopped, OSError) as error:
            out, errors, status = '', str(error) or INTERRUPTED, 1
        if status:
            last = errors.rstrip('\n').rpartition('\n')[2]
            print(f'{shown(result.file)}: no summary: {last}', file=sys.stderr, flush=True)
        else:
            result.summary = from_object(json.loads(out))


def end(process):
    """Ends a process and all that it started."""
    with suppress(ProcessLookupError):
        os.killpg(process.pid, signal.SIGKILL)


def answered(file, out, errors, status):
    """Returns what the program's words and its status say of a file."""
    word = out.partition(':')[0]
    if out and STATUSES.get(word) == status and ANSWER.fullmatch(out.rstrip('\n')):
        return Result(file, word, out.rstrip('\n'))
    last = errors.rstrip('\n').rpartition('\n')[2]
    if status == OUTCOMES['unreadable'] and last.startswith('unreadable: '):
        return Result(file, 'unreadable', last)
    if status == OUTCOMES['out of memory'] and last == 'out of memory':
        return Result(file, 'out of memory', last)
    raise NoAnswer(how_ended(status) + f': {last}' * bool(last))


def how_ended(status):
    """Returns how a program ended that gave no answer."""
    if status >= 0:
        return f'the program that audits ended with status {status}'
    with suppress(ValueError):
        return f'the program that audits ended by {signal.Signals(-status).name}'
    return f'the program that audits ended by signal {-status}'


def tell_more(result):
    """Adds the counts or the named records to a verdict, and why the file has a part of the run only."""
    told = {name: it for name, it in ANSWER.fullmatch(result.words).groupdict().items() if it is not None}
    told = {name: int(it) if it.isdecimal() else it for name, it in told.items()}
    if result.verdict == 'yes':
        result.counts = {name: told[name] for name in COUNTS}
    else:
        result.named, result.records = told, records_named(result.file, told)
    result.partial = Recording(result.file).partial(told.get('records'))
    if result.partial and result.verdict == 'yes':
        result.outcome = 'yes of a part'


def records_named(file, told):
    """Returns the record that an answer names, and of a no the creation of its task, as they are in the file."""
    trace = Trace(file)
    found = [*islice(trace.among(told['line'].__eq__), 1)]
    if not found:
        raise ValueError('there is no such line any more')
    if 'task' in told:
        created = trace.records(member(['child'], told['task']))
        found += islice((it for it in created if it.created == told['task']), 1)
    return [{'line': it.number, 'record': it.value} for it in found]
