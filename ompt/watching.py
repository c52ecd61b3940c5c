"""Audits of processes while they run. The recorder makes a pipe for each process and tells its name in the list of the
run; then a relay hands the records on to a `taskaudit watch`. An end without a yes is said at once, and ends the program;
the last lines are written to a file then."""
import contextlib
import os
import re
import shutil
import subprocess
import tempfile
import time

from naming import DEFAULT_FILE, make_new, name_of, names_process
from outcomes import PART, PART_YES, UNANSWERED
from progress import Progress
from recording import ENDING, TAIL, Recording
from relaying import LONGEST_LOOK, Relay
from running import name_of_signal
from runs import ENDS, Process, cut_line, is_running, lines_from

# The first word of an answer to the records, by the exit status that goes with it.
ANSWERS = {0: 'yes', 1: 'no', 2: 'malformed'}
# How long a program may take to end by itself, where all records of the process are read, before it is ended; how long
# `watch` may take to answer once the program has ended; and how long it is waited between looks. In seconds.
GRACE, LONGEST, BETWEEN = 1, 30, 0.01
# How long lies between two looks at how many records came, in seconds.
EACH = 1
# How many records `taskaudit check` takes.
MOST_CHECKED = 1 << 22
KEPT = '--watch -o FILE keeps all records, for taskaudit-explain FILE'
# What to do next where no file is kept, by the first word of what `watch` said.
ADVICE = {
    'undecided': 'undecided claims nothing: to know, record a run to a file with --live -o FILE and ask'
                 ' `taskaudit check`, which takes up to 2^22 records',
    'no': KEPT,
    'malformed': KEPT,
}
LEFT = 'it still runs, and what it does from now on is not audited'
UNENDED = f'no answer: {LONGEST} s after the end of the program watch had not ended'


class Watch:
    """The audit of one process. In the end `text` is what it says, and `kind` the first word of an answer to the
    records, or None. `is_written`: the process has told that it wrote all; `is_cut`: `watch` ended, and the process
    still had the pipe open; `is_left`: the process still ran when the program ended. `file` is where all records are
    kept, where that is asked for."""

    def __init__(self, process):
        self.process, self.ran, self.relay, self.file, self.has_ended = process, None, None, None, False
        self.kind, self.text = None, ''
        self.is_written = self.is_cut = self.is_left = False
        # this does not wait for the process, which waits for it
        self.source = os.open(process.file, os.O_RDONLY | os.O_NONBLOCK)

    def start(self, checker, file=None):
        """Starts `watch`, when the process has its end of the pipe open: before, the pipe would seem to be at its end.
        Signals of the terminal are for the program. `file`, an open one, gets all records too."""
        try:
            self.relay = Relay(self.source, file)
            self.source, self.file = None, file and file.name
            self.printed, self.errors = tempfile.TemporaryFile(), tempfile.TemporaryFile()
            self.ran = subprocess.Popen([*checker, 'watch'], stdin=self.relay.reader, stdout=self.printed,
                                        stderr=self.errors, start_new_session=True)
        except OSError as error:
            self.text = f'no answer: {error.filename or "watch"}: {error.strerror}'
        self.close_source()
        if self.relay:
            os.close(self.relay.reader)
            self.relay.start()

    def close_source(self):
        if self.source is not None:
            os.close(self.source)
        self.source = None

    def is_done(self):
        """Whether it has ended, and so has the relay."""
        return self.has_ended and not (self.relay and self.relay.is_alive())

    def has_just_ended(self):
        """Whether it has ended since this was asked last, or could not be started."""
        if self.has_ended or not (self.ran and self.ran.poll() is not None or self.text):
            return False
        self.has_ended = True
        return True

    def take_answer(self):
        """Takes the answer of one that has ended; returns what else it said."""
        if not self.ran:
            return ''
        status, printed, errors = self.ran.returncode, text_of(self.printed), text_of(self.errors)
        kind = ANSWERS.get(status)
        if kind and printed.startswith(f'{kind}:'):
            self.kind, self.text = kind, printed
            return errors
        others, _, last = errors.rpartition('\n')
        how = f'by {name_of_signal(-status)}' if status < 0 else f'with status {status}'
        self.text = last or f'no answer: watch ended {how}'
        return others

    def stop(self, text=''):
        """Ends it without an answer, for this reason."""
        self.has_ended, self.text = True, text
        self.close_source()
        if self.ran and self.ran.poll() is None:
            self.ran.kill()
            self.ran.wait()
        self.stop_relay()

    def stop_relay(self):
        if self.relay:
            self.relay.stop()
            self.relay.join(LONGEST_LOOK)

    def release(self):
        """Gives back what it has, when it is done and has been told."""
        if self.relay and self.relay.buffer is not None:
            self.stop_relay()
            self.relay.release()

    def count(self):
        """How many records a yes is about."""
        counted = re.match(r'yes: (\d+) records', self.text)
        return int(counted[1]) if counted else None

    def is_closed(self):
        """Whether the process had closed its pipe when `watch` ended, so that nothing was left unread but what `watch`
        left."""
        if not self.relay:
            return False
        self.relay.is_known.wait(LONGEST_LOOK)
        return self.relay.was_closed

    def write_tail(self, pattern):
        """Writes the last lines that came to a file, and says so in words; nothing where there are none."""
        if not self.relay or not self.relay.is_known.is_set() or not (found := self.relay.tail.text(self.text)):
            return ''
        text, count = found
        name, file = f'{self.file or name_of(pattern, *self.about())}{TAIL}', None
        try:
            with make_new(name) as file:
                file.write(text)
        except OSError as error:
            if file:
                os.remove(file.name)
            return f'{name}: {error.strerror}: the last lines are not kept'
        return f'the last {count:,} records are in {file.name}: taskaudit-explain --tail {file.name} explains this'

    def about(self):
        """The number of the process, its program, and its rank, which the name of the pipe tells."""
        rank = re.fullmatch(r'pipe\.\d+\.(.*)\.jsonl(?:\.\d+)?', os.path.basename(self.process.file))
        return self.process.number, self.process.program, rank[1] if rank else '0'

    def finish_file(self):
        """Cuts a line of the file that has no end, as where the process was killed, and puts beside the file what the process
        told of its end."""
        if not self.file:
            return
        with contextlib.suppress(OSError):
            cut_line(self.file)
            if self.is_written:
                shutil.copyfile(self.process.file + ENDING, self.file + ENDING)

    def kept_in_words(self):
        """What is in the file."""
        if self.relay.fault:
            return f'{self.file}: {self.relay.fault}: it has a part of the records only'
        count = max(self.relay.count - 1, 0)
        told = f'{count:,} records are in {self.file}'
        if self.kind == 'yes':
            return told
        if count > MOST_CHECKED:
            return f'{told}, which are more than the 2^22 that taskaudit-explain takes'
        return f'{told}: taskaudit-explain {self.file} explains them'


def text_of(file):
    """What was written to the file, which is closed."""
    with file:
        file.seek(0)
        return file.read().decode(errors='replace').rstrip('\n')


class Watches:
    """The audits of all processes of a run, by their pipes. `path` is the list of the run. If it `keeps_going`, no
    answer ends the program. `pattern` is the name of the files that are kept, or None."""

    def __init__(self, checker, path, log, keeps_going, pattern=None):
        self.checker, self.path, self.log, self.keeps_going = checker, path, log.outer, keeps_going
        self.of, self.at, self.ends, self.pattern = {}, 0, None, pattern
        self.pace = Pace(self.log.to)

    def __enter__(self):
        return self

    def __exit__(self, *_):
        for it in self.of.values():
            it.stop(it.text)
        self.pace.clear()

    def look(self, run=None):
        """Looks what is new: processes, answers, and whether it is time to end the run."""
        for word, number, pipe, program in self.new_lines():
            if word == 'pipe':
                self.add(Process(int(number), program, pipe, None))
            elif pipe in self.of:
                self.take_line(word, self.of[pipe])
        self.take_answers()
        self.pace.look(it.relay.count for it in self.of.values() if it.relay)
        if run and self.ends is not None and time.monotonic() >= self.ends:
            self.ends = None
            if run.end_early():
                self.say('the program is ended by SIGTERM; --keep-going lets it go on')

    def say(self, text):
        self.pace.clear()
        self.log.say(text)

    def new_lines(self):
        with contextlib.suppress(OSError):
            lines, self.at = lines_from(self.path, self.at)
            return lines
        return []

    def add(self, process):
        try:
            self.of[process.file] = Watch(process)
        except OSError:
            # the process, which waits for a reader, sees that none comes
            with contextlib.suppress(OSError):
                os.remove(process.file)

    def take_line(self, word, watch):
        if word == 'live':
            watch.start(self.checker, self.new_file(watch))
        elif word in ENDS:
            watch.is_written = True

    def new_file(self, watch):
        """The file that is to have all records of the process, open, where one is asked for."""
        if not self.pattern:
            return None
        number, *_ = about = watch.about()
        name = name_of(self.pattern, *about)
        try:
            return make_new(name, None if names_process(self.pattern) else number, buffering=0)
        except OSError as error:
            self.say(f'{name}: {error.strerror}: the records of {watch.process.name} are not kept')
            return None

    def take_answers(self):
        for it in self.of.values():
            if it.is_done():
                it.release()
            if not it.has_just_ended():
                continue
            others = it.take_answer()
            if others:
                self.pace.clear()
                self.log.write(f'{others}\n')
            if it.kind != 'yes':
                self.say_end(it)

    def say_end(self, watch):
        """Says at once that there is no yes, keeps the last lines, and sees to it that the program ends."""
        self.say(f'the watch of {watch.process.name} has ended, and what comes behind this is not audited:')
        self.log.write(f'{watch.text}\n')
        watch.is_cut = not watch.is_closed()
        if told := watch.write_tail(DEFAULT_FILE):
            self.log.say(told)
        if not self.keeps_going:
            ends = time.monotonic() + (0 if watch.is_cut else GRACE)
            self.ends = min(self.ends or ends, ends)

    def finish(self):
        """Waits for the answers, when the program has ended."""
        ends = time.monotonic() + LONGEST
        self.look()
        while not all(it.is_done() for it in self.of.values()):
            self.leave(time.monotonic() > ends)
            time.sleep(BETWEEN)
            self.look()
        for it in self.of.values():
            it.stop_relay()
            it.finish_file()
        self.pace.clear()

    def leave(self, is_late):
        """Leaves the processes that still run, and if it is late all."""
        for it in self.of.values():
            goes_on = is_running(it.process.number) and not it.is_written
            if it.has_ended:
                # only the file is written still
                if goes_on or is_late:
                    it.stop_relay()
            elif goes_on or not it.ran:
                it.is_left = True
                it.stop()
            elif is_late:
                it.stop(UNENDED)
                self.say_end(it)

    def audit(self, process, log, is_only):
        """Says what was watched of a process, and what is not known of it; returns what comes of it in a word."""
        watch, recording, who = self.of.get(process.file), Recording(process.file), process.prefix(is_only)
        kept = [watch.kept_in_words()] if watch and watch.file else []
        if not watch or watch.is_left:
            for it in (*kept, f'A PART OF THE RUN ONLY: {LEFT}'):
                log.say(who + it)
            return PART
        is_cut = watch.is_cut or watch.kind != 'yes' and recording.is_unwritten()
        partial = recording.partial(watch.count(), is_cut)
        counted = [f'{recording.counts()} watched'.lstrip()] * (watch.kind == 'yes')
        for it in (*counted, *kept, *recording.changes(), *(f'A PART OF THE RUN ONLY: {it}' for it in partial)):
            log.say(who + it)
        if watch.kind != 'yes':
            return watch.kind or UNANSWERED
        answer = watch.text.replace('yes:', 'yes, of what was recorded:', 1) if partial else watch.text
        log.write(f'{answer}\n')
        return PART_YES if partial else 'yes'

    def advise(self, log):
        """Says what to do next."""
        words = [it.text.partition(':')[0] for it in self.of.values() if not it.file]
        for it in dict.fromkeys(ADVICE[word] for word in words if word in ADVICE):
            log.say(it)

    def files(self):
        """The files that were kept."""
        return [it.file for it in self.of.values() if it.file]


class Pace:
    """A line on a terminal that says how many records came so far, and how many a second."""

    def __init__(self, out):
        self.progress, self.at, self.count = Progress('taskaudit-run' if out else '', out), time.monotonic(), 0

    def look(self, counts):
        """Says it once a second. Each of the counts is of lines, with a header."""
        passed = time.monotonic() - self.at
        if passed < EACH or not self.progress.is_seen:
            return
        count = sum(max(it - 1, 0) for it in counts)
        with contextlib.suppress(OSError):
            self.progress.say(f'{count:,} records so far, {(count - self.count) / passed:,.0f} a second')
        self.at, self.count = self.at + passed, count

    def clear(self):
        with contextlib.suppress(OSError):
            self.progress.clear()
