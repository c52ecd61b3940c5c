"""What the header of a file says of the recording: whether it is of a whole run, and what was changed or left out. Of a file
that was written while the program ran (a live one) a second file beside it says so."""
import json
import os
import stat

# What each note in the header says, and how often; the code of the first time follows.
CHANGED = {
    'untied': '{count} records of parts of untied tasks are written as of the task that ran there, or left out where it'
              ' is the same',
    'created_for_another': '{count} tasks were created in the name of a task that did not run there (taskloop); they are'
                           ' written as children of the one that did',
    'discarded_twice': '{count} records that told once more that a task was discarded are left out',
    'inner_regions': '{count} inner parallel regions of one thread, in which no task was created, are left out',
    'barriers_renamed': '{count} barriers of code that gcc compiled are written as `barrier`',
    'doacross': '{count} dependences of doacross loops (source, sink) are left out',
    'wrong_end': '{count} ends of initial or implicit tasks that came while another task ran are left out',
    'added_members': '{count} members of teams whose threads never woke are added, on a thread of their own',
    'joins_in_teams': '{count} ends of barriers at the end of regions in teams constructs, told as of the task below the'
                      ' member, are written as of the member',
    'league_members': '{count} members of the regions that initial tasks of teams constructs begin, of which the runtime'
                      ' tells the first only, are added, on a thread of their own',
    'helpers_without_task': '{count} hidden helper threads began a region in no task; each is given an initial task',
}
NESTS = '; a file of version 3 (TASKAUDIT_VERSION=3) has them'
NOT_AUDITED = {
    'nested': '{count} parallel regions inside others: the file is malformed (NestedParallel or NotCurrent)' + NESTS,
    'teams': '{count} teams constructs: not audited, the file is malformed' + NESTS,
    'target': '{count} target tasks: not audited, the file is malformed' + NESTS,
    'target_constructs': '{count} target constructs: what a device runs is not recorded, and what those with nowait or'
                         ' dependences run on the host is recorded as of the task that runs there',
}
# Only a file with turns can say where a task resumes.
MOVED = '{count} times a task went on on another thread (untied tasks)'
MOVED_BY_VERSION = {
    1: f'NOT AUDITED: {MOVED}: the file is malformed (Moved), since version 1 of the file cannot say that',
    2: f'{MOVED}, as its turns say',
    3: f'{MOVED}, as its turns say',
}
# Why a file has a part of a run only.
PARTIAL = {
    'many_records': 'recording stopped at 2^22 records; the program went on',
    'many_tasks': 'recording stopped at 2^20 tasks; the program went on',
    'many_threads': 'recording stopped at the 257th thread; the program went on',
    'deep_tasks': 'recording stopped at a task that stands more than 1,024 steps below its root; the program went on',
    'no_memory': 'recording stopped, since memory ran out; the program went on',
    'long_list': '{count} dependences past the 64th of a task are left out',
    'all_memory': '{count} dependences on all memory are left out',
    'late_list': '{count} lists of dependences that did not follow the creation of their task are left out',
    'no_task': '{count} callbacks that named no task are left out',
    'unknown': '{count} callbacks or dependences of a kind that this recorder does not know are left out',
    'signal': 'the program ended by a signal ({ending}); {file} what was recorded until then',
    'open_region': 'the program ended inside a parallel region; {file} what was recorded until then',
}
# In a live file there is no limit that a program reaches soon.
PARTIAL_OF_LIVE = {
    **PARTIAL,
    'many_records': 'recording stopped near 2^32 records of a thread, or finished tasks; the program went on',
    'unwritten': 'the file could not be written any more: the disk is full, or nobody read the pipe; the program went on',
}
# Behind the name of a live file is this in the name of the one that says how the process ended.
ENDING = '.end'
# Behind the name that a file has, or would have, is this in the name of a tail of what was watched.
TAIL = '.tail'
NOT_ENDED = ('it does not say how the process ended: that still runs, or it was killed, or left by _exit or exec;'
             ' {file} what was written until then')
# Reasons that come with the end. Where the reader of a pipe left before, they say nothing of what was read.
AT_THE_END = ('signal', 'open_region', 'unwritten')
WAITED = ('threads waited {waits} times, {seconds:.3f} seconds in all, until older records were written: this changed the'
          ' timing of the program')
UNTOLD = 'its header does not say how much was recorded: it was cut or changed, or an early recorder wrote it'
LONGEST_LINE = 1 << 16
PIECE = 1 << 20


class Recording:
    """What our recorder says of a file in its header. Other recorders say nothing: their files are taken as whole."""

    def __init__(self, path):
        self.path, self.is_pipe = path, is_pipe(path)
        self.has = 'the pipe had' if self.is_pipe else 'the file has'
        header = {'recorder': {'live': True}} if self.is_pipe else value_of(first_line(path))
        told = header.get('recorder')
        self.version, self.is_ours = header.get('version'), isinstance(told, dict)
        self.told = told if self.is_ours else {}
        self.is_live = bool(self.told.get('live'))
        if self.is_live:
            self.told = {**self.told, **value_of(first_line(path + ENDING))}
        notes = self.told.get('notes')
        self.notes = {name: it for name, it in notes.items() if isinstance(it, dict)} if isinstance(notes, dict) else {}

    def sentence(self, text, name):
        """A sentence on a note, with the code of the first time where that is known."""
        note = self.notes.get(name, {})
        place = f" (first at {note['codeptr']})" if 'codeptr' in note else ''
        return text.format(count=note.get('count'), ending=self.told.get('ending'), file=self.has) + place

    def counts(self):
        """How many ends of waits and starts of dependent tasks there are, in words; none where it is not known."""
        if 'waits' not in self.told:
            return ''
        return f"{self.told['waits']} ends of waits and {self.told.get('dependent_starts')} starts of dependent tasks"

    def extent(self):
        """How many records the header says that there are, and by which names not all of the run; or None where it does
        not say so."""
        told = self.told.get('recording')
        if not isinstance(told, dict):
            return None
        counts, partial = told.get('records'), told.get('partial')
        if not isinstance(counts, list) or not isinstance(partial, list) or not all(type(it) is int for it in counts):
            return None
        return sum(counts), [str(it) for it in partial]

    def is_unwritten(self):
        """Whether it could not be written to the end, as where the reader of a pipe left."""
        extent = self.extent()
        return extent is not None and 'unwritten' in extent[1]

    def partial(self, count=None, is_cut=False):
        """Why the file has a part of the run only, in sentences; none where it has the whole. `count` is how many records
        are in the file, where that is known already. Where the reader of a pipe left before its end (`is_cut`), only
        what the part that was read may lack."""
        if not self.is_ours:
            return []
        extent = self.extent()
        if not extent and (is_cut or self.is_pipe and not has_ending(self.path)):
            return []
        if not extent:
            return [self.sentence(NOT_ENDED, '') if self.is_live else UNTOLD]
        wanted, names = extent
        if count is None:
            count = wanted if self.is_pipe else self.count()
        cut = [f'{self.has} {count:,} of {wanted:,} records: it was cut or changed'] * (count != wanted)
        sentences = PARTIAL_OF_LIVE if self.is_live else PARTIAL
        return cut + [self.sentence(sentences[it], it) if it in sentences else it for it in names
                      if not (is_cut and it in AT_THE_END)]

    def count(self):
        """How many lines follow the header."""
        with open(self.path, 'rb') as it:
            return sum(piece.count(b'\n') for piece in iter(lambda: it.read(PIECE), b'')) - 1

    def changes(self):
        """What was changed or left out in what is recorded, and what the audit does not cover, in sentences."""
        found = [self.sentence(text, name) for name, text in CHANGED.items() if name in self.notes]
        live = self.told.get('live')
        if isinstance(live, dict) and live.get('waits'):
            found.append(WAITED.format(waits=live['waits'], seconds=live.get('nanoseconds', 0) / 10**9))
        if 'moved' in self.notes:
            found.append(self.sentence(MOVED_BY_VERSION.get(self.version, MOVED), 'moved'))
        return found + [f'NOT AUDITED: {self.sentence(text, name)}' for name, text in NOT_AUDITED.items()
                        if name in self.notes]


def is_pipe(path):
    """Whether it is a pipe or a device, which cannot be read once more."""
    try:
        return not stat.S_ISREG(os.stat(path).st_mode)
    except OSError:
        return False


def has_ending(path):
    """Whether this pipe or device has a file beside it in the end: a pipe that is named by a number has none."""
    is_number = path.startswith(('/dev/', '/proc/')) and os.path.islink(path)
    return stat.S_ISFIFO(os.stat(path).st_mode) and not is_number


def first_line(path):
    """The first line of a file; none where a live file has no end."""
    try:
        with open(path, 'rb') as it:
            return it.readline(LONGEST_LINE + 1)
    except FileNotFoundError:
        if path.endswith(ENDING):
            return b''
        raise


def value_of(line):
    """The object that a line is, or an empty one."""
    try:
        value = json.loads(line)
    except (ValueError, RecursionError):
        return {}
    return value if isinstance(value, dict) else {}
