"""A trace file for tools that look at a few of its records, so that a large file needs little memory."""
import json
import mmap
import os
import re
from bisect import bisect_left
from functools import cached_property
from itertools import islice

from contents import RUNS, WAITS, Contents, values_of
from model import RECORDS_SAY, said_by
from progress import SILENT

# How many lines are taken from their places and parsed at once.
SOME = 100
# A record that says nothing.
Silent = type('Silent', (), dict.fromkeys(RECORDS_SAY))


class Record(Silent):
    """A record: its line number, the line and its value, and what it says (the module Records of docs/MODEL.md), from
    version 2 of a file on its turns too. It nests in a file of version 3."""

    def __init__(self, number, line, value, version):
        vars(self).update(said_by(value, version >= 2))
        self.number, self.line, self.value, self.nests = number, line, value, version == 3
        self.thread, self.seq, self.seen = value['thread'], value['seq'], value['seen']

    @property
    def text(self):
        return self.line.decode().rstrip()

    def known_after(self):
        return self.seen + 1 if self.finish else self.seen

    def has_list(self):
        return self.value['cb'] == 'dependences'


def member(names, value):
    """A pattern for lines in which one of these members has this value."""
    return rf'"(?:{"|".join(names)})"\s*:\s*{re.escape(json.dumps(value))}(?!\w)'


def text_of(data, at):
    """The line that begins at this byte, without its line feed, and where the next one begins."""
    end = data.find(b'\n', at)
    end = len(data) if end < 0 else end
    return data[at:end], end + 1


class Trace:
    """A file. One pass finds what is where in it, once that is asked. `lines`, `matches`, `records` and `among` do without:
    they go along the lines up to those that are wanted."""

    def __init__(self, path, progress=SILENT):
        self.path, self.progress = path, progress

    @cached_property
    def data(self):
        with open(self.path, 'rb') as it:
            return mmap.mmap(it.fileno(), 0, access=mmap.ACCESS_READ) if os.path.getsize(self.path) else b''

    @cached_property
    def version(self):
        """The version of a file whose header can be read."""
        return json.loads(self.line(1))['version']

    @cached_property
    def tells_turns(self):
        return self.version >= 2

    @cached_property
    def has_escapes(self):
        return self.data.find(b'\\') >= 0

    @cached_property
    def contents(self):
        """What is where in a file that can be read."""
        return Contents(self.path, self.tells_turns, self.progress)

    def lines(self):
        """Yields each line with its number, from 1."""
        with open(self.path, 'rb') as it:
            yield from enumerate(it, 1)

    def line(self, number):
        return next((text for at, text in self.lines() if at == number), b'')

    def matches(self, pattern):
        """Yields number and text of each line that has the pattern, and of each with a backslash, which may spell
        its names in another way."""
        pattern, data = rf'(?:{pattern})|\\' if self.has_escapes else pattern, self.data
        search = re.compile(pattern.encode()).search
        number, at = 1, 0
        while found := search(data, at):
            begin = max(data.rfind(b'\n', at, found.start()) + 1, at)
            number += data[at:begin].count(b'\n')
            text, at = text_of(data, begin)
            yield number, text
            number += 1

    def records(self, pattern):
        """Yields the records of the lines that have the pattern."""
        return (Record(number, text, json.loads(text), self.version)
                for number, text in self.matches(pattern) if number > 1)

    def among(self, is_wanted):
        """Yields the records of the lines whose numbers are wanted."""
        for number, text in self.lines():
            if number > 1 and is_wanted(number):
                yield Record(number, text, json.loads(text), self.version)

    # What the contents of the file are asked for

    def text(self, number):
        """The line of this number, with its line feed."""
        begins = self.contents.begins
        return self.data[begins[number - 1]:begins[number]]

    def parsed(self, numbers):
        """Yields number, line and value of each of these lines."""
        numbers = iter(numbers)
        while some := [*islice(numbers, SOME)]:
            lines = [*map(self.text, some)]
            yield from zip(some, lines, values_of(lines))

    def values(self, numbers):
        """Yields number and value of each of these lines, in half the time that the records take."""
        return ((number, it) for number, _, it in self.parsed(numbers))

    def at(self, numbers):
        """Yields the records of these lines."""
        return (Record(*it, self.version) for it in self.parsed(numbers))

    def record(self, number):
        return next(self.at([number]))

    def doing(self, roles):
        """Yields the records that do one of these."""
        return self.at(self.contents.doing(roles))

    def lines_of_task(self, task, roles, last=None):
        """Returns the lines up to `last` that name the task, but as a root, and whose records do one of these."""
        done = self.contents.roles
        return [it for it in self.contents.tasks.get(task, ()) if done[it] & roles and (last is None or it <= last)]

    def of_task(self, task, roles, last=None):
        return self.at(self.lines_of_task(task, roles, last))

    def of_thread(self, thread, roles, last=None):
        """Yields the records of the thread that do one of these."""
        done = self.contents.roles
        return self.at(it for it in self.contents.lines_of_thread(thread, last=last) if done[it] & roles)

    def beside(self, record, step):
        """The record of the same thread so many records behind this one, or None."""
        lines = self.contents.threads[record.thread]
        at = bisect_left(lines, record.number) + step
        return self.record(lines[at]) if 0 <= at < len(lines) else None

    def line_of(self, thread, seq):
        """The line of the record with this number in a thread whose numbers have no gap."""
        return self.contents.threads[thread][seq]

    def maker(self, task):
        """The first record that makes the task, or None."""
        number = self.contents.made.get(task)
        return number and self.record(number)

    def fork(self, parallel):
        """The first record that begins the region, or None."""
        number = self.contents.regions.get(parallel)
        return number and self.record(number)

    def regions_in_turns(self, task):
        """Yields of each begin and end of the task's regions the turn of the task, the line and the endpoint."""
        turns = {}
        for number, it in self.values(self.lines_of_task(task, WAITS | RUNS)):
            if it['cb'] == 'sync_region':
                yield turns.get(it['thread'], 0), number, it['endpoint']
            elif it['next'] == task:
                turns[it['thread']] = it['next_turn'] if self.tells_turns else 0

    @cached_property
    def creations(self):
        """Of each explicit task its parent, its number among the parent's children in own order, and the line that
        creates it."""
        found, counts = {}, {}
        for _, number, parent, child in sorted(self.contents.creations):
            found[child] = (parent, counts.setdefault(parent, 0), number)
            counts[parent] += 1
        return found

    def ancestors(self, task):
        """The task, its parent, and so on; to the first that no task created, or that came before."""
        found = {}
        while task not in found:
            found[task] = True
            if task not in self.creations:
                break
            task = self.creations[task][0]
        return [*found]

    def child_count(self, task):
        return sum(parent == task for _, _, parent, _ in self.contents.creations)
