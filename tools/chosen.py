"""Which records of a trace a page shows: those near the record of an answer, in an order that the records allow, and those
beside each other record that the answer is about."""
from array import array
from bisect import bisect_left
from collections import namedtuple

from orders import ByLengths
from walks import walks_behind

# A file with at most so many records is shown whole.
WHOLE = 1500
# Else so many records before and behind the named one are shown, and before and behind each other one of the answer.
NEAR, BESIDE = 300, 8

# Records that follow one another in the order; how many are left out just before them; and by thread its walk before them.
Group = namedtuple('Group', 'left_out records walks')


class Chosen:
    """The groups of records to show, and how many are left out behind the last one; their threads, first those that have
    records of the answer. `ranks` has by line the place of its record in the order, and `found` is the answer."""

    def __init__(self, trace, found):
        self.trace, self.found, wanted = trace, found, {it.number for _, it in found.shown}
        self.count = len(trace.contents.roles) - 2
        self.is_malformed = found.line is not None and found.task is None
        lines = self.in_order(wanted, self.count if self.count <= WHOLE else NEAR)
        self.ranks = array('L', [0]) * (self.count + 2)
        for at, line in enumerate(lines):
            self.ranks[line] = at
        spans = [(0, self.count)] if self.count <= WHOLE else spans_of(self.ranks, wanted, found.line)
        records = [[*trace.at(lines[begin:end])] for begin, end in spans]
        self.records = [it for some in records for it in some]
        told = {it.thread for _, it in found.shown}
        self.threads = sorted({it.thread for it in self.records}, key=lambda it: (it not in told, it))
        walks = self.walks_before([begin for begin, _ in spans])
        ends = [0, *(end for _, end in spans)]
        self.groups = [Group(begin - end, some, walk) for (begin, _), end, some, walk in zip(spans, ends, records, walks)]
        self.left_out_behind = self.count - ends[-1]

    def in_order(self, wanted, near):
        """The lines of all records in an order that they allow, if there is one, where it is shown. For a no there stands
        before the named record what stands before it in the order of the answer."""
        by_lengths, numbers = ByLengths(self.trace, wanted, near), range(2, self.count + 2)
        if not self.found.order:
            return by_lengths.sorted(numbers)
        is_before = bytearray(self.count + 2)
        for it in (*self.found.before, self.found.line):
            is_before[it] = True
        behind = by_lengths.sorted(it for it in numbers if not is_before[it])
        return by_lengths.sorted(sorted(self.found.before)) + array('L', [self.found.line]) + behind

    def walks_before(self, places):
        """Returns for each of these places in the order the walks before it, by thread."""
        by_thread = {}
        for thread in self.threads:
            lines = self.trace.contents.threads[thread]
            counts = [bisect_left(lines, at, key=self.ranks.__getitem__) for at in places]
            behind = [lines[count - 1] if count else 0 for count in counts]
            by_thread[thread] = walks_behind(self.trace, thread, behind)
        return [{thread: next(it) for thread, it in by_thread.items()} for _ in places]

    def left_out(self):
        """How many records are not shown."""
        return self.count - len(self.records)

    def named(self):
        """The named record, or None."""
        return next((it for it in self.records if it.number == self.found.line), None)


def spans_of(ranks, wanted, line):
    """Returns the spans of the order that are shown of a large file: near the named line, and beside each other wanted
    one; without a named line the first ones."""
    count = len(ranks) - 2
    if line is None:
        return [(0, min(count, WHOLE))]
    sizes = {ranks[it]: BESIDE for it in wanted} | {ranks[line]: NEAR}
    spans = []
    for begin, end in sorted((max(0, at - size), min(count, at + size + 1)) for at, size in sizes.items()):
        if spans and begin <= spans[-1][1] + BESIDE:
            begin, end = spans[-1][0], max(end, spans.pop()[1])
        spans.append((begin, end))
    return spans
