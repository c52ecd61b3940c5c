"""The drawing of a page: records from left to right, one lane for each thread; tasks as bars, waits below them, and arrows.
Where records are left out there is a gap, which says how many."""
from collections import defaultdict, namedtuple
from html import escape
from itertools import islice

from arrows import MOST, Arrows, waits_of
from contents import ROOT

STEP, LANE, LEFT, GAP, NARROWEST = 16, 64, 20, 150, 800
# The height of a row of labels, and the width of one of their letters.
ROW, LETTER = 16, 6.3
# The greatest number of waits of a thread that are drawn one below another.
WAIT_ROWS = 4
# The greatest number of frames of regions inside others, one in another.
MOST_FRAMES = 5

# A text over the sheet, at the record that it is about: how far to the left it begins, its row, and whether the record is
# the named one.
Label = namedtuple('Label', 'record left row text is_named')


def element(name, text='', **members):
    told = ' '.join(f'{key.rstrip("_").replace("_", "-")}="{escape(str(value))}"' for key, value in members.items())
    return f'<{name} {told}>{text}</{name}>'


def title(text):
    return f'<title>{escape(text)}</title>'


class Sheet:
    """The drawing of the chosen records."""

    def __init__(self, chosen, place_of):
        self.chosen, self.found, self.place_of = chosen, chosen.found, place_of
        self.parts, self.bars, self.left, self.gaps, self.sides = [], [], {}, [], []
        self.has_frames, self.arrows_left_out = False, 0
        self.place_records()
        self.labels = labels_of(self.found, self.left, self.width)
        self.top = ROW * (2 + max((it.row for it in self.labels), default=0))
        self.tops = {it: self.top + LANE * at for at, it in enumerate(chosen.threads)}
        self.height = self.top + LANE * len(self.tops) + 10

    def place_records(self):
        """Finds how far to the left each record stands, each gap and each group."""
        left = LEFT
        for group in self.chosen.groups:
            left = self.place_gap(left, group.left_out)
            self.left |= {it.number: left + STEP * at + STEP // 2 for at, it in enumerate(group.records)}
            self.sides.append((left, left + STEP * len(group.records)))
            left = self.sides[-1][1]
        self.width = max(self.place_gap(left, self.chosen.left_out_behind) + LEFT, NARROWEST)

    def place_gap(self, left, left_out):
        if left_out:
            self.gaps.append((left, left_out))
        return left + GAP * (left_out > 0)

    def bands(self):
        """Returns how far to the left each gap begins, and its width."""
        return [(left, GAP) for left, _ in self.gaps]

    def centre(self, record):
        return self.left[record.number], self.tops[record.thread] + 24

    def add(self, *words, **members):
        self.parts.append(element(*words, **members))

    def is_lit(self, task):
        return ' lit' * (self.found.task is not None and task == self.found.task)

    def is_root(self, task):
        number = self.chosen.trace.contents.made.get(task)
        return number is not None and self.chosen.trace.contents.roles[number] & ROOT

    def lanes(self):
        for top in self.tops.values():
            self.add('rect', class_='lane', x=0, y=top, width=self.width, height=LANE - 8)
        for group, sides in zip(self.chosen.groups, self.sides):
            self.lanes_of_group(group, sides)

    def lanes_of_group(self, group, sides):
        for thread in self.tops:
            Lane(self, thread, group, sides).draw()

    def waits(self, waits):
        """A line from the begin of each wait to its end, in rows where one is inside another."""
        rows = defaultdict(list)
        for it in sorted(waits, key=lambda it: (self.left[it.begin.number], -self.left[it.end.number])):
            ends, (left, right) = rows[it.end.thread], (self.left[record.number] for record in it)
            row = next((row for row, end in enumerate(ends) if end < left), len(ends)) % WAIT_ROWS
            ends[row:row + 1] = [right]
            task, kind, _ = it.end.region
            told = title(f'{kind} of task {task}, lines {it.begin.number} to {it.end.number}')
            lit, y = ' lit' * (it.end.number == self.found.line), self.tops[it.end.thread] + 41 + 4 * row
            self.add('line', told, class_='wait' + lit, x1=left, y1=y, x2=right, y2=y)

    def arrows(self, waits):
        """The arrows to the named record, and all others, which are not seen unless that is asked."""
        arrows = Arrows(self.chosen)
        self.ends, named = arrows.ends, arrows.of_named(waits)
        nearest = arrows.nearest(named)
        self.parts += map(self.arrow_to, nearest)
        self.parts.append('<g class="others">')
        for some in (arrows.to_waits(waits), arrows.to_starts()):
            self.parts += [self.arrow_to(it) for it in islice(some, MOST) if it.record.number != self.found.line]
        self.parts.append('</g>')
        self.arrows_left_out = len(named) - len(nearest)

    def arrow_to(self, it):
        (x, y), (to_x, to_y) = self.centre(self.ends[it.task]), self.centre(it.record)
        is_named, side = it.record.number == self.found.line, 1 if x > to_x else -1
        state = ' lit' * (is_named and it.task == self.found.task) or ' late' * (is_named and x > to_x)
        # it ends beside the point, so that its head is seen
        near, bend = to_x + side * (8 if is_named else 4), 30 if y == to_y else 0
        return element('path', title(it.title), class_=it.kind + state,
                       d=f'M{x},{y} C{x - 20 * side},{y - bend} {near + 20 * side},{to_y - bend} {near},{to_y}')

    def points(self):
        shown = {it.number for _, it in self.found.shown}
        for it in self.chosen.records:
            (x, y), place = self.centre(it), self.place_of(it.value.get('codeptr'))
            told = title(f'line {it.number}: {it.text}' + f'\nat {place}' * bool(place))
            if it.number == self.found.line:
                self.add('circle', told, class_='record named', id='named', cx=x, cy=y, r=7)
            else:
                is_shown = it.number in shown
                self.add('circle', told, class_='record' + ' shown' * is_shown, cx=x, cy=y, r=5 if is_shown else 3)

    def left_out(self):
        """The gaps, and what is left out in them."""
        for left, left_out in self.gaps:
            told = title(f'{left_out:,} records left out')
            self.add('rect', told, class_='gap', x=left, y=self.top - 8, width=GAP, height=self.height - self.top + 8)
            for at, text in enumerate((f'{left_out:,} records', 'left out')):
                self.add('text', text, class_='left-out', x=left + GAP // 2, y=self.top + LANE // 2 - 10 + ROW * at)

    def texts(self):
        """The labels, each with a line down to its record, that of the named one to the end of the sheet."""
        lines, texts = [], []
        for it in self.labels:
            (x, down), y = self.centre(it.record), ROW * (it.row + 1) - 4
            lines.append(element('line', class_='at' if it.is_named else 'leader', x1=x, y1=y - 10, x2=x,
                                 y2=self.height if it.is_named else down))
            texts.append(element('text', escape(it.text), class_='label' + ' named' * it.is_named, x=it.left, y=y))
        self.parts += lines + texts

    def drawn(self):
        """Returns the drawing."""
        waits = waits_of(self.chosen)
        self.lanes()
        self.left_out()
        self.waits(waits)
        self.texts()
        self.arrows(waits)
        self.points()
        return (f'<svg xmlns="http://www.w3.org/2000/svg" width="{self.width}" height="{self.height}">{HEADS}'
                + '\n'.join(self.parts) + '</svg>')


HEADS = '<defs>' + ''.join(
    f'<marker id="{name}" markerWidth="8" markerHeight="8" refX="7" refY="3" orient="auto" markerUnits="userSpaceOnUse">'
    f'<path d="M0,0 L7,3 L0,6 z" fill="{colour}"/></marker>'
    for name, colour in (('head', '#888'), ('head-waited', '#5a9a5a'), ('head-lit', '#c62828'))) + '</defs>'


def labels_of(found, left, width):
    """Returns a text for each record of the answer that is shown, in rows in which none hides another; those near the right
    side end at their records."""
    shown = sorted(((left[it.number], part, it) for part, it in found.shown if it.number in left), key=lambda it: it[0])
    ends, labels = [], []
    for x, part, it in shown:
        is_named = it.number == found.line
        text = f'line {it.number}: {found.event if is_named and found.event else part}'
        length = LETTER * len(text) + 8
        begin = x + 4 if x + length < width else x - length
        row = next((row for row, end in enumerate(ends) if end < begin), len(ends))
        ends[row:row + 1] = [max(x, begin + length) + 8]
        labels.append(Label(it, begin, row, text, is_named))
    return labels


def lines_between(begin, end):
    """The lines of two records, of which each may be missing, in words."""
    if begin and end:
        return f', lines {begin.number} to {end.number}'
    return f', from line {begin.number}' if begin else f', up to line {end.number}' if end else ''


# An open root of a region inside another: how far to the left its frame begins, the record that begins it, the one that
# begins the region, and the task that the thread ran before.
Frame = namedtuple('Frame', 'left root fork outer')


class Lane:
    """What a group shows of one thread."""

    def __init__(self, sheet, thread, group, sides):
        self.sheet, self.trace, self.sides, self.walk = sheet, sheet.chosen.trace, sides, group.walks[thread]
        self.records, self.top, self.forks = [it for it in group.records if it.thread == thread], sheet.tops[thread], {}
        self.frames = [self.frame(sides[0], self.trace.record(it.number), it.outer)
                       for it in self.walk.opened[-MOST_FRAMES:]]
        ranks, last = sheet.chosen.ranks, self.trace.contents.threads[thread][-1]
        self.goes_on = ranks[last] > ranks[group.records[-1].number]

    def draw(self):
        """Draws what the thread runs, from each record to the one where that changes, and its frames."""
        begin = None
        for it in self.records:
            before = self.walk.current
            self.take(it)
            if self.walk.current != before:
                self.bar(before, begin, it)
                begin = it
        if self.goes_on:
            self.bar(self.walk.current, begin, None)
        elif self.records and begin is not self.records[-1]:
            self.bar(self.walk.current, begin, self.records[-1])
        # a thread without any record from here on has no frame
        for frame in self.frames if self.goes_on or self.records else ():
            self.region(frame, None)

    def take(self, it):
        """Goes past a record."""
        if it.forked:
            self.forks[it.forked[0]] = it
        if it.begun_root is not None:
            self.frames.append(self.frame(self.sheet.left[it.number] - 5, it, self.walk.current))
        elif it.ended_root is not None and self.frames:
            self.region(self.frames.pop(), it)
        if it.begun_root is not None or it.ended_root is not None or it.started is not None:
            self.walk.take(it.number, it.value)

    def frame(self, left, root, outer):
        fork = self.trace.fork(root.joined.parallel) if root.joined else self.forks.get(outer)
        return Frame(left, root, fork, outer)

    def region(self, frame, end):
        """Draws a frame around a root of a region inside another, up to its end or to the side of the group."""
        fork = frame.fork
        begun_by = self.trace.maker(fork.forked[0]) if fork and fork.nests else None
        if begun_by is None or begun_by.begun_initial is not None:
            return
        told = f'region {fork.forked[1]}, begun by task {fork.forked[0]} on line {fork.number}'
        if frame.outer is not None:
            told += f'; task {frame.outer} ' + (f'goes on behind line {end.number}' if end else 'does not go on here')
        right, inset = self.sheet.left[end.number] if end else self.sides[1], 2 * min(len(self.frames), MOST_FRAMES)
        self.sheet.has_frames = True
        self.sheet.add('rect', title(told), class_='region', x=frame.left, y=self.top + 1 + inset,
                       width=right - frame.left, height=LANE - 10 - 2 * inset, rx=4)

    def bar(self, task, begin, end):
        """Draws that the task runs between two records, of which each may stand outside the group."""
        if task is None:
            return
        left = self.sheet.left[begin.number] if begin else self.sides[0]
        width = max((self.sheet.left[end.number] if end else self.sides[1]) - left, STEP // 2)
        kind = 'bar root' if self.sheet.is_root(task) else 'bar' + self.sheet.is_lit(task)
        self.sheet.add('rect', title(f'task {task}' + lines_between(begin, end)), class_=kind, x=left, y=self.top + 12,
                       width=width, height=24, rx=3)
        self.sheet.bars.append((kind, left, self.top + 12, width))
        if width > 8 * len(str(task)):
            self.sheet.add('text', task, x=left + 4, y=self.top + 10)
