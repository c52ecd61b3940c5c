"""Runs of one program, one after another, until one of them has to be looked at; and how they are shaken."""
import os
from collections import Counter, namedtuple

from outcomes import Outcome, counts_in_words
from recording import ENDING, TAIL, Recording

# The greatest number that a seed may be.
GREATEST = 2**63 - 1
INPUT = 0


class Shaking(namedtuple('Shaking', 'seed run')):
    """By which seed runs are shaken; and as which run each of them, where that is given."""

    def of_run(self, number):
        """The same of this run, as the recorder and the option --shake read it."""
        return f'{self.seed}:{number if self.run is None else self.run}'


def shaking(word):
    """Reads SEED or SEED:RUN; None where it is neither."""
    parts = word.split(':')
    if len(parts) > 2 or not all(it.isdecimal() and it.isascii() and int(it) <= GREATEST for it in parts):
        return None
    return Shaking(int(parts[0]), int(parts[1]) if len(parts) == 2 else None)


def way_of(files):
    """The way in which a run was shaken, as its files say; or None."""
    told = (Recording(it).told.get('shake') for it in files)
    return next((it.get('way') for it in told if isinstance(it, dict)), None)


def in_words(shaken, files):
    """How a run was shaken: the option by which it can be tried again, and the way."""
    way = way_of(files)
    return f'--shake {shaken}' + (f', {way}' if way else '')


class Kept:
    """What is said of a run, until it is known whether somebody has to read it."""

    def __init__(self, outer):
        self.outer, self.text = outer, []

    def write(self, text):
        self.text.append(text)

    def say(self, text):
        self.write(f'taskaudit-run: {text}\n')

    def tell(self):
        self.outer.write(''.join(self.text))

    def __enter__(self):
        return self

    def __exit__(self, error, *_):
        if error:
            self.tell()


class Input:
    """The standard input of the program, which each run reads from the same byte on, where it is a file."""

    def __init__(self):
        try:
            self.at = os.lseek(INPUT, 0, os.SEEK_CUR)
        except OSError:
            self.at = None

    def rewind(self):
        if self.at is not None:
            os.lseek(INPUT, self.at, os.SEEK_SET)


class Repetition:
    """Several runs: how many had which outcome, and the first that has to be looked at."""

    def __init__(self, asked, log):
        self.asked, self.log, self.input = asked, log, Input()
        self.counts, self.first_name = Counter(), ''
        self.first = Outcome(0, 'yes', 'recorded' if asked.no_check else 'nothing was found')

    def status(self, runs):
        """Runs the program and says what came of it; returns the exit status."""
        for number in range(1, self.asked.repeat + 1):
            self.input.rewind()
            with Kept(self.log) as kept:
                ran = runs.run(number, kept)
            self.take(number, ran, kept)
            if ran.was_told or ran.outcome.is_finding and not self.asked.keep_going:
                break
        count = self.counts.total()
        self.log.say(f'{count} run{"s" * (count != 1)}: {counts_in_words(self.counts)}; exit status {self.first.status}:'
                     f' {self.first.reason}{self.first_name}')
        return self.first.status

    def take(self, number, ran, kept):
        """Takes the outcome of a run. Only of one that has to be looked at all is said, and the files are kept."""
        outcome, name = ran.outcome, f'run {number} of {self.asked.repeat}'
        if ran.shaken:
            name += f' ({ran.shaken})'
        self.log.say(f'{name}: {outcome.word}')
        self.counts[outcome.word] += 1
        if outcome.is_finding:
            kept.tell()
            if not self.first.is_finding:
                self.first, self.first_name = outcome, f', in {name}'
        elif not self.asked.no_check:
            remove(ran.files)


def remove(files):
    """Removes the files of a run, and what is beside those that were written while it ran."""
    for it in files:
        for name in (it, it + ENDING, it + TAIL):
            if os.path.isfile(name):
                os.remove(name)
