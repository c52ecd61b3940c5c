"""The names of the files that taskaudit-run writes itself, by the pattern of -o, as the recorder makes them."""
import itertools
import os
import re

DEFAULT_FILE = 'taskaudit.%n.%p.jsonl'


def name_of(pattern, number, program, rank):
    """The name that the pattern gives to a file of this process."""
    parts = {'p': str(number), 'n': plain(os.path.basename(program)), 'r': plain(rank), '%': '%'}
    return re.sub('%(.)', lambda it: parts[it[1]], pattern)


def plain(name):
    """The name without a folder, a blank or an end of a line."""
    return re.sub(rb'[^!-.0-~]', b'_', os.fsencode(name)).decode()


def names_process(pattern):
    return 'p' in re.findall('%(.)', pattern)


def make_new(name, number=None, buffering=-1):
    """Makes a file of this name, and returns it open; where the name is taken, with the number of the process behind it, if
    one is given, or a count."""
    numbered = name if number is None else f'{name}.{number}'
    others = (f'{numbered}.{count}' for count in itertools.count(2))
    for it in itertools.chain(dict.fromkeys((name, numbered)), others):
        try:
            return open(it, 'xb', buffering)
        except FileExistsError:
            continue
