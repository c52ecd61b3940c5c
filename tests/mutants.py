"""Mutants of the files of tests/ and examples/, for `fuzz`: mutant NUMBER of SEED is one of these files with one to
five random changes.

A change takes a source of chance, the files, and the bytes of one; it gives other bytes, or None where it does not
apply. Some change bytes, some the lines after the header, some the members of one line, and some all records of a
file that can be read. Most mutants have only changes after which a file is often still readable (GENTLE)."""
import functools
import json
import os
import random
import re
import subprocess
import sys
from collections import Counter, namedtuple
from concurrent.futures import ThreadPoolExecutor

import mutated_lines
import reading
import upgrade_model
from changes import (CHANGES, TASKS, changed, changed_with_nesting, changed_with_turns, created_late,
                     entries_exchanged, entry_twice, finishes, flags_other, implied_turns, numbered, run_too_soon)
from reading import LONGEST, LONGEST_PATH, MOST_DEPENDENCES, SCRIPTS, VERSIONS
from scripts import script

HERE = os.path.dirname(os.path.abspath(__file__))
RUN, COMPARE = script('run'), script('compare')
# What is taken of files, and how long a mutant may get: longer ones are not changed any more.
MOST_BYTES, MOST_MUTATED = 65536, 2**18
MOST_RECORDS = 200
# The files by what can read them, and all of their lines.
Files = namedtuple('Files', 'traces scripts others lines')
Mutant = namedtuple('Mutant', 'data changes')
# What is read of a file: the version of a trace or SCRIPT, and its records.
Parsed = namedtuple('Parsed', 'version records')
SCRIPT = 'script'
# Changes after which a trace may have a cause that is rarely reported.
SELDOM = flags_other, entries_exchanged, entry_twice, created_late, run_too_soon
# What `compare` changes in a trace with turns, by its version.
CHANGED = {2: changed_with_turns, 3: changed_with_nesting}
# Members that are tasks or regions, and those of a trace that a script does not know.
IDS = (*TASKS, 'parallel')
OF_TRACES = ('seq', 'seen', 'root', 'path', 'kept', 'prior_turn', 'next_turn')


# The files

def bytes_of(case):
    """The bytes of a file, or None where there are too many."""
    if not os.path.exists(f'{case}.make'):
        data = RUN.input_of(case)
    else:
        with subprocess.Popen([sys.executable, '-B', f'{case}.make'], stdout=subprocess.PIPE,
                              stderr=subprocess.DEVNULL) as made:
            data = made.stdout.read(MOST_BYTES + 1)
            made.kill()
    return data if len(data) <= MOST_BYTES else None


def cases():
    """The files of tests/ and examples/, without their endings."""
    found = set()
    for top in (HERE, os.path.join(HERE, '../examples')):
        for folder, _, names in os.walk(top):
            stems = [os.path.splitext(os.path.join(folder, name)) for name in names]
            found |= {stem for stem, ending in stems if ending in ('.jsonl', '.short', '.make')}
    return sorted(found)


def load():
    """All files, each once."""
    with ThreadPoolExecutor(os.cpu_count() or 1) as pool:
        texts = [*dict.fromkeys(it for it in pool.map(bytes_of, cases()) if it is not None)]
    by_reader = {'trace': [], SCRIPT: [], None: []}
    for text in texts:
        parsed = parsed_of(text)
        by_reader[parsed and (SCRIPT if parsed.version == SCRIPT else 'trace')].append(text)
    lines = sorted({line for text in texts for line in text.split(b'\n')})
    return Files(by_reader['trace'], by_reader[SCRIPT], by_reader[None], lines)


def parsed_of(data):
    """What is read of a trace file or a script; None where it cannot be read."""
    try:
        return Parsed(*reading.read(data))
    except reading.Fault:
        is_script = SCRIPTS.answer_of(data)[1] == 'steps'
    return Parsed(SCRIPT, [json.loads(line) for line in data.split(b'\n')[1:-1]]) if is_script else None


def text_of(version, records):
    header = {'format': 'task-credit-audit', 'version': version}
    if version == SCRIPT:
        header = {'format': 'task-credit-script', 'version': 1}
    return ''.join(json.dumps(it, separators=(',', ':')) + '\n' for it in [header, *records]).encode()


# Changes of bytes

def some_range(chance, data):
    """Where a range of the bytes begins and ends."""
    begin = chance.randrange(len(data) + 1)
    return begin, min(len(data), begin + chance.choice([1, 1, 2, 5, 20, 200, 2000]))


def bit_flipped(chance, files, data):
    if not data:
        return None
    at = chance.randrange(len(data))
    return data[:at] + bytes([data[at] ^ 1 << chance.randrange(8)]) + data[at + 1:]


def bytes_inserted(chance, files, data):
    at = chance.randrange(len(data) + 1)
    piece = chance.choice([*mutated_lines.PIECES, bytes([chance.randrange(256)]), chance.randbytes(5), b'\n'])
    return data[:at] + piece + data[at:]


def bytes_removed(chance, files, data):
    begin, end = some_range(chance, data)
    return data[:begin] + data[end:]


def bytes_repeated(chance, files, data):
    begin, end = some_range(chance, data)
    return data[:end] + data[begin:end] * chance.choice([1, 1, 2, 30]) + data[end:]


def bytes_cut(chance, files, data):
    return data[:chance.randrange(len(data) + 1)]


def spliced(chance, files, data):
    """The first part of the file, and the last one of another."""
    other = chance.choice(chance.choice([files.traces, files.scripts, files.others]))
    return data[:chance.randrange(len(data) + 1)] + other[chance.randrange(len(other) + 1):]


def text_changed(chance, files, data):
    """One line with a change that knows JSON's punctuation."""
    lines = data.split(b'\n')
    at = chance.randrange(len(lines))
    lines[at] = mutated_lines.changed(lines[at], chance)
    return b'\n'.join(lines)


# Changes of lines

def renumbered(data):
    """The bytes, where `seq` counts the lines of each thread, if both members are there in plain form."""
    counts = Counter()

    def counted(line):
        thread = re.search(rb'"thread":(\d+)', line)
        if not thread:
            return line
        counts[thread[1]] += 1
        return re.sub(rb'"seq":\d+', b'"seq":%d' % (counts[thread[1]] - 1), line)

    return b'\n'.join(map(counted, data.split(b'\n')))


def of_lines(change):
    """A change of the lines after the header, as one of the bytes. `seq` is mostly counted anew."""
    @functools.wraps(change)
    def changed_bytes(chance, files, data):
        header, *lines = data.split(b'\n')
        if not lines or lines.pop() or not lines:
            return None
        change(chance, files, lines)
        text = b''.join(line + b'\n' for line in [header, *lines])
        return renumbered(text) if chance.random() < 0.9 else text

    return changed_bytes


@of_lines
def line_removed(chance, files, lines):
    del lines[chance.randrange(len(lines))]


@of_lines
def line_doubled(chance, files, lines):
    at = chance.randrange(len(lines))
    lines.insert(chance.choice([at, chance.randint(0, len(lines))]), lines[at])


@of_lines
def lines_exchanged(chance, files, lines):
    one, other = chance.randrange(len(lines)), chance.randrange(len(lines))
    lines[one], lines[other] = lines[other], lines[one]


@of_lines
def line_moved(chance, files, lines):
    line = lines.pop(chance.randrange(len(lines)))
    lines.insert(chance.randint(0, len(lines)), line)


@of_lines
def line_taken(chance, files, lines):
    """A line of any file is put in."""
    lines.insert(chance.randint(0, len(lines)), chance.choice(files.lines))


@of_lines
def lines_cut(chance, files, lines):
    del lines[chance.randint(0, len(lines)):]


HEADERS = [b'{"format":"task-credit-audit","version":1}', b'{"format":"task-credit-audit","version":2}',
           b'{"format":"task-credit-script","version":1}', b' {"version":1,"format":"task-credit-audit","more":[{}]}\r',
           b'{"version":7,"format":"task-credit-audit","version":2}', b'{"format":"task-credit-audit","version":3}',
           b'{"format":"task-credit-audit","version":4}',
           b'{"format":"task-credit-audit","version":1.0}', b'{"format":"task-credit-audit","version":"1"}',
           b'{"format":"task-credit-script","version":2}', b'{"format":"task-credit-script","version":3}',
           b'{"format":"task-credit-audit"}', b'{}', b'']


def header_other(chance, files, data):
    return chance.choice(HEADERS) + data[data.find(b'\n'):] if b'\n' in data else None


# Changes of the members of a line, each of which is the text of its name and that of its value

ID_END, SHORT_END = 2**64, 2**32
ENDS = {'thread': 256, **dict.fromkeys([*reading.SHORT, 'kept', *reading.TURNS], SHORT_END)}
VALUES = ('null true false 0 1 2 -1 -0 1.0 1e0 0.5 "1" "" "x" [] {} [0] [null] [[0]] {"a":0} 01 +1 .5 1. 1e999 -1e999 '
          '1e-999 1.7976931348623157e308 1.7976931348623159e308 NaN Infinity "\\u0000" "\\ud800" "\\udc00\\ud800" '
          '"\\ud834\\uDD1E" "\\\\ud800" "\\x" "\t" 4294967295 4294967296 18446744073709551615 18446744073709551616'
          ).split(' ')
TABLES = {'cb': [*SCRIPTS.MEMBERS], 'status': [*SCRIPTS.STATUSES], 'endpoint': ['begin', 'end', 'beginend'],
          'kind': [*SCRIPTS.REGIONS, 'initial', 'worker', 'other', 'unknown'], 'type': SCRIPTS.DEPENDENCES,
          'flags': [*SCRIPTS.TASK_FLAGS, *SCRIPTS.CANCEL_FLAGS]}
NAMES = sorted({name for names in TABLES.values() for name in names})
MORE = '"more" "turns" "after" "seq" "prior_turn" "next_turn" "root" "path" "kept" "CB" ""'.split()
ITEM = '{"type":"%s","var":%d}'


def members_of(line):
    """The members of a line, or None where it is no object."""
    try:
        value = json.loads(line.decode())
        members = value.items() if isinstance(value, dict) else ()
        return [[json.dumps(it, ensure_ascii=False, separators=(',', ':')) for it in pair] for pair in members] or None
    except (ValueError, RecursionError):
        return None


def of_members(change):
    """A change of the members of a line, as one of the bytes."""
    @functools.wraps(change)
    def changed_bytes(chance, files, data):
        lines = data.split(b'\n')
        # the header seldom
        at = chance.randrange(len(lines)) or chance.randrange(len(lines))
        members = members_of(lines[at])
        if not members:
            return None
        change(chance, members)
        lines[at] = ('{%s}' % ','.join(f'{name}:{value}' for name, value in members)).encode(errors='surrogatepass')
        return b'\n'.join(lines)

    return changed_bytes


def number_at_its_end(chance, name):
    """The greatest number that a member may have, or one more."""
    return str(ENDS.get(name, ID_END) - chance.choice([1, 1, 0]))


@of_members
def member_removed(chance, members):
    del members[chance.randrange(len(members))]


@of_members
def member_doubled(chance, members):
    """A member occurs twice, with another value; the last one counts."""
    name, value = chance.choice(members)
    other = chance.choice([value, chance.choice(VALUES), number_at_its_end(chance, json.loads(name))])
    members.insert(chance.choice([0, 0, len(members)]), [name, other])


@of_members
def member_renamed(chance, members):
    member = chance.choice(members)
    at = chance.randrange(1, len(member[0]))
    member[0] = chance.choice([member[0][:at] + 'x' + member[0][at:], chance.choice(MORE), chance.choice(members)[0]])


@of_members
def value_other(chance, members):
    chance.choice(members)[1] = chance.choice([chance.choice(VALUES), chance.choice(members)[1]])


@of_members
def value_at_its_end(chance, members):
    """A number or the length of a list at its limit, or past it by one."""
    member = chance.choice([it for it in members if it[1][0] in '0123456789['] or members)
    name, more = json.loads(member[0]), chance.choice([0, 0, 1])
    if name == 'list':
        member[1] = '[%s]' % ','.join([ITEM % ('in', ID_END - 1)] * (MOST_DEPENDENCES + more))
    elif name == 'path':
        lists = [['0'] * (LONGEST_PATH + more), [number_at_its_end(chance, 'kept')]]
        member[1] = '[%s]' % ','.join(chance.choice(lists))
    else:
        member[1] = number_at_its_end(chance, name)


@of_members
def value_nested(chance, members):
    """Lists or objects in one another, in a member that is not known, or in place of a value."""
    depth = chance.choice([2, 50, 125, 126, 126, 126, 127, 127, 1000, 10000])
    begin, end = chance.choice([('[', ']'), ('{"":', '}')])
    value = begin * depth + '0' + end * depth
    if chance.random() < 0.8:
        members.append(['"more"', value])
    else:
        chance.choice(members)[1] = value


@of_members
def value_named(chance, members):
    """Another name of the tables, mostly of the same one, or one flag more or less."""
    known = [it for it in members if json.loads(it[0]) in TABLES]
    if not known:
        return
    member = chance.choice(known)
    table = TABLES[json.loads(member[0])] if chance.random() < 0.9 else NAMES
    if member[1][0] == '[':
        names = json.loads(member[1])
        names = names[1:] if names and chance.random() < 0.3 else [*names, chance.choice(table)]
        member[1] = json.dumps(names)
    else:
        member[1] = json.dumps(chance.choice(table))


@of_members
def number_other(chance, members):
    """A small number in place of a number."""
    member = chance.choice([it for it in members if it[1].isdigit()] or members)
    numbers = [int(it[1]) for it in members if it[1].isdigit()]
    member[1] = str(max(0, chance.choice([0, 1, 2, 3, *numbers]) + chance.choice([-1, 0, 0, 1])))


@of_members
def text_escaped(chance, members):
    """A letter of a name or of a text is written as an escape."""
    texts = [(member, place) for member in members for place in (0, 1) if member[place].lstrip('[')[:1] == '"']
    for member, place in chance.sample(texts, min(len(texts), chance.choice([1, 1, 3]))):
        letters = [at for at, it in enumerate(member[place]) if it.isascii() and (it.isalpha() or it == '_')]
        if letters and '\\' not in member[place]:
            at = chance.choice(letters)
            code = chance.choice(['\\u%04x', '\\u%04X']) % ord(member[place][at])
            member[place] = member[place][:at] + code + member[place][at + 1:]


@of_members
def members_shuffled(chance, members):
    chance.shuffle(members)


@of_members
def member_added(chance, members):
    """A member that is not known, or not there."""
    members.insert(chance.randint(0, len(members)), [chance.choice(MORE), chance.choice(VALUES)])


@of_members
def line_spaced(chance, members):
    """White space beside names and values."""
    for member in members:
        member[:] = [chance.choice(['', ' ', '\t', '\r']) + it + chance.choice(['', ' ', '\r']) for it in member]


@of_members
def line_padded(chance, members):
    """The line has as many bytes as a line may have, or one more or less."""
    length = 1 + sum(len(f'{name}:{value},'.encode(errors='surrogatepass')) for name, value in members)
    missing = LONGEST + chance.choice([-1, 0, 0, 1]) - length
    if missing > len(',"":""') and chance.random() < 0.5:
        members.insert(0, ['""', '"%s"' % ('x' * (missing - len('"":"",')))])
    else:
        members[0][0] = ' ' * missing + members[0][0]


# Changes of all records

def of_records(change):
    """A change of what is read of a file that can be read, as one of the bytes."""
    @functools.wraps(change)
    def changed_bytes(chance, files, data):
        parsed = parsed_of(data)
        found = change(chance, files, parsed) if parsed and parsed.records else None
        return found and text_of(*found)

    return changed_bytes


@of_records
def lines_merged(chance, files, parsed):
    """The lines of the threads in another order."""
    return parsed._replace(records=COMPARE.in_lines(chance, parsed.records))


def in_full(parsed):
    """The records of a trace, without members that are not known."""
    def turns(it):
        return (it['prior_turn'], it['next_turn']) if 'next_turn' in reading.more_members(it, parsed.version) else None

    return [upgrade_model.in_full(it, turns(it)) for it in parsed.records]


def threads_of(parsed):
    return sorted({it['thread'] for it in parsed.records})


def with_threads(parsed, threads):
    """The records, where these threads have other numbers, in a script also in an `after`."""
    def moved(it):
        after = {}
        if parsed.version == SCRIPT and 'after' in it:
            after = {'after': [threads.get(it['after'][0], it['after'][0]), it['after'][1]]}
        return it | {'thread': threads.get(it['thread'], it['thread'])} | after

    return [moved(it) for it in parsed.records]


def ids_of(records):
    """The tasks and regions of the records."""
    return sorted({it[name] for it in records for name in IDS if type(it.get(name)) is int})


def with_ids(records, ids):
    """The records, where these tasks and regions have other ids."""
    return [it | {name: ids.get(it[name], it[name]) for name in IDS if type(it.get(name)) is int} for it in records]


@of_records
def threads_renumbered(chance, files, parsed):
    known = threads_of(parsed)
    numbers = chance.choice([chance.sample(known, len(known)), chance.sample(range(256), len(known))])
    return parsed._replace(records=with_threads(parsed, dict(zip(known, numbers))))


@of_records
def threads_joined(chance, files, parsed):
    """Two threads are one."""
    known = threads_of(parsed)
    if len(known) < 2:
        return None
    one, other = chance.sample(known, 2)
    records = with_threads(parsed, {one: other})
    return parsed._replace(records=records if parsed.version == SCRIPT else numbered(records))


@of_records
def ids_other(chance, files, parsed):
    """The ids in another order, or others of 64 bits."""
    known = ids_of(parsed.records)
    wide = sorted({0, ID_END - 1, *(chance.randrange(ID_END) for _ in known)})
    ids = dict(zip(known, chance.sample(chance.choice([known, wide]), len(known))))
    return parsed._replace(records=with_ids(parsed.records, ids))


@of_records
def length_moved(chance, files, parsed):
    """A ledger length, or all from a record on, is one more or less."""
    if parsed.version == SCRIPT:
        return None
    at, more = chance.randrange(len(parsed.records)), chance.choice([-1, 1])
    end = chance.choice([at + 1, at + 1, len(parsed.records)])
    records = [it | {'seen': max(0, it['seen'] + more * (at <= i < end))} for i, it in enumerate(parsed.records)]
    return parsed._replace(records=records)


@of_records
def something_changed(chance, files, parsed):
    """A change of those that `compare` makes."""
    if parsed.version == SCRIPT:
        return None
    records = in_full(parsed)
    if parsed.version in CHANGED and chance.random() < 0.7:
        return parsed._replace(records=CHANGED[parsed.version](chance, records))
    records = changed(chance, records, chance.choice([CHANGES, SELDOM]))
    return parsed._replace(records=implied_turns(records) if parsed.version in CHANGED else records)


def in_version(parsed, version):
    """The records of a trace in this version, with turns by the order of its lines; or the steps of a script."""
    records = in_full(parsed)
    if version == SCRIPT:
        return [{name: it for name, it in record.items() if name not in OF_TRACES} for record in records]
    return implied_turns(records) if version > 1 and parsed.version == 1 else records


@of_records
def version_other(chance, files, parsed):
    """A trace of another version, or a script."""
    if parsed.version == SCRIPT:
        return None
    version = chance.choice([*(it for it in VERSIONS if it != parsed.version), SCRIPT])
    return Parsed(version, in_version(parsed, version))


@of_records
def another_beside(chance, files, parsed):
    """Another trace comes after it, or between its lines, with threads, tasks, regions and entries of its own."""
    other = parsed_of(chance.choice(files.traces))
    if parsed.version == SCRIPT or len(parsed.records) + len(other.records) > MOST_RECORDS:
        return None
    records = in_full(parsed)
    entries, used, threads = sum(map(finishes, records)), {*ids_of(records)}, threads_of(other)
    free = chance.sample(sorted({*range(256)} - {*threads_of(parsed)}), len(threads))
    moved = Parsed(parsed.version, in_version(other, parsed.version))
    moved = with_threads(moved, dict(zip(threads, free)))
    ids = dict(zip(ids_of(moved), (it for it in range(ID_END) if it not in used)))
    records += [it | {'seen': it['seen'] + entries} for it in with_ids(moved, ids)]
    return parsed._replace(records=COMPARE.in_lines(chance, records) if chance.random() < 0.5 else records)


@of_records
def steps_linked(chance, files, parsed):
    """Some steps of a script are made after earlier ones."""
    if parsed.version != SCRIPT:
        return None
    places, counts = [], Counter()
    for it in parsed.records:
        if places and chance.random() < 0.3:
            it['after'] = chance.choice(places)
        places.append([it['thread'], counts[it['thread']]])
        counts[it['thread']] += 1
    return parsed


# The mutants

BYTES = dict.fromkeys([bit_flipped, bytes_inserted, bytes_removed, bytes_repeated, bytes_cut, spliced], 1)
LINES = dict.fromkeys([line_removed, line_doubled, lines_exchanged, line_moved, lines_cut], 1)
MEMBERS = {member_doubled: 1, value_at_its_end: 1, value_nested: 1, member_added: 1, value_named: 2, number_other: 3}
FORMS = dict.fromkeys([text_escaped, members_shuffled, line_spaced], 2)
RECORDS = {lines_merged: 4, threads_renumbered: 3, threads_joined: 1, ids_other: 3, length_moved: 4,
           something_changed: 10, version_other: 5, another_beside: 3, steps_linked: 4}
FAULTY = dict.fromkeys([line_taken, header_other, member_removed, member_renamed, value_other], 2)
GENTLE = LINES | MEMBERS | FORMS | RECORDS
ALL = GENTLE | BYTES | FAULTY | {text_changed: 3, value_at_its_end: 4, line_padded: 4}


def once_changed(chance, files, data, kinds):
    """The bytes with a change of these kinds that applies, and its name."""
    for change in chance.choices([*kinds], [*kinds.values()], k=20):
        found = change(chance, files, data)
        if found not in (None, data):
            return found, [change.__name__]
    return data, []


def mutant(files, seed, number):
    """The mutant of this number, and which changes were made."""
    chance = random.Random(f'{seed} {number}')
    data = chance.choice(chance.choices(files[:3], [16, 4, 1])[0])
    kinds, changes = chance.choices([GENTLE, ALL], [2, 1])[0], []
    for _ in range(chance.choices(range(1, 6), [5, 4, 3, 2, 1])[0]):
        if len(data) <= MOST_MUTATED:
            data, names = once_changed(chance, files, data, kinds)
            changes += names
    return Mutant(data, changes)
