"""The result of reading a trace file, by docs/FORMAT.md: the first faulty line and its cause, or the version and
the records. `script_files` has the model of what a JSON text is, and of the members of each callback. The limits of
records and tasks are left out: a file over these limits is too long for a mutant."""
from model import DEMANDS_NEXT
from scripts import script
from upgrade_model import finishes

VERSIONS = 1, 2, 3
LONGEST, SHORT_END, LAST_THREAD, LONGEST_PATH, MOST_DEPENDENCES = 65536, 2**32, 255, 1024, 64
SHORT = ('seq', 'seen', 'requested', 'actual', 'index')
CLAIM, TURNS = {'root': int, 'path': [int], 'kept': int}, {'prior_turn': int, 'next_turn': int}


class Fault(Exception):
    """A line that cannot be read, with its cause."""


SCRIPTS = script('script_files')


def version_of(value):
    """The version that a header gives, or None where the value is no header."""
    members = value if type(value) is dict else {}
    version = members.get('version')
    is_known = members.get('format') == 'task-credit-audit' and type(version) is int and version in VERSIONS
    return version if is_known else None


def more_members(record, version):
    """The members that a record has besides those of its callback."""
    runs_next = record['cb'] == 'task_schedule' and record['status'] in DEMANDS_NEXT
    claim, turns = CLAIM if finishes(record) else {}, TURNS if runs_next and version >= 2 else {}
    return {'seq': int, 'seen': int} | claim | turns


def is_record(value, version):
    """Whether the value has the members of a record, each of the right kind."""
    # as a call of a script, which may have one member more
    step = {name: it for name, it in value.items() if name != 'after'} if type(value) is dict else None
    return SCRIPTS.is_step(step) and all(SCRIPTS.is_right(kind, value.get(name))
                                         for name, kind in more_members(value, version).items())


def is_within(record, version):
    """Whether a record keeps its limits."""
    names = {*SCRIPTS.MEMBERS[record['cb']], *more_members(record, version)}
    path = record['path'] if 'path' in names else []
    numbers = [record[name] for name in (*SHORT, 'kept', *TURNS) if name in names] + path
    items = record['list'] if 'list' in names else []
    return (record['thread'] <= LAST_THREAD and all(it < SHORT_END for it in numbers)
            and len(path) <= LONGEST_PATH and len(items) <= MOST_DEPENDENCES)


def value_of(number, line, is_ended, version):
    """The value of a line, or a Fault; after the header, that of a record."""
    if len(line) > LONGEST:
        raise Fault(number, '4 LineTooLong')
    if line and not is_ended:
        raise Fault(number, '8 Unended')
    value = SCRIPTS.value_of(line)
    if number == 1 and version_of(value) is None:
        raise Fault(number, '3 Header')
    if value is ...:
        raise Fault(number, '5 NotJson')
    if number > 1 and not is_record(value, version):
        raise Fault(number, '6 Field')
    if number > 1 and not is_within(value, version):
        raise Fault(number, '7 Limit')
    return value


def read(data):
    """The version and the records of a file, or a Fault."""
    *lines, rest = data.split(b'\n')
    version, records = None, []
    for number, line in enumerate(lines, 1):
        value = value_of(number, line, True, version)
        if number == 1:
            version = version_of(value)
        else:
            records.append(value)
    if rest or not lines:
        value_of(len(lines) + 1, rest, False, version)
    return version, records


def fault_of(data):
    """The line of the program that names the first fault, or None where there is none."""
    try:
        read(data)
    except Fault as fault:
        return 'unreadable: line {}: {}\n'.format(*fault.args).encode()
    return None
