"""Which program audits a file: the one of this checkout, or one that is installed."""
import os
import shutil

TOP = os.path.dirname(os.path.dirname(os.path.realpath(__file__)))
SCRIPT = os.path.join(TOP, 'taskaudit')
PROGRAM = os.path.join(TOP, 'crates/taskaudit/out/taskaudit')
SOURCES = ('src', 'specs')
NOT_READY = ('there is no program to audit with: none is on the PATH, and that of this checkout is not built;'
             ' `./taskaudit check FILE` builds it')


class NoChecker(Exception):
    """There is no program to audit with."""


def version():
    """The version of the program."""
    with open(os.path.join(TOP, 'tools/texts/version'), encoding='utf-8') as it:
        return it.readline().split()[1]


def sources():
    """Yields the files and folders that the program of this checkout is built from."""
    yield os.path.join(TOP, 'crates.txt')
    for crate in os.scandir(os.path.join(TOP, 'crates')):
        for part in SOURCES:
            for folder, _, names in os.walk(os.path.join(crate.path, part)):
                yield folder
                yield from (os.path.join(folder, name) for name in names)


def is_built():
    """Whether the program of this checkout is there, and no source changed since it was built."""
    if not os.access(PROGRAM, os.X_OK):
        return False
    built = os.stat(PROGRAM).st_mtime_ns
    return all(os.stat(it).st_mtime_ns <= built for it in sources())


def installed():
    """The program that is installed, or None."""
    found = shutil.which('taskaudit')
    return found if found and os.path.realpath(found) != SCRIPT else None


def checker_of_checkout():
    """The words that start the program of this checkout, which builds it if need be, or else the one installed."""
    return [SCRIPT if os.path.exists(SCRIPT) else installed() or 'taskaudit']


def ready_checker():
    """The words that start a program that audits at once: that of this checkout, or the one that is installed."""
    if os.path.exists(SCRIPT) and is_built():
        return [SCRIPT]
    if installed():
        return [installed()]
    raise NoChecker(NOT_READY)


def find_checker(is_unproved, is_at_once=False):
    """The words that start the program that audits, and what is to be said of it before, or None. Where it has to audit
    at once it must be built already."""
    is_checkout = os.path.exists(SCRIPT)
    if is_unproved and is_checkout and shutil.which('rt'):
        return [SCRIPT, '--unproved'], 'the audit is by a program that is compiled without proofs: NOT PROVED'
    if is_checkout and is_built():
        return [SCRIPT], None
    if installed():
        told = f'the program of this checkout is not built: {installed()} audits'
        return [installed()], told if is_checkout else None
    if is_checkout and is_at_once:
        raise NoChecker(NOT_READY)
    if is_checkout and shutil.which('rt'):
        return [SCRIPT], ('the program that audits is not built yet: behind this run it is proved and built, which takes'
                          ' 20 to 50 minutes; --unproved compiles it without proofs in two, --no-check only records')
    raise NoChecker('there is no program to audit with: neither the command rt of the Rattle kit is on the PATH, which'
                    ' builds it, nor a taskaudit that is installed; --no-check only records')
