"""What the processes of a run recorded, by the list that each adds its lines to, and why nothing was recorded."""
import os
import re
import subprocess
import time
from collections import namedtuple

# The words of a list by which a process begins its file: one that it writes at the end, or while it runs, or a pipe
# that it opens when it is read. The words by which it ends it.
BEGINS, ENDS = ('begin', 'live', 'pipe'), ('end', 'failed')
# What the file beside one that was written while the process ran has behind the name (tools/recording.py).
ENDING = '.end'
# No line of a file is longer.
LONGEST_LINE = 1 << 16
# How long processes may take to end after a signal.
SECONDS = 10
LEFT = 'it was killed, or left by _exit or exec, before it could write its file'
RUNNING = 'it still runs, and writes its file when it ends'
STATIC = ('the program is linked statically, with OpenMP in it, so no recorder can be loaded; link it to the shared runtime,'
          ' without -static')
# Symbols and versions of them that a program needs and its libraries lack, as `ldd -r` tells.
LACKING = re.compile(r"version [`']([^']+)' not found|undefined symbol: (\w+)")


class Process(namedtuple('Process', 'number program file reason')):
    """A process that began to record: its number and its program, by its path; the file if it is whole, or why there is
    none."""

    @property
    def name(self):
        return f'process {self.number} ({os.path.basename(self.program)})'

    def prefix(self, is_only):
        """What stands before a sentence on it, where it is not the only one."""
        return '' if is_only else f'{self.name}: '


def is_running(number):
    """Whether there is such a process that has not ended."""
    try:
        with open(f'/proc/{number}/stat', 'rb') as it:
            return it.read().rpartition(b')')[2].split()[0] not in (b'Z', b'X')
    except OSError:
        return False


def lines_from(path, begin):
    """The lines of the list from this byte on, each a word, the process and two texts; and where they end."""
    with open(path, 'rb') as it:
        it.seek(begin)
        told = it.read()
    whole = told[:told.rfind(b'\n') + 1]
    lines = [line.split('\t') for line in whole.decode('utf-8', 'surrogateescape').split('\n')]
    return [it for it in lines if len(it) == 4], begin + len(whole)


def lines_of(path):
    return lines_from(path, 0)[0]


def wait_for_others(path):
    """Gives the processes that record time to end, as after a signal to all."""
    ends = time.monotonic() + SECONDS
    while time.monotonic() < ends:
        lines = lines_of(path)
        done = {part for word, _, part, _ in lines if word in ENDS}
        if not any(is_running(number) for word, number, part, _ in lines if word in BEGINS and part not in done):
            return
        time.sleep(0.01)


def processes(path):
    """The processes that recorded, in the order in which they began; and why others could not, in sentences."""
    lines = lines_of(path)
    began = {part: (int(number), program) for word, number, part, program in lines if word in BEGINS}
    live = {part for word, _, part, _ in lines if word == 'live'}
    ended = {part: file for word, _, part, file in lines if word == 'end'}
    failed = [(int(number), what, why) for word, number, what, why in lines if word == 'failed']
    unwritten = {what: why for _, what, why in failed if what in began}
    found = [Process(number, program, *(told_of_live if part in live else told_of)(number, part, ended, unwritten))
             for part, (number, program) in began.items()]
    return found, [f'process {number}: {what}: {why}' for number, what, why in failed if what not in began]


def told_of(number, part, ended, unwritten):
    """The file of a process, and why it has none."""
    return ended.get(part), reason_of(number, part, unwritten.get(part))


def told_of_live(number, part, ended, unwritten):
    """The same where the file was written while the process ran: what there is of it counts. A process that was killed may
    have cut the last line."""
    if part in unwritten and not os.path.exists(part + ENDING):
        if os.path.isfile(part):
            os.remove(part)
        return None, unwritten[part]
    if os.path.isfile(part) and part not in ended and not is_running(number):
        cut_line(part)
    return part, None


def cut_line(path):
    """Cuts what is behind the last end of a line."""
    with open(path, 'rb+') as it:
        size = it.seek(0, os.SEEK_END)
        begin = max(0, size - LONGEST_LINE)
        it.seek(begin)
        it.truncate(begin + it.read().rfind(b'\n') + 1)


def reason_of(number, part, failure):
    """Why a process that began has no file, if it has none; what there is of it is removed."""
    if not os.path.exists(part):
        return failure or LEFT
    if not failure and is_running(number):
        return RUNNING
    os.remove(part)
    return failure or LEFT


def libraries_of(program, environment=None):
    """The shared libraries that the program is linked to, each with the file that is loaded for it; none for a script."""
    ran = subprocess.run(['ldd', program], stdout=subprocess.PIPE, stderr=subprocess.DEVNULL, text=True, env=environment)
    return {name: file or name for name, file in re.findall(r'^\s*(\S+)(?: => (\S+))?', ran.stdout, re.M)}


def is_gcc(libraries):
    return any(it.startswith('libgomp.so') for it in libraries)


def is_llvm(libraries):
    return any(re.match(r'lib(omp|iomp5)[.\d-]*so', it) for it in libraries)


def is_static_openmp(file):
    """Whether the file is a program without shared libraries, which has OpenMP in it."""
    return begins_with(file, b'\x7fELF') and any(has_word(file, it) for it in (b'GOMP_parallel', b'__kmpc_fork_call'))


def begins_with(file, word):
    try:
        with open(file, 'rb') as it:
            return it.read(len(word)) == word
    except OSError:
        return False


def has_word(file, word):
    """Whether the word is in the file, as the name of a symbol is."""
    try:
        with open(file, 'rb') as it:
            return word in it.read()
    except OSError:
        return False


def lacking(program, environment):
    """The versions of symbols that the program needs and its libraries lack, without which it does not start, and the
    symbols without which it starts."""
    ran = subprocess.run(['ldd', '-r', program], stdout=subprocess.PIPE, stderr=subprocess.STDOUT, text=True,
                         env=environment)
    found = LACKING.findall(ran.stdout)
    return [[*dict.fromkeys(filter(None, some))] for some in ([it[0] for it in found], [it[1] for it in found])]


def sentence_on_lacking(symbols):
    return (f"LLVM's runtime, under which the program is to be recorded, lacks {', '.join(symbols)}: this program runs under"
            " GCC's own runtime alone (--runtime libgomp)")


def is_front(environment):
    """Whether the recorder stands in front of the runtime of programs that gcc compiled."""
    return 'libtaskaudit_gomp' in environment.get('LD_PRELOAD', '')


def reason_for_nothing(program, environment, status):
    """Why a run recorded nothing, where no process said so."""
    libraries = libraries_of(program, environment)
    if is_gcc(libraries) and is_front(environment):
        return ('the program ended before it used OpenMP' if status else
                'this program used no OpenMP: it called no function of its runtime')
    symbols = lacking(program, environment)[1] if is_gcc(libraries) and status else []
    if symbols:
        return sentence_on_lacking(symbols)
    if has_word(program, b'ompt_start_tool'):
        return ('the program has a tool of OMPT in it (ompt_start_tool), and the runtime takes no other; build the tool'
                ' as a library, and name that in OMP_TOOL_LIBRARIES: then both run')
    runtime = next((it for it in libraries if is_gcc([it]) or is_llvm([it])), None)
    if runtime and not has_word(libraries[runtime], b'ompt_start_tool'):
        return f'the runtime of the program, {libraries[runtime]}, has no OMPT'
    if status:
        return 'the program ended before it used OpenMP'
    if runtime:
        return 'this program used no OpenMP: its runtime was never started'
    if libraries:
        return 'this program used no OpenMP: it is linked to no OpenMP runtime, and loaded none with OMPT'
    return ('no runtime with OMPT was loaded: the program used no OpenMP, or is linked statically (no tool can be'
            ' loaded then), or it is a script whose programs used none')
