"""The environment in which taskaudit-run starts a program: the recorder as a tool of LLVM's runtime, beside another tool
where one is named; and for programs that gcc compiled the recorder that stands in front of their own runtime, or LLVM's
runtime under the name of GCC's."""
import glob
import os
import re
import tempfile

from outcomes import NOT_RECORDED, End
from runs import STATIC, is_gcc, is_llvm, is_static_openmp, lacking, libraries_of, sentence_on_lacking

OUT = os.path.join(os.path.dirname(os.path.realpath(__file__)), 'out')
RECORDER, BESIDE, OF_GCC = 'libtaskaudit_ompt.so', 'libtaskaudit_beside.so', 'libtaskaudit_gomp.so'
# The runtimes of programs that gcc compiled: their own, which is the default, or LLVM's.
RUNTIMES_OF_GCC = LIBGOMP, LIBOMP = 'libgomp', 'libomp'
# Where LLVM's runtime is for programs that gcc compiled; TASKAUDIT_LIBOMP names another one.
RUNTIMES = '/usr/lib/llvm-*/lib/libomp.so.5'


def from_the_root(file):
    """The pattern with the current folder before it, in which a % is no part of the pattern."""
    return file if file.startswith('/') else os.path.join(os.getcwd().replace('%', '%%'), file)


def find_runtime():
    """The newest of LLVM's runtimes, or None."""
    newest = max(glob.glob(RUNTIMES), key=lambda it: int(re.search(r'llvm-(\d+)', it)[1]), default=None)
    return os.environ.get('TASKAUDIT_LIBOMP') or newest


def library(name):
    return os.path.join(OUT, name)


def other_tools():
    """The tools that are named already; within another taskaudit-run those that were named there."""
    named = os.environ.get('OMP_TOOL_LIBRARIES', '')
    is_within = any(os.path.basename(it) in (RECORDER, BESIDE) for it in named.split(':'))
    return os.environ.get('TASKAUDIT_TOOL_LIBRARIES', '') if is_within else named


def preloaded(first):
    """What is loaded before a program, with this library first."""
    others = [it for it in re.split('[ :]+', os.environ.get('LD_PRELOAD', '')) if os.path.basename(it) != OF_GCC]
    return ':'.join(filter(None, [first, *others]))


class Place:
    """A folder that is there while a program runs and is audited, and the environment of that: the list of its files;
    if it is watched, the pipes of its processes; and where the program has to find them, LLVM's runtime, or the
    recorder that stands in front of GCC's."""

    def __init__(self, told, runtime, is_front=False, is_watched=False):
        self.folder = tempfile.TemporaryDirectory(prefix='taskaudit-', ignore_cleanup_errors=True)
        self.list = os.path.join(self.folder.name, 'list')
        self.told = {**told, 'TASKAUDIT_RUN': self.list}
        with open(self.list, 'wb'):
            pass
        if is_watched:
            self.told['TASKAUDIT_WATCH'] = os.path.join(self.folder.name.replace('%', '%%'), 'pipe.%p.%r.jsonl')
        if runtime:
            os.symlink(os.path.abspath(runtime), os.path.join(self.folder.name, 'libgomp.so.1'))
            path = filter(None, [self.folder.name, os.environ.get('LD_LIBRARY_PATH')])
            self.told['LD_LIBRARY_PATH'] = ':'.join(path)
        if is_front:
            self.told['LD_PRELOAD'] = preloaded(self.named(library(OF_GCC)))

    def named(self, path):
        """A path of this library without a blank or a colon, which end the name of a library that is loaded before."""
        if not re.search('[ :]', path):
            return path
        link = os.path.join(self.folder.name, os.path.basename(path))
        os.symlink(path, link)
        return link

    def __enter__(self):
        return self

    def __exit__(self, *_):
        self.folder.cleanup()


class Surroundings:
    """What all runs of the program have."""

    def __init__(self, asked, program, log):
        self.log, self.is_watched = log, asked.watch
        self.told = {**os.environ, 'OMP_TOOL': 'enabled', 'OMP_TOOL_LIBRARIES': library(RECORDER),
                     'TASKAUDIT_PARENT': str(os.getpid())}
        # that of a taskaudit-run around this one
        self.told.pop('TASKAUDIT_WATCH', None)
        if asked.time:
            self.told['TASKAUDIT_TIME'] = '1'
        if not asked.watch:
            self.told['TASKAUDIT_FILE'] = from_the_root(asked.o)
        if asked.live and not asked.watch:
            self.told['TASKAUDIT_LIVE'] = '1'
        if os.environ.get('OMP_TOOL') == 'disabled':
            log.say('OMP_TOOL=disabled is set to enabled for this run')
        self.add_other_tool()
        libraries = libraries_of(program)
        if not libraries and is_static_openmp(program) and not asked.allow_none:
            raise End(NOT_RECORDED, STATIC)
        self.runtime = None
        # programs that gcc compiled may also be started by a script
        self.is_front = asked.runtime == LIBGOMP and (is_gcc(libraries) or not is_llvm(libraries))
        if asked.runtime == LIBOMP:
            self.runtime = self.runtime_for(program, libraries, asked.allow_none)

    def add_other_tool(self):
        """A tool that is named already runs too."""
        others = other_tools()
        if not others:
            return
        if not os.path.exists(library(BESIDE)):
            raise End(NOT_RECORDED, f"OMP_TOOL_LIBRARIES names another tool, {others}, and LLVM's header"
                                    ' ompt-multiplex.h, by which both can run, is not there; install libomp-dev, or unset'
                                    ' OMP_TOOL_LIBRARIES')
        self.told |= {'OMP_TOOL_LIBRARIES': library(BESIDE), 'TASKAUDIT_TOOL_LIBRARIES': others}
        self.log.say(f'{others} runs beside the recorder, as OMP_TOOL_LIBRARIES names it')

    def runtime_for(self, program, libraries, is_allowed_none):
        """LLVM's runtime, where programs that gcc compiled are to find it, also those that a script starts; or None."""
        runtime = find_runtime()
        if is_gcc(libraries) and not runtime:
            raise End(NOT_RECORDED, "the program was compiled by gcc, and LLVM's runtime, under which it is to be recorded, is"
                                    ' not there (Debian: libomp-dev)')
        if not runtime or not is_gcc(libraries):
            return None if is_llvm(libraries) else runtime
        with Place(self.told, runtime) as place:
            versions = lacking(program, place.told)[0]
        if versions and not is_allowed_none:
            raise End(NOT_RECORDED, sentence_on_lacking(versions))
        if versions:
            self.log.say(f'{sentence_on_lacking(versions)}; it runs so, and nothing is recorded')
        return None if versions else runtime

    def place(self, shaking=None):
        """A place for one run, which is shaken so."""
        told = {**self.told, 'TASKAUDIT_SHAKE': shaking} if shaking else self.told
        return Place(told, self.runtime, self.is_front, self.is_watched)
