"""Runs of a program in which some calls of the C library fail, by the library that refuse.c makes."""
import bisect
import contextlib
import os
import subprocess
import tempfile
from collections import namedtuple

HERE = os.path.dirname(os.path.abspath(__file__))
LIMIT = 20
HUNG = 'hung'
# What a run printed, its exit status (minus a signal, or HUNG), and the first call that failed for good: its kind, as
# 'allocation', and the functions of the program that it may have been called from, the innermost first. Both are empty
# where no call failed. The amount is the size of the allocation, or how many bytes were read or written before.
Run = namedtuple('Run', 'out err status refused callers amount', defaults=[0])


@contextlib.contextmanager
def library():
    """The library's path, while it is there."""
    with tempfile.TemporaryDirectory() as folder:
        made = os.path.join(folder, 'refuse.so')
        words = ['cc', '-O2', '-Wall', '-Wextra', '-Werror', '-shared', '-fPIC']
        subprocess.run([*words, '-o', made, os.path.join(HERE, 'refuse.c')], check=True)
        yield made


def functions_of(program):
    """Where the program's functions begin, in rising order, and their names."""
    listed = subprocess.run(['nm', '-n', '--defined-only', program], stdout=subprocess.PIPE, check=True).stdout.decode()
    found = [line.split(' ', 2) for line in listed.splitlines()]
    code = [(int(place, 16), name) for place, kind, name in found if kind in 'tTwW']
    return [place for place, _ in code], [name for _, name in code]


def callers_of(functions, places):
    """The names of the functions that these places are in."""
    begins, names = functions
    return [names[bisect.bisect(begins, int(place, 16)) - 1] for place in places]


def run(made, functions, words, data, failing):
    """Runs the program of these words on this input, where calls fail as these settings say."""
    told, tell = os.pipe()
    with open(told, 'rb') as told_by:
        with open(tell, 'wb'):
            env = {**os.environ, 'LD_PRELOAD': made, 'REFUSE_TOLD': str(tell)}
            env.update({name: str(value) for name, value in failing.items()})
            try:
                ended = subprocess.run(words, input=data, stdout=subprocess.PIPE, stderr=subprocess.PIPE, env=env,
                                       pass_fds=[tell], timeout=LIMIT)
            except subprocess.TimeoutExpired as error:
                return Run(error.stdout or b'', error.stderr or b'', HUNG, 'hung', [])
        line = told_by.read().decode().split()
    refused, amount, places = (line[0], int(line[2]), line[3:]) if line else ('', 0, [])
    return Run(ended.stdout, ended.stderr, ended.returncode, refused, callers_of(functions, places), amount)
