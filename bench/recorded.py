"""Records programs on four threads: compiles the recorder of ompt/ and programs of bench/, and runs these."""
import os
import subprocess
import time

from common import HERE, TOP

OMPT = os.path.join(TOP, 'ompt')
THREADS = 4
# The programs that files are recorded of, by what each does: its name and its word.
PROGRAMS = {
    'fib of 22': ('fib', '22'),
    'product of 32 x 32 blocks': ('matrix', '32'),
    'wavefront of 36 x 36 blocks': ('wavefront', '36'),
}


def compile_all(folder, names):
    """Compiles the recorder, and these programs into the folder."""
    subprocess.run([os.path.join(OMPT, 'build')], check=True)
    for name in names:
        paths = [os.path.join(HERE, f'{name}.c'), '-o', os.path.join(folder, name)]
        subprocess.run(['clang', '-O2', '-fopenmp', *paths], check=True)


def run(folder, words, file=None):
    """The seconds of the parallel region and of the whole process, and its peak memory in bytes. Where there
    is a file, the run is recorded to it."""
    told = {**os.environ, 'OMP_NUM_THREADS': str(THREADS)}
    if file:
        told |= {'TASKAUDIT_FILE': file, 'OMP_TOOL_LIBRARIES': os.path.join(OMPT, 'out/libtaskaudit_ompt.so')}
        # a recorder replaces no file
        if os.path.exists(file):
            os.remove(file)
    begin = time.perf_counter()
    command = [os.path.join(folder, words[0]), *words[1:]]
    program = subprocess.Popen(command, env=told, stdout=subprocess.PIPE, text=True)
    printed = program.stdout.read()
    _, status, used = os.wait4(program.pid, 0)
    assert status == 0
    return float(printed), time.perf_counter() - begin, used.ru_maxrss * 1024


def lines_of(file):
    """The lines of a file, without their line feeds."""
    with open(file, encoding='utf-8') as it:
        return it.read().splitlines()


def recordings(folder):
    """Yields for each program what it does, and the lines of a run of it as they were recorded."""
    compile_all(folder, [name for name, _ in PROGRAMS.values()])
    file = os.path.join(folder, 'recorded.jsonl')
    for title, words in PROGRAMS.items():
        run(folder, words, file)
        yield title, lines_of(file)
