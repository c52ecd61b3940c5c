"""What the scripts of bench/ share: where the programs are, and how a run is timed, counted and made.

Files are made by other processes where memory is measured, since a started process first has the memory of
the one that starts it.
"""

import os
import re
import subprocess
import sys
import tempfile
import threading
import time

HERE = os.path.dirname(os.path.abspath(__file__))
TOP = os.path.dirname(HERE)
PROGRAM = os.path.join(TOP, "crates", "taskaudit", "out", "taskaudit")
PROBE = os.path.join(TOP, "crates", "probe", "out", "probe")
# The words that run one layer alone, or measure calls, come behind these.
STOPWATCH = [PROBE, "stopwatch"]
HEADER = '{"format":"task-credit-audit","version":1}'
HEADER_WITH_TURNS = '{"format":"task-credit-audit","version":2}'
# The orders of a file, each with the word of traces.py for it.
ORDERS = (("in the order of time", "time"), ("one thread after another", "threads"))
# Seconds after which a run is cut.
LIMIT = 120
COUNTING = ["valgrind", "--tool=cachegrind", "--cache-sim=no", "--cachegrind-out-file=/dev/null"]
# The environment of what Valgrind counts. Some processors clear and copy a long block by one instruction, and
# Valgrind counts it once for each byte. glibc uses it from these lengths on, so never: a count is then the same
# on each of these processors.
NEVER = 2**62
COUNTED = {**os.environ, "GLIBC_TUNABLES":
           f"glibc.cpu.x86_rep_stosb_threshold={NEVER}:glibc.cpu.x86_rep_movsb_threshold={NEVER}"}


def numbers_of(words, documentation, most=1):
    """The words as numbers. Where they are not numbers, or too many, shows the documentation and ends."""
    if len(words) > most or not all(word.isdigit() for word in words):
        sys.exit(documentation)
    return [int(word) for word in words]


def table(*titles):
    """Prints the head of a table."""
    print("| " + " | ".join(titles) + " |")
    print("|---" * len(titles) + "|", flush=True)


def row(*cells):
    """Prints a row of a table."""
    print("| " + " | ".join(cells) + " |", flush=True)


# Files


def write_lines(path, lines):
    """Writes lines that have no line feed."""
    with open(path, "w", encoding="utf-8") as file:
        file.writelines(f"{line}\n" for line in lines)


def output_of(script, *words):
    """What a script of bench/ prints."""
    command = [sys.executable, os.path.join(HERE, script), *map(str, words)]
    return subprocess.run(command, capture_output=True, check=True).stdout.decode()


def trace(size, *words):
    """The lines of a run of this many records, by traces.py."""
    return output_of("traces.py", size, *words).splitlines()


def write_long_trace(path, size, order):
    """Writes a long run of this many records of eight threads in this order, by traces.py."""
    command = [sys.executable, os.path.join(HERE, "traces.py"), str(size), order, "8", "long"]
    with open(path, "wb") as sink:
        subprocess.run(command, stdout=sink, check=True)


# Seconds and memory


def timed(command, path=os.devnull, output=None, environment=None):
    """Seconds, peak memory in MB of 2^20 bytes, and what the command prints for the file; no seconds where
    the run was cut. Where `output` is a path, it is written there instead. Where `environment` is None, the
    command has that of this process. Ends where the status is none of a verdict."""
    with open(path, "rb") as source, (open(output, "wb") if output else tempfile.TemporaryFile()) as sink:
        start = time.perf_counter()
        process = subprocess.Popen(command, stdin=source, stdout=sink, env=environment)
        timer = threading.Timer(LIMIT, process.kill)
        timer.start()
        _, status, usage = os.wait4(process.pid, 0)
        seconds = time.perf_counter() - start
        timer.cancel()
        process.returncode = os.waitstatus_to_exitcode(status)
        if process.returncode not in (0, 1, 2) and seconds < LIMIT:
            sys.exit(f"{' '.join(command)} ended with status {process.returncode}")
        text = ""
        if not output:
            sink.seek(0)
            text = sink.read().decode().strip()
    return (None if seconds >= LIMIT else seconds), usage.ru_maxrss / 1024, text


def best(command, path, count=3):
    """The quickest of this many runs; only one where it is cut."""
    runs = [timed(command, path)]
    while runs[-1][0] is not None and len(runs) < count:
        runs.append(timed(command, path))
    return min(runs, key=lambda run: LIMIT if run[0] is None else run[0])


def peak(command, path):
    """The peak memory of a command in MB. It is started by a Python that is small itself."""
    script = ("import sys; sys.path.insert(0, sys.argv[1]); from common import timed; "
              "print(timed(sys.argv[3:], sys.argv[2])[1])")
    words = [sys.executable, "-c", script, HERE, path, *command]
    return float(subprocess.run(words, capture_output=True, check=True).stdout)


# Instructions, which Valgrind counts, so that they are the same on a busy machine


def instructions(command, path):
    """The instructions of a command on a file, and the start of its output."""
    with open(path, "rb") as source, tempfile.TemporaryFile() as sink:
        run = subprocess.run(COUNTING + command, stdin=source, stdout=sink, stderr=subprocess.PIPE,
                             env=COUNTED, check=False)
        sink.seek(0)
        text = sink.read(200).decode()
    found = re.search(r"I +refs: +([0-9,]+)", run.stderr.decode())
    if not found:
        sys.exit(f"{' '.join(command)} was not counted: {run.stderr.decode()[-200:]}")
    return int(found[1].replace(",", "")), text


def instructions_of(command, path, lines, answer):
    """The instructions of a command on a file of these lines, which must have this answer."""
    write_lines(path, lines)
    count, text = instructions(command, path)
    if answer not in text:
        sys.exit(f"answered {text!r} in place of {answer!r}")
    return count
