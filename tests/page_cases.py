"""What tests/explained asks of the page of tools/explain and of large files: files whose answers and drawings follow from how
they are made, a symbolizer that says what it is asked, and a script that looks at a page in the browser."""
import json
import os
import pty
import re
import resource
import stat
import subprocess
import sys
import tempfile

TOP = os.path.dirname(os.path.dirname(os.path.abspath(__file__)))
LIMIT = 120
# How many times the processor time of the shortest Python program that reads the lines as JSON `explain` may take for a no
# of 210,000 records; it takes about twice that time, on a fast machine and on a slow one.
MOST_TIMES = 5
READING = 'import json, sys\nfor line in open(sys.argv[1], encoding="utf-8"): json.loads(line)'
# How many arrows of a kind that do not lead to the named record a page has at most.
MOST_ARROWS = 1000

SYMBOLIZER = """#!/bin/sh
echo "$*" >> "${0%/*}/calls"
while read -r at; do printf '%s\\nat_%s\\n/src/program.c:%d\\n' "$at" "$at" "$at"; done
"""
# Of the arrows of other records whether they are seen, before and after that is asked; and how far the names of the lanes
# are from the left side of the sheet when that is scrolled.
LOOK = """<script>
const others = document.querySelector(".others"), names = document.querySelector(".names"), told = [];
told.push(getComputedStyle(others).display);
document.getElementById("all").click();
told.push(getComputedStyle(others).display);
sheet.scrollLeft = 3000;
told.push(sheet.scrollLeft, names.getBoundingClientRect().left - sheet.getBoundingClientRect().left);
document.body.append("looked: " + told.join(" ") + ";");
</script>"""


class File:
    """The lines of a trace file."""

    def __init__(self, version=2):
        self.lines, self.seqs = [json.dumps({'format': 'task-credit-audit', 'version': version})], {}

    def add(self, thread, seen, cb, **members):
        seq = self.seqs[thread] = self.seqs.get(thread, -1) + 1
        self.lines.append(json.dumps({'cb': cb, 'thread': thread, 'seq': seq, 'seen': seen, **members}))

    def begin(self, thread, task):
        self.add(thread, 0, 'implicit_task', endpoint='begin', task=task, parallel=0, actual=1, index=0, flags=['initial'])

    def begin_region(self, task, parallel, member):
        """On thread 0 the task begins a region of one member, which begins."""
        self.add(0, 0, 'parallel_begin', task=task, parallel=parallel, requested=1)
        self.add(0, 0, 'implicit_task', endpoint='begin', task=member, parallel=parallel, actual=1, index=0,
                 flags=['implicit'])

    def create(self, thread, seen, parent, child, deps=False):
        self.add(thread, seen, 'task_create', task=parent, child=child, flags=['explicit'], deps=deps)

    def run(self, thread, seen, status, prior, following, **members):
        (prior, prior_turn), (task, turn) = prior, following
        self.add(thread, seen, 'task_schedule', status=status, prior=prior, prior_turn=prior_turn, next=task, next_turn=turn,
                 **members)

    def child(self, thread, seen, root, number, child, dependences=()):
        """The task of the thread, in its turn, creates a child with this number, which runs at once."""
        task, turn = root
        self.create(thread, seen, task, child, bool(dependences))
        if dependences:
            self.add(thread, seen, 'dependences', task=child, list=dependences)
        self.run(thread, seen, 'switch', (task, turn), (child, 0))
        self.run(thread, seen, 'complete', (child, 0), (task, turn + 1), root=task, path=[number], kept=0)

    def wait(self, thread, seen, task):
        for it in ('begin', 'end'):
            self.add(thread, seen, 'sync_region', kind='taskwait', endpoint=it, parallel=None, task=task)

    def text(self):
        return '\n'.join([*self.lines, ''])


def long_no(count, is_inner=False):
    """A no of 9 * count + 13 records. Task 1 on thread 0 creates task 100, and then 2 * count tasks, of which each runs at
    once; half way task 100 starts on thread 1 and is suspended. Then a taskwait of task 1 ends. On thread 2 count tasks run,
    and then task 100 goes on, and is finished in the last line. In an inner one task 9 does this in place of task 1, in
    region 6, which task 3 begins on line 7."""
    file, task = File(3 if is_inner else 2), 9 if is_inner else 1
    file.begin(0, 1)
    if is_inner:
        file.begin_region(1, 5, 2)
        file.create(0, 0, 2, 3)
        file.run(0, 0, 'switch', (2, 0), (3, 0))
        file.begin_region(3, 6, 9)
    file.create(0, 0, task, 100)
    for at in range(2 * count):
        # entry number `count` is that of task 101
        file.child(0, at + (at >= count), (task, at), at + 1, 1000 + at)
    file.wait(0, 2 * count + 1, task)
    second, third = 11, 12
    file.begin(1, second)
    file.run(1, count, 'switch', (second, 0), (100, 0))
    file.run(1, count, 'yield', (100, 0), (second, 1))
    file.child(1, count, (second, 1), 0, 101)
    file.begin(2, third)
    for at in range(count):
        file.child(2, 2 * count + 1 + at, (third, at), at, 10**6 + at)
    file.run(2, 3 * count + 1, 'switch', (third, count), (100, 1))
    file.run(2, 3 * count + 1, 'complete', (100, 1), (third, count + 1), root=task, path=[0], kept=0)
    return file.text()


def many_arrows():
    """A yes: 150 tasks with `in` of one location, then 150 with `mutexinoutset`, of which each depends on each of the first
    ones; then 50 tasks with a taskwait behind each, which waits for all tasks before it."""
    file = File()
    file.begin(0, 1)
    for at in range(300):
        kind = 'in' if at < 150 else 'mutexinoutset'
        file.child(0, at, (1, at), at, 1000 + at, [{'type': kind, 'var': 7}])
    for at in range(300, 350):
        file.child(0, at, (1, at), at, 1000 + at)
        file.wait(0, at + 1, 1)
    return file.text()


# Of long_no(2000), whose records are in this order: with ranks from 0, the creation has rank 1, the first start 3 * 2000 + 3,
# the end of the wait 6 * 2000 + 9, and the last start and the finish the last two of 18,013. Shown are 300 records before and
# behind the end of the wait, and 8 beside each other one; so these are left out, and of the tasks that the wait waits for
# 107 are finished in what is shown.
LONG = ['id="named"', '>638 of 18,013 records are drawn', '>5,985 records left out<', '>5,697 records left out<',
        '>5,693 records left out<', '<div>thread 0</div><div>thread 1</div><div>thread 2</div>',
        'class="record shown" cx', '<title>line 3: {', '<title>line 12007: {', '<title>line 18013: {', '<title>line 18014: {',
        '>line 3: the creation of task 100<', '>line 12007: task 100 runs from here on<',
        '>line 12005: task 100 is not complete when the wait ends<', '>line 18014: finishes task 100 (whole): entry 6001<',
        '>task 100, lines 12007 to 12008<', '>task 100, lines 18013 to 18014<', '>taskwait of task 1, lines 12004 to 12005<',
        'class="wait lit"', 'class="waited lit"', ' 83 longer arrows to the named record are left out.']


def explain(program, file, *words, **more):
    """What `explain` prints on standard output and on standard error."""
    ran = subprocess.run([os.path.join(TOP, 'tools/explain'), '--checker', program, *words, file], timeout=LIMIT,
                         stdout=subprocess.PIPE, stderr=subprocess.PIPE, text=True, **more)
    return ran.stdout, ran.stderr


def page_of(program, folder, text, *words, **more):
    """The page of a file with this text."""
    file, page = (os.path.join(folder, it) for it in ('trace.jsonl', 'page.html'))
    with open(file, 'w', encoding='utf-8') as it:
        it.write(text)
    explain(program, file, '--html', page, *words, **more)
    with open(page, encoding='utf-8') as it:
        return it.read()


def shown_by(chromium, folder, page):
    """The page as the browser has it, behind its scripts."""
    path = os.path.join(folder, 'shown.html')
    with open(path, 'w', encoding='utf-8') as it:
        it.write(page)
    words = [chromium, '--headless', '--no-sandbox', '--disable-gpu', f'--user-data-dir={folder}/profile', '--dump-dom']
    return subprocess.run([*words, f'file://{path}'], stdout=subprocess.PIPE, stderr=subprocess.DEVNULL, text=True,
                          timeout=LIMIT).stdout


def fault_of_long_page(program, chromium):
    """What is wrong with the page of a large file in the browser, or None."""
    with tempfile.TemporaryDirectory() as folder:
        page = page_of(program, folder, long_no(2000))
        shown = shown_by(chromium, folder, page + LOOK)
    missing = [it for it in LONG if it not in page]
    if missing:
        return f'not on the page: {missing}'
    named = page.partition('<g class="others">')[0].count('class="waited')
    # the border of the sheet is one pixel wide
    is_right = named == 24 and 'looked: none inline 3000 1;' in shown
    return None if is_right else f'{named} arrows; {shown[-100:]!r}'


def fault_of_arrows(program):
    """Whether a page has too many arrows, or None."""
    with tempfile.TemporaryDirectory() as folder:
        page = page_of(program, folder, many_arrows())
    counts = [page.count(f'<path class="{kind}') for kind in ('dependence', 'waited')]
    # each of the 350 tasks has one to the first wait behind it
    return None if counts == [MOST_ARROWS, 350] else f'{counts} arrows'


def fault_of_frames(program):
    """Whether another number of groups than three, all but the last one, has the frame of an inner region, or None."""
    with tempfile.TemporaryDirectory() as folder:
        page = page_of(program, folder, long_no(2000, is_inner=True))
    count = page.count('>region 6, begun by task 3 on line 7; task 3 does not go on here<')
    return None if count == page.count('class="region"') == 3 else f'{count} frames'


def fault_of_places(program, text):
    """Whether the places of the records of a small file are missing from its page, or are asked for one by one."""
    header, *lines = text.splitlines()
    told = [header, *(f'{{"codeptr":"{4096 + at:#x}",{it[1:]}' for at, it in enumerate(lines, 2)), '']
    with tempfile.TemporaryDirectory() as folder:
        tool = os.path.join(folder, 'llvm-symbolizer')
        with open(tool, 'w', encoding='utf-8') as it:
            it.write(SYMBOLIZER)
        os.chmod(tool, stat.S_IRWXU)
        path = os.pathsep.join((folder, os.environ['PATH']))
        page = page_of(program, folder, '\n'.join(told), '--program', '/some/program', env={**os.environ, 'PATH': path})
        with open(os.path.join(folder, 'calls'), encoding='utf-8') as it:
            calls = it.read().splitlines()
    # the code of line 13 is 4109, and the call is before it
    wanted = ('\nat /src/program.c:4108 in at_0x100c</title>', 'line 13: the named record, at /src/program.c:4108 in at_0x100c')
    missing = [it for it in wanted if it not in page]
    # one for what is printed, and one for the page
    return f'not on the page: {missing}; calls: {calls}' if missing or len(calls) > 2 else None


def fault_of_progress(program):
    """What is wrong with what is said on a terminal, or where standard error is none, or None."""
    ours, theirs = pty.openpty()
    with tempfile.NamedTemporaryFile('w', suffix='.jsonl') as it:
        it.write(long_no(10))
        it.flush()
        _, errors = explain(program, it.name)
        for name in (it.name, f'{it.name}.none'):
            subprocess.run([os.path.join(TOP, 'tools/explain'), '--checker', program, name], timeout=LIMIT,
                           stdout=subprocess.DEVNULL, stderr=theirs)
    os.close(theirs)
    said = os.read(ours, 1 << 16).decode()
    os.close(ours)
    wanted = ('\rtaskaudit-explain: checking ..', '\rtaskaudit-explain: reading the records .. 100 %')
    # the line is cleared at the end, and before an error
    is_cleared = re.search(r'\r +\r\rtaskaudit-explain: checking \.\.\r +\rtaskaudit-explain: .*: No such file', said)
    return None if all(it in said for it in wanted) and is_cleared and not errors else f'{said!r}, {errors!r}'


def seconds_of_children():
    """The processor time, in seconds, of the programs that ended so far."""
    used = resource.getrusage(resource.RUSAGE_CHILDREN)
    return used.ru_utime + used.ru_stime


def seconds_to_read(file):
    """The processor time, in seconds, of a Python program that reads each line of the file as JSON, and nothing else."""
    before = seconds_of_children()
    subprocess.run([sys.executable, '-c', READING, file], timeout=LIMIT, check=True)
    return seconds_of_children() - before


def fault_of_time(program, *words):
    """Whether `explain` takes too much time for a no of 210,001 records, or None. Its lines are read as JSON before and after
    it, so that a slow machine, or one that gets slower, is no fault."""
    with tempfile.TemporaryDirectory() as folder:
        file = os.path.join(folder, 'trace.jsonl')
        with open(file, 'w', encoding='utf-8') as it:
            it.write(long_no(23332))
        reading = seconds_to_read(file)
        before = seconds_of_children()
        told, _ = explain(program, file, *words)
        seconds = seconds_of_children() - before
        reading = (reading + seconds_to_read(file)) / 2
    is_right = told.startswith('no: line 139997, thread 0, seq 139995: task 100 unfinished\n')
    is_quick = seconds <= MOST_TIMES * reading
    return None if is_right and is_quick else f'{seconds:.2f} s, {reading:.2f} s to read the lines, {told[:100]!r}'


def faults(program, small, chromium):
    """Yields a name for each of these checks, and what is wrong, or None. `small` is the text of a small no."""
    yield 'many arrows', fault_of_arrows(program)
    yield 'frames in groups', fault_of_frames(program)
    yield 'places on the page', fault_of_places(program, small)
    yield 'progress', fault_of_progress(program)
    yield 'time of a large no', fault_of_time(program)
    yield 'time of a large page', fault_of_time(program, '--html', os.devnull)
    if chromium:
        yield 'page of a large no', fault_of_long_page(program, chromium)
