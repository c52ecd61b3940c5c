"""The reasons of an answer of `taskaudit check`: the records that it is about, and what was expected of them. The
words are those of docs/MODEL.md; `model` restates its definitions."""
import json
import re
from array import array
from collections import Counter, deque, namedtuple
from itertools import islice

import orders
from contents import FINISHES, LISTS, MOVES, ROOT, RUNS, WAITS
from fields import faults_of
from model import (BARRIERS, CALLED_BARRIERS, DEMANDS_NEXT, DISCARD_STATE, NEXT_STATE, START_STATE, conflict, may, moves_by,
                   state_after)
from walks import begun_there, inner_region, walk_before

ANSWER = re.compile(r'(?:malformed: (?P<malformed>.*): cause (?P<cause>\d+) \w+'
                    r'|no: (?P<no>.*): task (?P<task>\d+) (?:unfinished|must precede task (?P<dependent>\d+))'
                    r'|unreadable: (?P<unreadable>.*): (?P<fault>\d) (?P<name>\w+)|(?P<yes>yes): .*|(?P<other>.*))\n?')


# A segment of an order: a sentence about it, its first and its last records, and how many between them are left out.
Order = namedtuple('Order', 'sentence first left_out last')

# A move of a task: its line and thread, and the turn that begins or ends by it, where one does.
Move = namedtuple('Move', 'number thread turn move')

AFTER_A_NO = 'docs/CAUSES.md, "After a no", says how to tell a recorder that read too early from a runtime that was.'
# The greatest number of records of one kind shown, and of tasks named in a row.
MOST_SHOWN = 8
# The greatest number of numbers in a path.
MOST_NUMBERS = 1024
# Arrays and objects of a line nest at most so deep.
DEEPEST = 127


class Explanation:
    """An answer, sentences about it, and the lines of the file that it is about, each with its part; for a no also
    an order in which the named task is not complete, with all lines before the named one there, and that in words."""

    def __init__(self, answer):
        self.answer, self.sentences, self.shown = answer.rstrip(), [], []
        self.line = self.task = self.order = self.event = None
        self.before = array('L')

    def say(self, text):
        self.sentences.append(text)

    def records(self):
        """The records that are told: those that it is about, and those of the order."""
        order = [*self.order.first, *self.order.last] if self.order else []
        return [it for _, it in [*self.shown, *order]]

    def show(self, record, part):
        if all(record.number != it.number for _, it in self.shown):
            self.shown.append((part, record))
        return record


def explain(trace, answer, order):
    """Explains the answer on the file. `order` yields the line of each record in the order of a no."""
    told, found = ANSWER.fullmatch(answer), Explanation(answer)
    if told is None or told['other'] is not None:
        found.say('The file was not judged.')
        return found
    place = told['malformed'] or told['no'] or told['unreadable']
    found.line = place and int(re.search(r'line (\d+)', place)[1])
    if told['yes']:
        explain_yes(found, trace)
    elif told['unreadable']:
        UNREADABLE[int(told['fault'])](found, trace)
    else:
        record = trace.record(found.line)
        found.show(record, 'the named record')
        if told['no']:
            found.task = int(told['task'])
            explain_no(found, trace, record)
            explain_region(found, trace, record)
            found.say(AFTER_A_NO)
            explain_order(found, trace, record, order)
        else:
            CAUSES[int(told['cause']) - 1](found, trace, record)
            if CAUSES[int(told['cause']) - 1] != nested_parallel_or_region_nesting:
                explain_region(found, trace, record)
            found.say(f"docs/CAUSES.md, cause {told['cause']}, says which mistakes give this, and what to fix.")
    return found


def explain_yes(found, trace):
    found.say('Every wait ended, and every dependent task started, only when it was allowed to, in every order that the'
              ' records allow. There is nothing to fix.')


def few(words, between):
    """The words in a row; of many the first ones."""
    more = f'{between}and {len(words) - MOST_SHOWN} more' if len(words) > MOST_SHOWN else ''
    return between.join(map(str, words[:MOST_SHOWN])) + more


# A no

def explain_no(found, trace, record):
    """Which record finishes the task, and what the record had seen of it."""
    if record.region:
        explain_wait(found, trace, record)
    else:
        explain_start(found, trace, record)
    show_life(found, trace, record)


def explain_wait(found, trace, record):
    """Which region ends there, and why it covers the task."""
    task, kind, endpoint = record.region
    if endpoint == 'end':
        begin = open_region(trace, record)
        found.show(begin, f'the begin of the {kind} that ends on line {record.number}')
    above = trace.ancestors(found.task)
    found.show(trace.maker(found.task), f'the creation of task {found.task}')
    chain = few([f'task {one} is a child of task {other}' for one, other in zip(above, above[1:])], ', ')
    found.say(f'Line {record.number} ends a {kind} of task {task}, which waits for task {found.task}: {chain}.')


def explain_start(found, trace, record):
    """Which dependences of the two tasks conflict."""
    later = record.wait_completed if record.wait_completed is not None else record.started
    lists = {}
    for task in (found.task, later):
        found.show(trace.maker(task), f'the creation of task {task}')
        for it in trace.of_task(task, LISTS):
            lists[task] = found.show(it, f'what task {task} depends on').dependences[1]
    one, other = first_conflict(lists[found.task], lists[later])
    found.say(f"Task {later} depends on task {found.task}, a sibling that was created before it: location {one['var']} is"
              f" {one['type']} there and {other['type']} here. It starts on line {record.number}.")


def first_conflict(some, others):
    """The first dependence of the one list that conflicts with one of the other list, and the first such one."""
    kinds = {}
    for it in others:
        kinds.setdefault(it['var'], {}).setdefault(it['type'], it)
    return next((one, other) for one in some for other in kinds.get(one['var'], {}).values() if conflict(one, other))


def show_life(found, trace, record):
    """The starts and the ends of the unfinished task, and what is missing."""
    parts, starts = {}, []
    for it in trace.of_task(found.task, RUNS | FINISHES):
        if it.started == found.task and len(starts) < MOST_SHOWN:
            starts.append(found.show(it, f'task {found.task} runs from here on'))
        if it.finish and it.finish[0] == found.task:
            parts[it.finish[1]] = found.show(it, f'finishes task {found.task} ({it.finish[1].lower()}): entry {it.seen}')
    seen = f'the entries 0 to {record.seen - 1}' if record.seen else 'no entry'
    found.say(f'The record on line {record.number} had seen {seen} of the ledger.')
    if 'Body' in parts and 'Event' not in parts:
        found.say(f"The body of task {found.task} ends on line {parts['Body'].number}, and no late_fulfill is in the file:"
                  ' the wait did not wait for the event, or its fulfilment was not recorded.')
    elif not parts:
        found.say(f'No record finishes task {found.task}, '
                  + (f'which runs from line {min(starts, key=turn_begun).number} on.' if starts else 'and none starts it.'))
    else:
        say_when_finished(found, record, parts, starts)


def turn_begun(record):
    """The turn in which the next task resumes at the record."""
    return record.begun_turn[1]


def say_when_finished(found, record, parts, starts):
    for it in parts.values():
        late = record.seen <= it.seen
        found.say(f'Line {it.number} finishes task {found.task} by entry {it.seen}, which is '
                  + ('not among those.' if late else 'among those.'))
    behind = [it for it in (*parts.values(), *starts) if it.thread == record.thread and it.seq > record.seq]
    if behind:
        found.say(f'Line {behind[0].number} stands behind line {record.number} in its thread: the runtime was too early.')


def explain_order(found, trace, record, order):
    """The segment of the order from the last record of the task to the named record."""
    lines = kept(order, record.number, found.before)
    segment = orders.segment_up_to(lines, record.number, {*trace.contents.tasks[found.task]})
    if segment is None:
        return
    parts = {it.number: f', {part}' for part, it in found.shown}
    first, last = ([(f'thread {it.thread}' + parts.get(it.number, ''), it) for it in trace.at(some)]
                   for some in (segment.first, segment.last))
    if record.region:
        event = 'the wait ends'
    elif record.wait_completed is not None:
        event = f'taskwait {record.wait_completed} is complete'
    else:
        event = f'task {record.started} starts'
    stands = 'created only after' if segment.first[0] == record.number else 'not complete when'
    found.event = f'task {found.task} is {stands} {event}'
    sentence = f'The events may also have happened in this order, in which {found.event}:'
    found.order = Order(sentence, first, segment.left_out(), last)


def kept(order, named, before):
    """Yields the lines of the order, and keeps those before the named one."""
    for it in order:
        yield it
        if it == named:
            break
        before.append(it)
    yield from order


# Regions inside others

def explain_region(found, trace, record):
    """Where the thread is in a region that is inside another one: which task began that, and where it goes on."""
    if not record.nests:
        return
    root = record if record.begun_root is not None else innermost_root(trace, record)
    inner = root and inner_region(trace, root)
    if not inner:
        return
    task, parallel = inner.fork.forked
    found.show(inner.fork, f'task {task} begins region {parallel}, inside another one')
    on = f'on thread {inner.fork.thread}'
    if not inner.begin:
        goes_on = f'no root of it begins {on} inside task {task}.'
    else:
        found.show(inner.begin, f'begins task {inner.begin.begun_root}, for which task {task} stops {on}')
        goes_on = f'task {task} goes on where task {inner.begin.begun_root} ends, '
        goes_on += f'behind line {inner.end.number}.' if inner.end else 'which is not in the file.'
    if inner.end:
        found.show(inner.end, f'ends task {inner.begin.begun_root}; task {task} goes on behind it')
    found.say(f'Task {root.begun_root}, the innermost root of thread {record.thread} here, is one of region {parallel}, which'
              f' task {task} began inside another region (line {inner.fork.number}); {goes_on}')


def innermost_root(trace, record):
    """The record that begins the innermost root that is open on the record's thread, or None."""
    inner = walk_before(trace, record).innermost
    return inner and trace.record(inner.number)


def lines_of(shown, place_of=lambda code: None):
    """Records as lines, each with the part that it has, and its place in the sources where that is known."""
    lines = []
    for part, it in shown:
        place = place_of(it.value.get('codeptr'))
        lines += [f'line {it.number}: {part}' + (f', at {place}' if place else ''), f'    {it.text}']
    return lines


def lines_of_order(order, place_of=lambda code: None):
    """A segment of an order as lines."""
    between = [f'({order.left_out} more left out here)'] * bool(order.left_out)
    return [*lines_of(order.first, place_of), *between, *lines_of(order.last, place_of)]


# What several causes need

def open_region(trace, record):
    """The begin of the innermost region that the record's task has open before it, in the task's own order, or None."""
    opened = []
    for _, number, endpoint in sorted(trace.regions_in_turns(record.region.task)):
        if number == record.number:
            break
        if endpoint == 'begin':
            opened.append(number)
        elif endpoint == 'end' and opened:
            opened.pop()
    return trace.record(opened[-1]) if opened else None


def previous_in_thread(trace, record):
    """The record before it in its thread, or None."""
    return trace.beside(record, -1)


def first(records):
    return next(iter(records), None)


# The causes, in the order of their numbers

def seq_gap(found, trace, record):
    before = len(trace.contents.lines_of_thread(record.thread, last=record.number - 1))
    last = previous_in_thread(trace, record)
    if last:
        found.show(last, f'the record before it of thread {record.thread}')
    found.say(f'{before} records of thread {record.thread} stand before it, so its seq must be {before}; it is '
              f'{record.seq}.')


def created_twice(found, trace, record):
    if record.made is not None:
        earlier = trace.maker(record.made)
        found.show(earlier, f'made task {record.made} before')
        found.say(f'Task {record.made} was made on line {earlier.number}. Each task needs a number of its own.')
    else:
        parallel = record.forked[1]
        earlier = trace.fork(parallel)
        found.show(earlier, f'began region {parallel} before')
        found.say(f'Parallel region {parallel} began on line {earlier.number}. Each region needs a number of its own.')


def rootless(found, trace, record):
    names = {name: record.value[name] for name in ('task', 'child', 'prior', 'next', 'root')
             if record.value.get(name) in record.named}
    unmade = {name: task for name, task in names.items() if not trace.maker(task)}
    for name, task in unmade.items():
        found.say(f'`{name}` names task {task}, and no record creates it or begins it.')
    if unmade:
        return
    region = record.region_named
    if region is not None and not trace.fork(region):
        found.say(f'`parallel` names region {region}, and no parallel_begin begins it.')
        return
    above = trace.ancestors(record.created)
    found.say(f"The parents of task {record.created} lead to no initial or implicit task: {few(above, ' < ')}"
              + (f' < {trace.creations[above[-1]][0]}, a circle.' if above[-1] in trace.creations else ', which none is.'))


def not_current(found, trace, record):
    walk, last = walk_before(trace, record), previous_in_thread(trace, record)
    if last:
        found.show(last, f'the record before it of thread {record.thread}')
    current = f'task {walk.current}' if walk.current is not None else 'no task'
    if record.running is not None and record.running != walk.current:
        found.say(f'Thread {record.thread} runs {current} here, and the record is of task {record.running}.')
    elif record.wait_completed is not None:
        found.say(f'Thread {record.thread} runs {current} here; taskwait {record.wait_completed} is of task '
                  f'{trace.creations[record.wait_completed][0]}, which must be the one that runs.')
    else:
        root = record.ended_root if record.ended_root is not None else record.started
        inner = walk.innermost
        told = f'the innermost root {inner.task} (line {inner.number})' if inner else 'no open root'
        verb = 'run' if record.ended_root is None else 'end'
        found.say(f'Thread {record.thread} has {told}; root {root} cannot {verb} here.')


def moved(found, trace, record):
    earlier = first(it for it in trace.of_task(record.started, RUNS, last=record.number)
                    if it.started == record.started and it.thread != record.thread)
    found.show(earlier, f'task {record.started} ran on thread {earlier.thread}')
    found.say(f'Task {record.started} runs on thread {record.thread} here, and ran on thread {earlier.thread} on line '
              f'{earlier.number}. A file of version 1 cannot say that a task resumes on another thread; one of version 2'
              ' can, since it tells turns.')


def turn_gap(found, trace, record):
    """Which of the rules of docs/MODEL.md, HasTurnGap, hold of the record."""
    say_other_turn(found, trace, record)
    (task, turn), made = record.begun_turn, trace.maker(record.started)
    begins = [(number, it['next_turn'], it['thread'] == record.thread)
              for number, it in trace.values(trace.lines_of_task(task, RUNS)) if it['next'] == task]
    same = first(number for number, other, _ in begins if other == turn and number < record.number)
    if same:
        found.show(trace.record(same), f'begins turn {turn} of task {task}')
        found.say(f'Line {same} began turn {turn} of task {task} already, so `next_turn` cannot be {turn}.')
    later, other = first(it[:2] for it in begins if it[0] < record.number and it[1] > turn and it[2]) or (None, None)
    if later:
        found.show(trace.record(later), f'begins turn {other} of task {task}')
        found.say(f'Line {later} of the same thread began turn {other} of task {task}, a later one than `next_turn`,'
                  f' {turn}.')
    is_root = made.begun_root == task
    if turn == 0 and is_root:
        found.show(made, f'begins task {task}')
        found.say(f'Task {task} is in turn 0 from line {made.number} on, where it begins, so a later turn must begin here:'
                  ' `next_turn` is 0.')
    if turn > 0 and not (turn == 1 and is_root or any(it[1] == turn - 1 for it in begins)):
        found.say(f'`next_turn` is {turn}, and no record begins turn {turn - 1} of task {task}.')


def say_other_turn(found, trace, record):
    """Where `prior_turn` is not the turn of the prior task, the record that began that."""
    task, turn = record.ended_turn
    lines = trace.lines_of_task(task, RUNS | ROOT, last=record.number - 1)
    begin = first(it for it in trace.at(reversed(lines))
                  if it.thread == record.thread and task in (it.started, it.begun_root))
    right = begin.begun_turn[1] if begin and begin.begun_turn else 0
    if turn != right:
        if begin:
            found.show(begin, f'begins turn {right} of task {task}')
        found.say(f'Task {task} is in turn {right} here, so `prior_turn` must be {right}; it is {turn}.')


def status_order(found, trace, record):
    """Of each task that the record moves: the state before it, and what that allows."""
    named = (*(record.schedule or ())[1:], record.started, record.discarded)
    for task in dict.fromkeys(it for it in named if it is not None):
        nature, moves = life_of(trace, task)
        state, before = 'Running' if nature == 'root' else 'Created', deque(maxlen=MOST_SHOWN)
        for line, move in moves:
            after = state_after(state, *move) if may(nature, *move) else None
            if after is None:
                by = {line: f'a move of task {task}: {moved_by(move)}' for line, move in before}
                for it in trace.at(sorted(by)):
                    found.show(it, by[it.number])
                say_state(found, task, nature, state, move, line)
                break
            state = after
            before.append((line, move))


def life_of(trace, task):
    """The task's nature, and its moves with their lines in the order in which they are read."""
    made = trace.maker(task)
    nature = 'root' if made.begun_root == task else 'taskwait' if 'taskwait' in made.flags else 'any'
    moves = [Move(it.number, it.thread, turn_of(it, move), move) for it in trace.of_task(task, MOVES)
             for move in moves_by(task, it)]
    home = made.thread if nature == 'root' else first(it.thread for it in moves if it.move[0] == 'Started')
    has_moved = trace.tells_turns and any(it.move[0] == 'Started' and it.thread != home for it in moves)
    ordered = sorted(moves, key=rank_by_turn if has_moved else lambda it: rank_by_home(it, home))
    return nature, [(it.number, it.move) for it in ordered]


def turn_of(record, move):
    """The turn that begins by the move of the record, or ends by it; None for other moves."""
    what, status = move
    if what == 'Started':
        return record.begun_turn[1]
    return record.ended_turn[1] if status in DEMANDS_NEXT else None


def rank_by_home(it, home):
    """Early fulfilments on other threads than the task's home come first, then its moves at home, then all others."""
    return 1 if it.thread == home else 0 if it.move == ('Stopped', 'early_fulfill') else 2


def rank_by_turn(it):
    """Of a task that moved early fulfilments come first, then turn by turn its begin and its end, then all others."""
    if it.turn is not None:
        return 1, it.turn, it.move[0] != 'Started'
    return (0 if it.move[1] == 'early_fulfill' else 2,)


def moved_by(move):
    what, status = move
    return {'Started': 'runs', 'Discarded': 'is discarded'}.get(what, status)


def say_state(found, task, nature, state, move, line):
    allowed = [status for status in NEXT_STATE[state] if may(nature, 'Stopped', status)]
    allowed += ['runs'] * (state in START_STATE and may(nature, 'Started', None))
    allowed += ['is discarded'] * (state in DISCARD_STATE and may(nature, 'Discarded', None))
    kinds = {'root': 'an initial or implicit task', 'taskwait': 'a taskwait with dependences', 'any': 'an explicit task'}
    words = ', '.join(allowed) or 'nothing more'
    found.say(f'Task {task}, {kinds[nature]}, is {state} before line {line}, which allows: {words}. The record says: '
              f'{moved_by(move)}.')


def region_order(found, trace, record):
    task, kind, _ = record.region
    made = trace.maker(task)
    if kind in CALLED_BARRIERS and made.created == task:
        found.show(made, f'creates task {task}')
        found.say(f'Task {task} is an explicit task, and barriers are of initial and implicit tasks alone.')
        return
    opened = open_region(trace, record)
    if not opened:
        found.say(f'Task {task} has no open region here, so no {kind} can end.')
        return
    found.show(opened, f'begins the innermost open region of task {task}')
    found.say(f'The innermost open region of task {task} is a {opened.region.kind} (line {opened.number}); a {kind} cannot'
              ' end before it.')


def team_short(found, trace, record):
    if record.joined:
        say_short_team(found, trace, record)
    else:
        say_missed_barrier(found, trace, record)


def say_short_team(found, trace, record):
    parallel, actual, index, _ = record.joined
    members = members_of(trace, parallel)
    for it in members[:MOST_SHOWN]:
        found.show(it, f'member {it.joined.index} of region {parallel}, of a team of {it.joined.actual}')
    earlier = [it for it in members if it.number < record.number]
    if index >= actual:
        found.say(f'The index {index} is not below the size of the team, {actual}.')
    same = first(it for it in earlier if it.joined.index == index)
    if same:
        found.say(f'Line {same.number} began member {index} of region {parallel} already.')
    other = first(it for it in earlier if it.joined.actual != actual)
    if other:
        found.say(f'Line {other.number} says that the team has {other.joined.actual} members, and this record {actual}.')
    if len(members) < actual:
        there = {it.joined.index for it in members}
        missing = [*islice((it for it in range(actual) if it not in there), MOST_SHOWN)]
        found.say(f'The team of region {parallel} is of {actual}, and {len(members)} of it begin in the file. Missing: '
                  f"member {few(missing, ', ')}.")


def members_of(trace, parallel):
    return [it for it in trace.doing(ROOT) if it.joined and it.joined.parallel == parallel]


def say_missed_barrier(found, trace, record):
    """A member that began fewer barriers than the one that ends here."""
    task, own, begun = record.region.task, 0, Counter()
    for number, it in trace.values(trace.contents.doing(WAITS)):
        if it['kind'] in BARRIERS and it['endpoint'] != 'end':
            begun[it['task']] += 1
            own += it['task'] == task and number <= record.number
    late = [it for it in members_of(trace, trace.maker(task).joined.parallel) if begun[it.joined.member] < own]
    found.say(f'Barrier number {own - 1} of task {task} ends here, counted from 0.')
    for it in late[:MOST_SHOWN]:
        count = begun[it.joined.member]
        found.show(it, f'begins task {it.joined.member}, which begins {count} barriers')
        found.say(f'In the whole file task {it.joined.member} of the same team begins {count}, so it never came to this'
                  ' one.')


def nested_parallel(found, trace, record):
    outer = innermost_root(trace, record)
    if outer:
        found.show(outer, f'begins task {outer.begun_root}, the innermost open root of thread {record.thread}')
    if record.forked:
        found.say(f'Task {record.forked[0]}, which begins the parallel region, is not an initial task: the region is inside'
                  ' another one.')
    else:
        found.say(f'Thread {record.thread} has an open root, task {outer.begun_root}, so another one cannot begin here: the'
                  ' region is inside another one, or an implicit_task that ends was not recorded.')
    found.say('A file of version 1 or 2 has no parallel region inside another one; one of version 3 may.')


def region_nesting(found, trace, record):
    """Which region the task that runs there would have to begin, and which it begins."""
    walk, thread = walk_before(trace, record), record.thread
    root, task = walk.innermost.task, walk.current
    found.show(trace.record(walk.innermost.number), f'begins task {root}, the innermost open root of thread {thread}')
    own = [*begun_there(trace, record, task)]
    for it in own[-MOST_SHOWN:]:
        found.show(it, f'task {task} begins region {it.forked[1]} on thread {thread}')
    found.say(f'Thread {thread} has an open root, task {root}, and runs task {task} here, so a root that begins here must be'
              f' one of a region that task {task} began on thread {thread} before.')
    if record.begun_initial is not None:
        found.say(f'The initial task {record.begun_initial} begins here, as one of a teams construct does, and task {task}'
                  f' began no region on thread {thread} before.')
        return
    parallel = record.joined.parallel
    fork = trace.fork(parallel)
    found.show(fork, f'begins region {parallel}')
    behind = ', behind this record' if fork.thread == thread and fork.seq > record.seq else ''
    found.say(f'Task {record.begun_root} is a member of region {parallel}, which task {fork.forked[0]} began on thread '
              f'{fork.thread} (line {fork.number}){behind}.')


def deps_place(found, trace, record):
    if record.has_list():
        last = previous_in_thread(trace, record)
        if last:
            found.show(last, f'the record before it of thread {record.thread}')
        found.say(f'The record before it in its thread must be the task_create of task {record.dependences[0]} with deps'
                  ' true.')
        return
    follows = trace.beside(record, 1)
    if follows:
        found.show(follows, f'the next record of thread {record.thread}')
    found.say(f'deps is true, so the next record of thread {record.thread} must be the dependences of task '
              f'{record.created}.')


def share_wrong(found, trace, record):
    """Which of root, path and kept is wrong, and what is right."""
    above = trace.ancestors(record.finish[0])
    right = {'root': above[-1], 'path': [trace.creations[it][1] for it in above[-2::-1]],
             'kept': trace.child_count(record.finish[0])}
    for name, wanted in right.items():
        if record.value[name] != wanted and name == 'path' and len(wanted) > MOST_NUMBERS:
            found.say(f'`path` has {len(record.value[name])} numbers, and must have {len(wanted)}, which no file can say.')
        elif record.value[name] != wanted:
            found.say(f'`{name}` is {record.value[name]}, and must be {wanted}.')
    lines = {trace.creations[task][2] for task in above[:-1][:MOST_SHOWN]}
    for it in trace.at(sorted(lines, reverse=True)):
        parent, number, _ = trace.creations[it.created]
        found.show(it, f'creates task {it.created}, child {number} of task {parent}')


def entry_twice(found, trace, record):
    lengths = trace.contents.lengths
    earlier = trace.record(next(it for it in trace.contents.doing(FINISHES) if lengths[it] == record.seen))
    found.show(earlier, f'makes entry {earlier.seen} too')
    found.say(f'Line {earlier.number} makes entry {record.seen} of the ledger already. Each finishing record has an index'
              ' of its own.')


def length_ahead(found, trace, record):
    entries = sum(1 for _ in trace.contents.doing(FINISHES))
    names = 'makes entry' if record.finish else 'has seen the length'
    ledger = f'the entries 0 to {entries - 1}' if entries else 'no entry'
    found.say(f'Of the records of the file {entries} finish a task, so its ledger has {ledger}; the record {names} '
              f'{record.seen}.')


def length_back(found, trace, record):
    """The record that is before it by a program step, and knew more."""
    last = previous_in_thread(trace, record)
    steps = {'the record before it in its thread': last}
    for task in (record.started, record.discarded, record.fulfilled):
        if task in trace.creations:
            steps[f'creates task {task}'] = trace.maker(task)
    stopped = orders.stopped(record)
    if stopped:
        suspended = (it for it in trace.of_task(stopped[0], RUNS) if it.suspended_turn == stopped)
        steps[f'suspends task {stopped[0]}, which goes on here'] = first(suspended)
    for part, other in steps.items():
        if other and other.known_after() > record.seen:
            found.show(other, part)
            found.say(f'Behind line {other.number}, {part}, the ledger length {other.known_after()} is known; this record '
                      f'names {record.seen}, which is less.')


def no_order(found, trace, record):
    circle = orders.shortest_circle(trace)
    for it in circle[:2 * MOST_SHOWN]:
        found.show(it, 'stands in the circle')
    steps = [f'line {one.number} comes before line {other.number}, {orders.reason(one, other)}'
             for one, other in zip(circle, circle[1:] + circle[:1])]
    found.say(f"Each of these would have to come before the next one, and the last before the first: {few(steps, '; ')}.")


def target_task(found, trace, record):
    found.say(f'Task {record.made} has the flag `target`: it is for a device, and the audit is about the host.')


def moved_or_turn_gap(found, trace, record):
    (turn_gap if trace.tells_turns else moved)(found, trace, record)


def nested_parallel_or_region_nesting(found, trace, record):
    (region_nesting if record.nests else nested_parallel)(found, trace, record)


CAUSES = (seq_gap, created_twice, rootless, not_current, moved_or_turn_gap, status_order, region_order, team_short,
          nested_parallel_or_region_nesting, deps_place, share_wrong, entry_twice, length_ahead, length_back, no_order,
          target_task)


# Files that cannot be read

def unreadable(sentence):
    """An explanation that needs no more than the line's own text."""
    def tell(found, trace):
        found.say(sentence)
    return tell


def nesting(text):
    """How deep arrays and objects nest in a line."""
    depth = deepest = 0
    for it in re.findall(rb'[][{}]', re.sub(rb'"(?:[^"\\]|\\.)*"', b'', text)):
        depth += 1 if it in b'[{' else -1
        deepest = max(deepest, depth)
    return deepest


def not_json(found, trace):
    text = trace.line(found.line)
    if nesting(text) > DEEPEST:
        found.say(f'Arrays and objects nest {nesting(text):,} deep in the line; {DEEPEST} is allowed.')
        return
    try:
        json.loads(text.decode())
        found.say('The line is not one JSON text as docs/FORMAT.md has it.')
    except ValueError as error:
        found.say(f'The line is not JSON: {error}.')


def field(found, trace):
    """Which member of the line is missing or of the wrong kind."""
    for it in faults_of(trace.line(found.line).decode(), trace.version):
        found.say(f'{it[0].upper()}{it[1:]}.')


def line_too_long(found, trace):
    length = len(trace.line(found.line).removesuffix(b'\n'))
    found.say(f'The line has {length:,} bytes; 65,536 are allowed.')


def unended(found, trace):
    text = trace.line(found.line)
    found.say(f'The file ends in the middle of this line, behind {text[-40:]!r}: it was cut. What stands before it may be'
              ' right; a recorder should write under another name and rename the file when it is whole.')


UNREADABLE = {
    1: unreadable('The input failed before this line was read.'), 2: unreadable('Memory ran out.'),
    3: unreadable('Line 1 must be {"format":"task-credit-audit","version":1}, or the same with version 2 or 3.'),
    4: line_too_long, 5: not_json, 6: field, 7: field, 8: unended,
    9: unreadable('The input asked to be read again too often.')}
