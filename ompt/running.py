"""A program in a process group of its own, as a shell runs it: signals to this process are passed on to all of the group,
and the program gets the terminal once it reads it."""
import os
import signal
import subprocess
import time

# What ends a run: it is for the program, which then writes its file.
PASSED_ON = (signal.SIGINT, signal.SIGTERM, signal.SIGHUP, signal.SIGQUIT)
# How long after the time limit a program may take to end, in seconds, before it is killed.
GRACE = 5
# How long lies between looks, where there is something to do while the program runs, in seconds.
BETWEEN = 0.01
# Why a process behind others stops: it reads the terminal, or writes to it where that is set up so.
WANTS_TERMINAL = (signal.SIGTTIN, signal.SIGTTOU)


class Ended:
    """How a program ended: its exit status, where a signal counts as 128 and its number, and that in words; whether
    this process was told to end; whether the program took too long, or was ended early; and whether all processes that
    it started were told to end."""

    def __init__(self, code, was_told, is_late, is_early):
        self.status = 128 - code if code < 0 else code
        self.words = f'by {name_of_signal(-code)}' if code < 0 else f'with status {code}'
        self.was_told, self.is_late, self.is_early = was_told, is_late, is_early
        self.are_all_told = was_told or is_late or is_early or -code in PASSED_ON


def name_of_signal(number):
    try:
        return signal.Signals(number).name
    except ValueError:
        return f'signal {number}'


def terminal():
    """A descriptor of the terminal of this process, or None."""
    try:
        return os.open('/dev/tty', os.O_RDWR | os.O_CLOEXEC)
    except OSError:
        return None


class Run:
    """A run of the program, from its start to its end. It has the terminal only from when it wants it, since others that
    were started with this process, as by `make -j`, are in front too, and Ctrl-C is for all of them. `kept` are open
    files of this process that the program keeps."""

    def __init__(self, words, environment, seconds=None, kept=()):
        self.terminal, self.group, self.seconds = terminal(), os.getpgrp(), seconds
        self.was_told = self.has_terminal = self.is_late = self.is_early = False
        self.before = {it: signal.getsignal(it) for it in (*PASSED_ON, signal.SIGTSTP, signal.SIGTTOU, signal.SIGALRM)}
        signal.pthread_sigmask(signal.SIG_BLOCK, PASSED_ON)
        try:
            self.program = subprocess.Popen(words, env=environment, preexec_fn=lead, pass_fds=kept)
            self.take_signals()
        finally:
            signal.pthread_sigmask(signal.SIG_UNBLOCK, PASSED_ON)

    def take_signals(self):
        # so that this process may take the terminal back from behind
        signal.signal(signal.SIGTTOU, signal.SIG_IGN)
        for it in (*PASSED_ON, signal.SIGTSTP):
            # what was ignored before, as by nohup, the program ignores too
            if self.before[it] != signal.SIG_IGN:
                signal.signal(it, self.stop if it == signal.SIGTSTP else self.pass_on)
        if self.seconds:
            signal.signal(signal.SIGALRM, self.end_late)
            signal.setitimer(signal.ITIMER_REAL, self.seconds, GRACE)

    def end_late(self, _number, _frame):
        """The time is over, first that of the run, and then that to end in."""
        is_ending = self.is_late or self.is_early
        self.is_late |= not self.is_early
        self.end(signal.SIGKILL if is_ending else signal.SIGTERM)

    def end_early(self):
        """Ends the run for what was found, unless it is being ended already. Returns whether it does."""
        if self.is_late or self.is_early:
            return False
        signal.signal(signal.SIGALRM, self.end_late)
        signal.setitimer(signal.ITIMER_REAL, GRACE, GRACE)
        self.is_early = True
        self.end(signal.SIGTERM)
        return True

    def end(self, number):
        """All of the program are to end, first in their own way, and then at once."""
        self.send(number)
        self.send(signal.SIGCONT)

    def pass_on(self, number, _frame):
        self.was_told = True
        self.send(number)
        self.send(signal.SIGCONT)

    def send(self, number):
        try:
            os.killpg(self.program.pid, number)
        except ProcessLookupError:
            pass

    def wait(self, meanwhile=None):
        """Waits for the program's end, and returns how it ended. From then on signals are for this process again.
        `meanwhile` is called with this run again and again, where it is given."""
        try:
            while os.WIFSTOPPED(status := self.next_status(meanwhile)):
                self.on_stopped(os.WSTOPSIG(status))
        finally:
            signal.setitimer(signal.ITIMER_REAL, 0)
            self.take_terminal()
            for number, handler in self.before.items():
                signal.signal(number, handler)
        self.program.returncode = os.waitstatus_to_exitcode(status)
        return Ended(self.program.returncode, self.was_told, self.is_late, self.is_early)

    def next_status(self, meanwhile):
        """Waits until the program stops or ends, and returns that."""
        if not meanwhile:
            return os.waitpid(self.program.pid, os.WUNTRACED)[1]
        while not (found := os.waitpid(self.program.pid, os.WUNTRACED | os.WNOHANG))[0]:
            meanwhile(self)
            time.sleep(BETWEEN)
        return found[1]

    def is_in_front(self, group):
        try:
            return self.terminal is not None and os.tcgetpgrp(self.terminal) == group
        except OSError:
            return False

    def give_terminal(self):
        if self.is_in_front(self.group):
            os.tcsetpgrp(self.terminal, self.program.pid)

    def take_terminal(self):
        if self.is_in_front(self.program.pid):
            os.tcsetpgrp(self.terminal, self.group)

    def on_stopped(self, number):
        """The program stopped: it wants the terminal, or it had it when Ctrl-Z was typed."""
        if number in WANTS_TERMINAL and self.is_in_front(self.group):
            self.has_terminal = True
            self.give_terminal()
            self.send(signal.SIGCONT)
        elif number in WANTS_TERMINAL or self.is_in_front(self.program.pid):
            self.has_terminal = True
            self.take_terminal()
            # all that was started with this process stops, this process by `stop`
            os.killpg(self.group, signal.SIGTSTP)

    def stop(self, number, _frame):
        """Stops the program and this process, until both are to go on."""
        self.send(signal.SIGTSTP)
        signal.signal(number, signal.SIG_DFL)
        os.kill(os.getpid(), number)
        signal.signal(number, self.stop)
        if self.has_terminal:
            self.give_terminal()
        self.send(signal.SIGCONT)


def lead():
    """Makes the program the leader of its group, before it starts."""
    os.setpgid(0, 0)
    signal.pthread_sigmask(signal.SIG_UNBLOCK, PASSED_ON)
