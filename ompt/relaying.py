"""The way of the records of a process to `taskaudit watch`. A relay hands on each byte that comes from the pipe of the
process, and keeps the last lines; it also writes all to a file where one is given."""
import contextlib
import fcntl
import json
import os
import select
import threading
from collections import deque

from recording import value_of

# How many bytes are read at once, and how many a pipe is to have room for.
PIECE = 1 << 20
# How many of the last lines are kept, and in how many bytes at most. They are dropped by pieces, so somewhat more lines
# may be kept.
LINES, BYTES = 1 << 16, 16 << 20
LONGEST_LINE = 1 << 16
# How long it takes at most to look at what is left, in seconds.
LONGEST_LOOK = 5


def lines_in(text):
    """How many lines end in the text. To take the ends out is three times as fast as to count them."""
    return len(text) - len(text.replace(b'\n', b''))


class Block:
    """A part of a text, and how many lines end in it."""

    def __init__(self):
        self.text, self.count = bytearray(), 0


class Tail:
    """The first line of a text, and the last lines of it."""

    def __init__(self):
        self.header, self.blocks = b'', deque()
        # how many lines end in the whole text, and how many of them before the blocks; and how many bytes these have
        self.count = self.dropped = self.size = 0

    def take(self, piece):
        """Takes the next piece of the text."""
        if not self.blocks or len(self.blocks[-1].text) >= PIECE:
            self.blocks.append(Block())
        last = self.blocks[-1]
        last.text += piece
        if not self.count:
            self.header = (self.header + piece[:piece.find(b'\n') + 1 or None])[:LONGEST_LINE + 1]
        added = lines_in(piece)
        last.count, self.count, self.size = last.count + added, self.count + added, self.size + len(piece)
        while self.has_enough_without_first():
            first = self.blocks.popleft()
            self.dropped, self.size = self.dropped + first.count, self.size - len(first.text)

    def has_enough_without_first(self):
        first = self.blocks[0]
        kept = self.count - self.dropped - first.count
        return len(self.blocks) > 1 and (kept > LINES or self.size > BYTES)

    def text(self, answer):
        """The whole lines that are kept behind the header, which also tells the line of the run that the first of them
        is, and the answer; and how many they are. None where there is no header."""
        header, text = value_of(self.header), b''.join(it.text for it in self.blocks)
        if not header or not self.header.endswith(b'\n'):
            return None
        # the blocks may begin inside a line, which began in the one before
        begin = text.find(b'\n') + 1
        lines = text[begin:text.rfind(b'\n') + 1]
        header['tail'] = {'line': self.dropped + 2, 'answer': answer}
        return json.dumps(header, separators=(',', ':')).encode() + b'\n' + lines, lines_in(lines)


def widen(pipe):
    """Gives the pipe more room, where the system allows that."""
    with contextlib.suppress(OSError):
        fcntl.fcntl(pipe, fcntl.F_SETPIPE_SZ, PIECE)


class Relay(threading.Thread):
    """Hands on what comes from the pipe `source` to `reader`, where `watch` reads, up to its end. When that does not read
    any more it leaves the pipe; but where a file is kept, it goes on up to the end for that."""

    def __init__(self, source, file=None):
        super().__init__(daemon=True)
        self.source, self.file, self.tail, self.fault = source, file, Tail(), None
        # how many lines came from the pipe
        self.count = 0
        self.buffer = memoryview(bytearray(PIECE))
        self.reader, self.to = os.pipe()
        self.told, self.teller = os.pipe()
        # whether the process had closed its pipe when `watch` read no more, once that is known
        self.was_closed, self.is_known = False, threading.Event()
        for it in (source, self.to):
            widen(it)

    def stop(self):
        """Has it leave the pipe, once nobody reads."""
        if self.teller is not None:
            os.close(self.teller)
        self.teller = None

    def run(self):
        os.set_blocking(self.source, False)
        try:
            self.was_closed = self.hand_on() or self.is_at_end()
            self.is_known.set()
            if not self.was_closed and self.file:
                self.keep_rest()
        finally:
            self.is_known.set()
            self.close()

    def close(self):
        for it in (self.source, self.told):
            os.close(it)
        self.close_to()
        if self.file:
            self.file.close()

    def release(self):
        """Gives back the memory, when it has ended."""
        self.tail, self.buffer = Tail(), None

    def close_to(self):
        if self.to is not None:
            os.close(self.to)
        self.to = None

    def hand_on(self):
        """Hands on what comes. Returns whether that was all: not if nobody reads any more, or it is told to stop."""
        waits = self.waits(self.to)
        while waits():
            piece = self.read()
            if piece is None:
                continue
            if not piece:
                self.close_to()
                return True
            self.tail.take(piece)
            self.count = self.tail.count
            self.keep(piece)
            if not self.give(piece):
                break
        self.close_to()
        return False

    def waits(self, *others):
        """Returns what waits until there is something to read, and returns whether nothing came of the others and of
        being told to stop."""
        poll, others = select.poll(), (self.told, *others)
        for it in others:
            # an error, as that there is no reader, is told in any case
            poll.register(it, 0)
        poll.register(self.source, select.POLLIN)
        return lambda: not {it for it, _ in poll.poll()}.intersection(others)

    def read(self):
        """The next piece: an empty one at the end, and None where there is none now."""
        try:
            return bytes(self.buffer[:os.readv(self.source, [self.buffer])])
        except BlockingIOError:
            return None

    def give(self, piece):
        """Hands on a piece; returns whether somebody reads."""
        left = memoryview(piece)
        try:
            while left:
                left = left[os.write(self.to, left):]
        except BrokenPipeError:
            return False
        return True

    def keep(self, piece):
        """Writes a piece to the file, until that fails."""
        left = memoryview(piece)
        try:
            while left and self.file and not self.fault:
                left = left[self.file.write(left):]
        except OSError as error:
            self.fault = error.strerror

    def is_at_end(self):
        """Whether nothing follows what is in the pipe now. What is there is not handed on any more."""
        left = 2 * PIECE
        while left > 0 and (piece := self.read()) is not None:
            if not piece:
                return True
            self.keep_behind(piece)
            left -= len(piece)
        return False

    def keep_behind(self, piece):
        self.count += lines_in(piece)
        self.keep(piece)

    def keep_rest(self):
        """Writes what comes to the file, up to the end."""
        waits = self.waits()
        while waits():
            piece = self.read()
            if piece is None:
                continue
            if not piece:
                return
            self.keep_behind(piece)
