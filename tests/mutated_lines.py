#!/usr/bin/env python3
"""mutated_lines.py [COUNT]: COUNT (10,000) lines, each one of lines/as_written.jsonl with one to three random changes.

They are for comparing two builds of the reader: `tests/mutated_lines.py | probe lines` must print the same for both.
The same count gives the same lines each time."""
import os
import random
import sys

HERE = os.path.dirname(os.path.abspath(__file__))
PIECES = [b' ', b'\t', b'\r', b'"', b'\\', b'\\u0061', b',', b':', b'{', b'}', b'[', b']', b'null', b'true', b'false',
          b'-', b'+', b'.', b'e', b'0', b'00', b'9', b'4294967295', b'4294967296', b'18446744073709551615',
          b'18446744073709551616', b'1e999', b'1.0', b'\xc3\xa9', b'\xff', b'\x00', b'"more":1,', b'"task":7,',
          b'"flags":[],', b'"path":[1,2],', b'"seen":1,']


def with_a_digit(line, source):
    """The line with one digit replaced by another."""
    places = [i for i, b in enumerate(line) if b in b'0123456789']
    if not places:
        return line
    at = source.choice(places)
    return line[:at] + source.choice([b'0', b'1', b'5', b'9', b'12']) + line[at + 1:]


def with_a_space(line, source):
    """The line with white space beside a sign of JSON's."""
    places = [i for i, b in enumerate(line) if b in b'{}[],:']
    if not places:
        return line
    at = source.choice(places) + source.randrange(2)
    return line[:at] + source.choice([b' ', b'\t', b'\r', b'  ']) + line[at:]


def with_members_exchanged(line, source):
    """The line with the text between two commas moved elsewhere."""
    parts = line.strip(b'{}').split(b',"')
    source.shuffle(parts)
    return b'{"' + b',"'.join(part.lstrip(b'"') for part in parts) + b'}'


def changed(line, source):
    """The line with one change: a piece put in, bytes taken out, doubled or exchanged, or a byte replaced."""
    at = source.randrange(len(line) + 1)
    end = min(len(line), at + source.choice([1, 1, 2, 5, 20]))
    kind = source.randrange(12)
    if kind == 0:
        return line[:at] + source.choice(PIECES) + line[at:]
    if kind == 1:
        return line[:at] + line[end:]
    if kind == 2:
        return line[:end] + line[at:]
    if kind == 3:
        return line[:at] + source.choice(PIECES) + line[end:]
    if kind == 4:
        return line[:at] + bytes([source.choice([b for b in range(256) if b != 10])]) + line[at + 1:]
    if kind in (5, 6):
        return with_a_digit(line, source)
    if kind in (7, 8):
        return with_a_space(line, source)
    if kind in (9, 10):
        return with_members_exchanged(line, source)
    other = source.randrange(len(line) + 1)
    first, second = sorted([at, other])
    return line[:first] + line[second:second + 8] + line[first:second] + line[second + 8:]


def main():
    count = int(sys.argv[1]) if len(sys.argv) > 1 else 10000
    source = random.Random('mutated lines')
    with open(os.path.join(HERE, 'lines/as_written.jsonl'), 'rb') as it:
        lines = it.read().splitlines()
    for _ in range(count):
        line = source.choice(lines)
        for _ in range(source.choice([1, 1, 1, 2, 3])):
            line = changed(line, source)
        sys.stdout.buffer.write(line + b'\n')


if __name__ == '__main__':
    main()
