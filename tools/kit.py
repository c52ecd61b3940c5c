"""What the tools share: where files are, and how they print and fail."""
import os
import shutil
import subprocess
import sys

TOP = os.path.dirname(os.path.dirname(os.path.abspath(__file__)))
PROGRAM = os.path.join(TOP, 'crates', 'taskaudit', 'out', 'taskaudit')
# The status that the program itself never ends with.
NOT_RUN = 70


def crate_folder(name):
    return os.path.join(TOP, 'crates', name)


def say(text):
    """Writes a line on standard error, at once."""
    print(f'taskaudit: {text}', file=sys.stderr, flush=True)


def fail(text):
    say(text)
    sys.exit(NOT_RUN)


def find_kit():
    """Ends with status 70 where there is no `rt`, and says where it is not of the kit that the file KIT names."""
    with open(os.path.join(TOP, 'KIT'), encoding='utf-8') as it:
        wanted = it.read().strip()
    if not shutil.which('rt'):
        fail(f'rt ({wanted}) must be on the PATH to build the program')
    found = subprocess.run(['rt', 'version'], stdout=subprocess.PIPE, text=True).stdout.strip()
    if found != wanted:
        say(f'this kit is {found}; the program was last proved with {wanted}')
