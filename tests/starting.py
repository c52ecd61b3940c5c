"""How a script starts the program taskaudit: its words, its exit status and its setting of glibc."""
import os
import subprocess

SETTING = 'GLIBC_TUNABLES'
LARGE, SMALL, OTHER = 'glibc.malloc.hugetlb=1', 'glibc.malloc.hugetlb=0', 'glibc.malloc.arena_max=1'
# What the user sets, and what the program must get. The last setting of a name counts.
SETTINGS = {None: LARGE, '': LARGE, SMALL: f'{LARGE}:{SMALL}', OTHER: f'{LARGE}:{OTHER}'}
STUB = f'#!/bin/sh\nprintf "%s\\n" "${SETTING}" "$@"\nexit 3\n'
WORDS = ['check', '--workers', '2', 'a b', '']
LOADER = '/lib64/ld-linux-x86-64.so.2'


def write_stub(path):
    """Writes a script that stands in for the program: it prints its setting and its words."""
    with open(path, 'w', opener=lambda name, flags: os.open(name, flags, 0o755)) as it:
        it.write(STUB)


def printed(words, setting, **how):
    """Returns what a command prints with this setting, and its status."""
    told = {name: value for name, value in os.environ.items() if name != SETTING}
    told |= {} if setting is None else {SETTING: setting}
    ended = subprocess.run(words, env=told, stdin=subprocess.DEVNULL, stdout=subprocess.PIPE, stderr=subprocess.STDOUT,
                           timeout=60, **how)
    return ended.stdout.decode(), ended.returncode


def starts(name, words, **how):
    """Yields checks of what a command starts, where a stub stands in for the program."""
    for setting, wanted in SETTINGS.items():
        lines = ''.join(f'{it}\n' for it in (wanted, *WORDS))
        yield f'{name}: {SETTING} is {setting!r}', (lines, 3), printed([*words, *WORDS], setting, **how)


def last_setting():
    """Yields checks that the last of two settings of a name is the one that glibc takes."""
    def taken(setting):
        told = printed([LOADER, '--list-tunables'], setting)[0] if os.path.exists(LOADER) else ''
        return next((line.split()[1] for line in told.splitlines() if line.startswith('glibc.malloc.hugetlb:')), None)
    if not taken(LARGE):
        print('starting: skipped which of two settings glibc takes, since it has no glibc.malloc.hugetlb here')
        return
    for setting, wanted in ((LARGE, '0x1'), (f'{LARGE}:{SMALL}', '0x0'), (f'{SMALL}:{LARGE}', '0x1')):
        yield f'glibc takes of {setting}', wanted, taken(setting)
