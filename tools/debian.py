"""Makes the Debian package byte by byte: the same bytes for the same program, commit and compiler, in any folder.

Below usr/lib/taskaudit the scripts and what they need have the places that they have in the repository, without
ompt/build, so that nothing is compiled there. The program is in its folder bin; usr/bin/taskaudit starts it."""
import gzip
import hashlib
import io
import os
import re
import tarfile
import tempfile
import time

from calling import TOP, NotMade, called, load, read

DESCRIPTION = """Auditor of recorded OpenMP tasks
 taskaudit reads a file of recorded events of OpenMP's tool interface (OMPT) and
 answers whether each taskwait, taskgroup and barrier ended, and each task with
 dependences started, only when it was allowed to. The code that reads, judges and
 prints is proved by machine.
 .
 taskaudit-run runs a program under the OpenMP runtime of LLVM or GCC, records
 its tasks, and audits what was recorded. taskaudit-explain explains an answer,
 and taskaudit-audit audits many files."""
# The documents named in the help, the errors and the scripts.
DOCUMENTS = ('CAUSES.md', 'FORMAT.md', 'LONG_RUNS.md', 'MODEL.md', 'RECORDING.md', 'SUITES.md', 'SUMMARY.md',
             'TIMELINE.md', 'trace.schema.json')
COMPLETIONS = {'bash': 'usr/share/bash-completion/completions/{}', 'zsh': 'usr/share/zsh/vendor-completions/_{}',
               'fish': 'usr/share/fish/vendor_completions.d/{}.fish'}
PRIVATE, OVERRIDES = 'usr/lib/taskaudit', 'usr/share/lintian/overrides/taskaudit'
DOC = 'usr/share/doc/taskaudit'
# What find_package(taskaudit) of CMake finds, and where it is in the repository.
FOR_CMAKE = {'usr/share/cmake/taskaudit/taskaudit-config.cmake': 'ompt/cmake/taskaudit-config.cmake'}
PROGRAM = f'{PRIVATE}/bin/taskaudit'
# usr/bin/taskaudit. It finds the program by its own place, so a package works in any folder where it is unpacked.
STARTER = b"""#!/bin/sh
# Starts the program. glibc then asks for pages of 2 MB for large blocks, so large files take less time. The last
# setting of a name counts: the user's, where there is one.
case $0 in */*) script=$0 ;; *) script=./$0 ;; esac
[ ! -L "$script" ] || script=$(readlink -f -- "$script")
export GLIBC_TUNABLES="glibc.malloc.hugetlb=1${GLIBC_TUNABLES:+:$GLIBC_TUNABLES}"
exec "${script%/*}/../lib/taskaudit/bin/taskaudit" "$@"
"""
# The scripts, by the names of the links to them in usr/bin.
SCRIPTS = {'taskaudit-run': 'ompt/taskaudit-run', 'taskaudit-explain': 'tools/explain', 'taskaudit-audit': 'tools/audit'}
# What the scripts import and read.
NEEDED = ('ompt/naming.py', 'ompt/outcomes.py', 'ompt/relaying.py', 'ompt/repeating.py', 'ompt/running.py',
          'ompt/runs.py', 'ompt/surroundings.py', 'ompt/watching.py', 'tools/answers.py', 'tools/arrows.py',
          'tools/checkers.py', 'tools/chosen.py', 'tools/contents.py', 'tools/explanations.py', 'tools/fields.py',
          'tools/judging.py', 'tools/junit.py', 'tools/orders.py', 'tools/page.py', 'tools/progress.py', 'tools/recording.py',
          'tools/sheet.py', 'tools/summary.py', 'tools/tails.py', 'tools/timeline.py', 'tools/traces.py', 'tools/walks.py',
          'tools/texts/version', 'tests/model.py', 'docs/trace.schema.json')
LIBRARIES = ('libtaskaudit_ompt.so', 'libtaskaudit_beside.so', 'libtaskaudit_gomp.so')
# The scripts have match statements.
OLDEST_PYTHON = (3, 10)
ANY_PYTHON, PYTHON = b'#!/usr/bin/env python3\n', b'#!/usr/bin/python3\n'
RECOMMENDED = 'libomp5 | libomp-dev, llvm | binutils'
OVERRIDDEN = f"""# The program needs no shared library, so it runs on any Linux on x86-64.
taskaudit: statically-linked-binary [{PROGRAM}]
"""
COPYRIGHT = """Format: https://www.debian.org/doc/packaging-manuals/copyright-format/1.0/
Upstream-Name: taskaudit
Comment:
 usr/lib/taskaudit/bin/taskaudit is linked with the GNU C library, which is under the LGPL, version 2.1 or later (its
 text is in /usr/share/common-licenses/LGPL-2.1). A release has the object file taskaudit.o, to link it again.

Files: *
Copyright: {year} the authors of taskaudit
License: Apache-2.0-with-LLVM-exception

Files: usr/lib/taskaudit/ompt/out/*
Copyright: {year} the authors of taskaudit
 LLVM's contributors
License: Apache-2.0-with-LLVM-exception
Comment:
 Compiled with LLVM's headers omp-tools.h and ompt-multiplex.h, which are under the same license.

License: Apache-2.0-with-LLVM-exception
 Licensed under the Apache License, version 2.0, with the exceptions below. On Debian systems the text of that
 license is in /usr/share/common-licenses/Apache-2.0.
 .
{exceptions}
"""


def compressed(data):
    """Returns what gzip makes of the bytes, with no time and no name."""
    return gzip.compress(data, 9, mtime=0)


def tar_of(files, links, seconds):
    """Returns a compressed tar archive of these files, a mode and bytes by each name, of these links, a target by each
    name, and of their folders."""
    names = [*files, *links]
    folders = {'/'.join(name.split('/')[:at]) for name in names for at in range(1, name.count('/') + 1)}
    raw = io.BytesIO()
    with tarfile.open(fileobj=raw, mode='w', format=tarfile.GNU_FORMAT) as archive:
        for name in ['', *sorted([*folders, *names])]:
            mode, data = files.get(name, (0o777 if name in links else 0o755, b''))
            member = tarfile.TarInfo(f'./{name}' if name else '.')
            member.type = (tarfile.REGTYPE if name in files else tarfile.SYMTYPE if name in links else
                           tarfile.DIRTYPE)
            member.mode, member.size, member.mtime = mode, len(data), seconds
            member.linkname = links.get(name, '')
            member.uname = member.gname = 'root'
            archive.addfile(member, io.BytesIO(data))
    return compressed(raw.getvalue())


def archive_of(members, seconds):
    """Returns an archive in the form of `ar`."""
    parts = [b'!<arch>\n']
    for name, data in members:
        head = f'{name:<16}{seconds:<12}{0:<6}{0:<6}{"100644":<8}{len(data):<10}`\n'
        parts += [head.encode(), data, b'\n' * (len(data) % 2)]
    return b''.join(parts)


def libraries():
    """Returns the recorder's libraries by their names, compiled anew and stripped."""
    found = {}
    with tempfile.TemporaryDirectory() as room:
        called([os.path.join(TOP, 'ompt/build'), room], 'ompt/build')
        for name in LIBRARIES:
            path = os.path.join(room, name)
            if not os.path.exists(path):
                raise NotMade(f"{name} is not built: LLVM's headers, as libomp-dev of Debian has them, are needed")
            called(['strip', '--strip-unneeded', '--remove-section=.comment', path], 'strip')
            found[name] = read(path), called(['objdump', '-T', path], 'objdump').decode()
    return found


def libc_of(libraries):
    """Returns the version of the C library that the libraries need."""
    versions = {it for _, symbols in libraries.values() for it in re.findall(r'GLIBC_([\d.]+)', symbols)}
    return max(versions, key=lambda it: [int(part) for part in it.split('.')])


def copyright_of(seconds):
    """Returns the file that names the licence, in the form that Debian has for it."""
    with open(os.path.join(TOP, 'LICENSE'), encoding='utf-8') as it:
        exceptions = it.read().partition('---- LLVM Exceptions to the Apache 2.0 License ----\n\n')[2]
    lines = [f' {line}' if line else ' .' for line in exceptions.rstrip('\n').split('\n')]
    return COPYRIGHT.format(year=time.gmtime(seconds).tm_year, exceptions='\n'.join(lines)).encode()


def changes_of(version, keeper, seconds):
    """Returns the list of changes in the form that Debian has for it; it refers to ours."""
    day = time.strftime('%a, %d %b %Y %H:%M:%S +0000', time.gmtime(seconds))
    return (f'taskaudit ({version}) unstable; urgency=medium\n\n  * /{DOC}/CHANGELOG.md lists the changes.\n\n'
            f' -- {keeper}  {day}\n').encode()


def words_files():
    """Returns the manual pages, and the completions for each shell, by their names."""
    pages, files = load('pages'), {}
    for name in ('taskaudit', *SCRIPTS):
        files[f'usr/share/man/man1/{name}.1.gz'] = compressed(pages.page('man', name).encode())
        for shell, place in COMPLETIONS.items():
            files[place.format(name)] = pages.page(shell, name).encode()
    return files


def installed_files(program, recorders, about):
    """Returns the files of the package, a mode and bytes by each name. `about` is its version, who keeps it, and the
    time of the commit in seconds."""
    files = {PROGRAM: program, 'usr/bin/taskaudit': STARTER, OVERRIDES: OVERRIDDEN.encode(), **words_files(),
             f'{DOC}/copyright': copyright_of(about[2]), f'{DOC}/changelog.gz': compressed(changes_of(*about)),
             f'{DOC}/CHANGELOG.md': read(os.path.join(TOP, 'CHANGELOG.md'))}
    files |= {f'{DOC}/{name}': read(os.path.join(TOP, 'docs', name)) for name in DOCUMENTS}
    files |= {name: read(os.path.join(TOP, place)) for name, place in FOR_CMAKE.items()}
    files |= {f'{PRIVATE}/ompt/out/{name}': data for name, (data, _) in recorders.items()}
    for name in (*SCRIPTS.values(), *NEEDED):
        data = read(os.path.join(TOP, name))
        files[f'{PRIVATE}/{name}'] = PYTHON + data[len(ANY_PYTHON):] if data.startswith(ANY_PYTHON) else data
    return {name: (0o755 if '/bin/' in name or data.startswith(b'#!') else 0o644, data)
            for name, data in files.items()}


def package_of(program, version, seconds):
    """Returns the Debian package."""
    keeper = called(['git', 'log', '-1', '--format=%cn <%ce>'], 'git log').decode().strip()
    recorders = libraries()
    files = installed_files(program, recorders, (version, keeper, seconds))
    links = {f'usr/bin/{name}': f'../lib/taskaudit/{place}' for name, place in SCRIPTS.items()}
    size = sum(len(data) for _, data in files.values())
    needed = f'libc6 (>= {libc_of(recorders)}), python3 (>= {OLDEST_PYTHON[0]}.{OLDEST_PYTHON[1]})'
    control = (f'Package: taskaudit\nVersion: {version}\nArchitecture: amd64\nMaintainer: {keeper}\n'
               f'Installed-Size: {(size + 1023) // 1024}\nDepends: {needed}\n'
               f'Recommends: {RECOMMENDED}\nSection: devel\nPriority: optional\nDescription: {DESCRIPTION}\n')
    sums = ''.join(f'{hashlib.md5(data).hexdigest()}  {name}\n' for name, (_, data) in sorted(files.items()))
    about = {'control': (0o644, control.encode()), 'md5sums': (0o644, sums.encode())}
    return archive_of([('debian-binary', b'2.0\n'), ('control.tar.gz', tar_of(about, {}, seconds)),
                       ('data.tar.gz', tar_of(files, links, seconds))], seconds)
