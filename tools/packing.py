"""Makes the files of a release from a built program: the same bytes for the same program and commit, in any
folder.

A release has the program linked with no shared library, its object file, a Debian package, the file RELEASE,
which names commit, version and logic, and the checksums of all."""
import os
import shutil
import tempfile

from calling import TOP, NotMade, called, read, sum_of
from debian import package_of


class Kit:
    """The kit that built the program: its folder, and how it links."""

    def __init__(self):
        first_page = called(['rt', 'doc'], 'rt doc').decode().strip()
        self.folder = os.path.dirname(first_page)
        self.name = called(['rt', 'version'], 'rt version').decode().strip()
        self.parts = [os.path.join(self.folder, 'c', it) for it in ('libos_c.a', 'liblibc_c.a')]

    def link(self, thing, to):
        """Links an object file as `rt` does."""
        linker, toolchain = [os.path.join(self.folder, it) for it in ('bin/rattle-link', 'toolchain')]
        called([linker, '--target', 'x86_64-unknown-linux-gnu', '--toolchain', toolchain, '-o', to, thing,
                *self.parts], 'rattle-link')

    def link_static(self, thing, to):
        """Links an object file with the C library of this machine, with no shared library and without symbols."""
        called(['cc', '-static', '-s', '-Wl,--build-id=none', '-o', to, thing, *self.parts, '-lm', '-lpthread'],
               'cc -static (a C compiler and a static C library, as libc6-dev of Debian has it, are needed)')


def is_object_of(kit, thing, program):
    """Whether the program is what this object file links to, whatever the file is called."""
    if not os.path.isfile(thing):
        return False
    with tempfile.TemporaryDirectory() as room:
        kit.link(thing, os.path.join(room, 'program'))
        return read(os.path.join(room, 'program')) == read(program)


def object_at_hand(kit, program):
    """Returns the path of the program's object file: where it was kept before, or beside the program, where
    its build left it. None where there is none: `rt ci` leaves none of a program that it passed before."""
    kept = os.path.join(TOP, 'out', f'{sum_of(read(program))}.o')
    if is_object_of(kit, kept, program):
        return kept
    if not is_object_of(kit, f'{program}.o', program):
        return None
    os.makedirs(os.path.dirname(kept), exist_ok=True)
    shutil.copyfile(f'{program}.o', kept)
    return kept


def statically_linked(kit, thing):
    """Returns the program of an object file, linked with no shared library."""
    with tempfile.TemporaryDirectory() as room:
        kit.link_static(thing, os.path.join(room, 'taskaudit'))
        return read(os.path.join(room, 'taskaudit'))


def files_of(program, thing, kit):
    """Returns the files of a release by their names; without an object file the program itself is packed."""
    linked = statically_linked(kit, thing) if thing else read(program)
    said = called([program, '--version'], 'taskaudit --version').decode()
    version = said.split()[1]
    if f'logic: {kit.name}\n' not in said:
        raise NotMade(f'the program names another logic than that of the kit, {kit.name}')
    commit, seconds = called(['git', 'log', '-1', '--format=%H %ct'], 'git log').decode().split()
    files = {'taskaudit': linked, 'RELEASE': f'commit: {commit}\n{said}'.encode(),
             f'taskaudit_{version}_amd64.deb': package_of(linked, version, int(seconds))}
    if thing:
        files['taskaudit.o'] = read(thing)
    sums = ''.join(f'{sum_of(data)}  {name}\n' for name, data in sorted(files.items()))
    return {**files, 'SHA256SUMS': sums.encode()}


def pack(folder, program, thing, kit):
    """Writes the files of a release to a folder that is new or empty."""
    os.makedirs(folder, exist_ok=True)
    if os.listdir(folder):
        raise NotMade(f'{folder} is not empty')
    for name, data in files_of(program, thing, kit).items():
        with open(os.path.join(folder, name), 'wb') as it:
            it.write(data)
    os.chmod(os.path.join(folder, 'taskaudit'), 0o755)
