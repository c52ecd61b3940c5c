"""What the tools that make a release share: how they run commands, read files, and fail."""
import hashlib
import importlib.machinery
import importlib.util
import os
import subprocess

TOP = os.path.dirname(os.path.dirname(os.path.abspath(__file__)))


class NotMade(Exception):
    """Why there is no release."""


def load(name):
    """Returns a script of tools/ that has no ending as a module."""
    loader = importlib.machinery.SourceFileLoader(name, os.path.join(TOP, 'tools', name))
    module = importlib.util.module_from_spec(importlib.util.spec_from_loader(name, loader))
    loader.exec_module(module)
    return module


def read(path):
    with open(path, 'rb') as it:
        return it.read()


def called(words, what):
    """Runs a command, and returns what it prints."""
    try:
        ran = subprocess.run(words, cwd=TOP, stdin=subprocess.DEVNULL, capture_output=True)
    except OSError as error:
        raise NotMade(f'{what}: {error}') from error
    if ran.returncode:
        raise NotMade(f'{what}: {ran.stderr.decode(errors="replace").strip()}')
    return ran.stdout


def sum_of(data):
    return hashlib.sha256(data).hexdigest()
