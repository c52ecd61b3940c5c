"""Scripts that have no ending, as modules."""
import importlib.machinery
import importlib.util
import os

HERE = os.path.dirname(os.path.abspath(__file__))


def script(name, folder='.'):
    """A script of tests/, or of a folder that is named from there, as a module."""
    loader = importlib.machinery.SourceFileLoader(name.replace('-', '_'), os.path.join(HERE, folder, name))
    module = importlib.util.module_from_spec(importlib.util.spec_from_loader(loader.name, loader))
    loader.exec_module(module)
    return module
