"""Scripts of this folder as modules: their names have no ending."""
import importlib.machinery
import importlib.util
import pathlib
import sys


def load(name):
    """A script of this folder as a module."""
    loader = importlib.machinery.SourceFileLoader(name, str(pathlib.Path(__file__).resolve().parent / name))
    module = importlib.util.module_from_spec(importlib.util.spec_from_loader(name, loader))
    sys.dont_write_bytecode = True
    loader.exec_module(module)
    return module
