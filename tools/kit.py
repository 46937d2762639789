"""What the scripts of this repository take of the Rattle kit: its command `rt` as a module, and the crates of this repository."""
import importlib.machinery
import importlib.util
import os
import shutil
import sys

TOP = os.path.dirname(os.path.dirname(os.path.abspath(__file__)))


def load():
    """Returns the kit's command `rt` as a module; its library is `load().rtlib`. Ends the script where no `rt` is on the path."""
    found = shutil.which("rt")
    if not found:
        sys.exit("no rt on the path: the Rattle kit is needed")
    path = os.path.realpath(found)
    sys.path.insert(0, os.path.dirname(path))
    sys.dont_write_bytecode = True
    loader = importlib.machinery.SourceFileLoader("rt", path)
    module = importlib.util.module_from_spec(importlib.util.spec_from_loader("rt", loader))
    loader.exec_module(module)
    return module


def crates(rt):
    """Returns the crates of this repository by name, each after those that it stands on."""
    return {it.name: it for it in rt.rtlib.crates_below(TOP)}
