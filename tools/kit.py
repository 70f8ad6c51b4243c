"""The kit's own scripts as modules: `rt` with what the gate does, and `rt.rtlib` with the crates of a repository.

The kit's command proves a crate and what is below it one after the other and keeps all of them locked meanwhile. To prove
crates side by side, the tools of this folder call what that command calls.
"""
import importlib.machinery
import importlib.util
import os
import shutil
import sys

TOP = os.path.dirname(os.path.dirname(os.path.realpath(__file__)))


def load():
    path = shutil.which("rt")
    if not path:
        sys.exit("the Rattle kit's command rt isn't on the path")
    sys.dont_write_bytecode = True
    loader = importlib.machinery.SourceFileLoader("rt", os.path.realpath(path))
    made = importlib.util.module_from_spec(importlib.util.spec_from_loader("rt", loader))
    sys.modules["rt"] = made
    loader.exec_module(made)
    # A signal's handler is set here, since only the main thread may.
    made.rtlib.guarded()
    return made


rt = load()
rtlib = rt.rtlib
