"""Loads the toolchain's `rt` as a module, so that the scripts in this folder can use its functions."""
import importlib.machinery
import os
import shutil
import subprocess
import sys
import types

if not shutil.which("rt"):
    sys.exit(f"{os.path.basename(sys.argv[0])}: `rt`, the command of the Rattle toolchain, is not on the path")
KIT = os.path.dirname(subprocess.run(["rt", "doc"], capture_output=True, text=True, check=True).stdout.split()[-1])
ROOT = os.path.dirname(os.path.dirname(os.path.realpath(__file__)))


def load_rt():
    """Returns the module. Starts its guard, so that the processes it runs end with the script."""
    rt = types.ModuleType("rt")
    rt.__file__ = f"{KIT}/bin/rt"
    importlib.machinery.SourceFileLoader("rt", rt.__file__).exec_module(rt)
    rt.rtlib.guarded()
    return rt


def crates(rt):
    """The repository's crates, lowest first, limited to HANDLES as in the gate."""
    rt.Crate.allowed = rt.handles_of(ROOT)
    rt.rtlib.Crate = rt.Crate
    return rt.rtlib.crates_below(ROOT)
