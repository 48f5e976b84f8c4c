"""The gate, the kit's rt on PATH, as a module for the scripts beside this file."""
import importlib.machinery
import importlib.util
import os
import pathlib
import shutil
import sys

TOP = pathlib.Path(__file__).resolve().parents[2]


def gate():
    """Returns the gate as a module, or ends the script where there is none."""
    found = shutil.which("rt")
    if found is None:
        sys.exit("there is no rt on PATH")
    file = os.path.realpath(found)
    sys.path.insert(0, os.path.dirname(file))
    loader = importlib.machinery.SourceFileLoader("rt", file)
    made = importlib.util.module_from_spec(importlib.util.spec_from_loader("rt", loader))
    loader.exec_module(made)
    return made


def crates(rt):
    """Returns the repository's crates, as the gate sees them, by their names."""
    found = rt.rtlib.crates_below(str(TOP))
    # (./acdm prove has rooms of its own below target/, with the same crates)
    return {it.name: it for it in found if pathlib.Path(it.folder).parent == TOP / "crates"}


def runs_anew(rt):
    """Returns the words that have this kit's gate prove and try everything, whatever an earlier run passed."""
    return ["rt", "ci", "--anew"] if "--anew" in rt.__doc__ else ["rt", "ci"]


def tries_apart(rt):
    """Returns whether this kit's gate tries each edit over a copy of the crate as it stands, and not one after the other."""
    return hasattr(rt, "REFUSED")


def is_refusal(rt, came_to):
    """Returns whether what must_fail of this kit's gate answered first says that an edit was refused."""
    return came_to in (rt.REFUSED, rt.AT_LIMIT) if tries_apart(rt) else came_to is True


def is_there(crate):
    """Whether a library stands as the gate, or a check, built it."""
    out = pathlib.Path(crate.folder) / "out" / "rlib"
    # (the gate leaves no stamp, and to reckon one takes long)
    return (out / f"{crate.name}.rlib" / "format").is_file() and not (out / "stamp").exists() or crate.is_built()
