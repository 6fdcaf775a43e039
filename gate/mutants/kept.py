"""Which mutants were seen rejected in this checkout.

The file out/wrong of a crate, which is not committed, has a line for each: its name, its sum, and
the toolchain. So a run goes on with those that an earlier one did not try.
"""
import os

from .crates import ROOT, folder_of, toolchain, write
from .marks import Marks


def kept_path(crate):
    return f"{ROOT}/crates/{crate}/out/wrong"


def kept_line(edit, marks):
    """The line that is kept of an edit that was seen rejected."""
    return f"{edit.label} {marks.mark(edit)} {toolchain()}"


def known_of(edits):
    """The mutants among these that earlier runs in this checkout saw rejected unchanged."""
    marks, kept = Marks(ROOT), {}
    for crate in {it.crate for it in edits}:
        folder = folder_of(crate)
        kept[crate] = {*folder.read("out/wrong").split("\n")} if folder.has("out/wrong") else set()
    return [it for it in edits if kept[it.crate] and kept_line(it, marks) in kept[it.crate]]


def keep(crates, rejected):
    """Keeps which mutants of these crates were seen rejected."""
    marks = Marks(ROOT)
    for crate in crates:
        lines = sorted({kept_line(it, marks) for it in rejected if it.crate == crate})
        if lines or os.path.exists(kept_path(crate)):
            os.makedirs(os.path.dirname(kept_path(crate)), exist_ok=True)
            write(kept_path(crate), "\n".join(lines))


def new_of(edits, known):
    """The edits of crates with a mutant that is not known. Correct bodies are tried together with
    mutants alone."""
    new = [it for it in edits if it not in known]
    crates = {it.crate for it in new if not it.is_control}
    return [it for it in new if it.crate in crates]
