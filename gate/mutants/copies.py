"""Copies of functions, so that one check tries several mutants of a function.

A function that only those who name it can call, a free one or a method of no trait, may have a copy
below it in its file, under another name, with the explicit proofs that the function has. A mutant
that is such a copy has the contract and the goals that it has in place of the function, and nothing
calls it. So a check tries it beside the function's correct body, or beside another mutant.
"""
import re

from . import sources, steps
from .crates import BadEdit

# A copy has the name of its function, this, and a number.
COPY = "_copy_"


class Copy:
    """A mutant that is a copy of its function, in a file of this path. Of all else it is the edit
    `origin`."""

    def __init__(self, edit, name, source, item, proofs):
        self.origin, self.function, self.mutated = edit, name, name
        self.source, self.item, self.proofs = source, item, proofs

    def __getattr__(self, name):
        return getattr(self.origin, name)

    def applied(self, read):
        """The changed texts by their paths, where `read` gives the text of a path."""
        text = read(self.source)
        end = sources.body_of(self.crate, self.source, text, self.origin.function)[1]
        after = text.index("\n", end) + 1
        return {self.source: f"{text[:after]}\n{self.item}{text[after:]}", **self.proofs}


def paths_of(edit):
    """The paths of the files that an edit changes."""
    return {path for path, _, _ in edit.pairs}


def origin_of(tried):
    """The edit that a check tries as it is or as a copy."""
    return getattr(tried, "origin", tried)


def copied(edits, others, texts, folder, is_changed=True):
    """Each of these mutants, or of their correct bodies, as a copy, or as it is where the function
    cannot have a copy, and these texts with the copies. A check has these others too."""
    made = []
    for edit in edits:
        changed = {}
        try:
            it = copy_of(edit, [*others, *made], folder, is_changed) or edit
            if it is not edit:
                changed = it.applied(lambda path: texts.get(path) or folder.read(path))
        except BadEdit:
            it = edit
        made.append(it)
        texts = {**texts, **changed}
    return made, texts


def copy_of(edit, others, folder, is_changed=True):
    """The mutant, or its correct body, as a copy of its function, where a check has these others
    too, or None where the function cannot have a copy."""
    paths = paths_of(edit)
    if len(paths) != 1 or edit.is_constant or edit.is_outside or edit.is_recursive:
        return None
    source = paths.pop()
    text = edit.applied(folder.read)[source] if is_changed else folder.read(source)
    found = sources.found(edit.crate, source, text, edit.function)
    if edit.mutated != edit.function or not found or not can_be_copied(text, *found):
        return None
    if is_named_by_others(edit.function, folder):
        return None
    number = 1 + sum(origin_of(it).function == edit.function for it in others)
    name = f"{edit.function}{COPY}{number}"
    top, first = sources.place_of(source, text, edit.function)
    last = text.index("\n", found[2]) + 1
    own, new = [f"fn {it.split('::')[-1]}" for it in (edit.function, name)]
    item = text[top:first] + text[first:last].replace(own, new, 1)
    return Copy(edit, name, source, item, copied_proofs(edit.function, name, folder))


def can_be_copied(text, name, start, end, is_const, head):
    """Whether the function of that name, with its body from `start` to `end`, can be called by its
    name alone, does not call itself, and gives the linker no name."""
    own = re.escape(name.split("::")[-1])
    is_linked = head is not None and 'extern "C"' in text[head:start]
    calls_itself = re.search(rf"\b{own}(\(|::<)", text[start:end])
    return head is not None and not is_const and not is_linked and not calls_itself


def own_path(function):
    """The path that the names of the function's own modules of proofs begin with."""
    crate, *inside = function.split("::")
    return ".".join(["Rattle", crate, "proofs", *inside, ""])


def is_named_by_others(function, folder):
    """Whether a proof that is not the function's own names a module of it: it would not say the
    same of a copy."""
    own, name = f"{steps.place_of(function)}/", own_path(function)
    return any(name in folder.read(it) for it in folder.files("proofs") if not it.startswith(own))


def copied_proofs(function, name, folder):
    """The texts of the explicit proofs of the function, by their paths, as those of its copy."""
    return {f"{steps.place_of(name)}/{it}": text.replace(own_path(function), own_path(name))
            for it, text in steps.proofs_in(steps.place_of(function), folder).items()}
