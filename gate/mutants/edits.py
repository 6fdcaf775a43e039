"""Mutants: what each one changes, and the function that must reject it.

The text of a mutant is as `forms` says. An edit may also change a constant or a type alias; its
line `fn:` then names a function that rests on it. Where the old text is once in the file and in no
body at all, as the derived `==` of a type, that line names the law or the impl that must not be
proved. The correct bodies of wrong/control.edits must not count as rejected.
"""
import re

from . import sources, steps
from .crates import BadEdit
from .forms import CONTROL, forms_in, module_of
from .quick import TACTICS


class Edit:
    """A mutant or a correct body of a crate, of this text."""

    def __init__(self, crate, form):
        self.crate, self.form = crate, form
        self.is_control = form.place == CONTROL
        self.label = "/".join(filter(None, [crate, form.place, form.name]))
        self.function, self.goal = [form.words.get(it, "") for it in ("fn", "goal")]
        self.mutated = form.words.get("in", self.function)
        self.by, self.pairs = form.words.get("by", "search"), form.pairs
        self.is_constant = self.is_outside = False
        self.moves_steps = self.has_loop = self.is_recursive = False
        # Each body, constant or text that it changes, as it makes it, once `look` was called.
        self.made = []

    def where(self):
        """The file and the line that the edit begins at."""
        return f"crates/{self.crate}/{self.form.where()}"

    def applied(self, read):
        """The changed texts by their paths, where `read` gives the text of a path. BadEdit where
        the edit can't be applied."""
        return self.applied_and_made(read)[0]

    def applied_and_made(self, read):
        """The same, and what it makes of each body, constant or text that it changes."""
        if self.form.error:
            raise BadEdit(f"crates/{self.crate}/{self.form.error}")
        if self.by not in TACTICS:
            raise BadEdit(f"{self.where()}: no check answers a goal so: {self.by}")
        if self.form.place != self.place():
            raise BadEdit(f"{self.where()}: it belongs in {self.place()}.edits")
        texts, made = {}, []
        for path, old, new in self.pairs:
            text = texts.get(path) or read(path)
            start, end = self.span(path, text, old)
            made.append(text[start:end].replace(old, new))
            texts[path] = text[:start] + made[-1] + text[end:]
        return texts, made

    def place(self):
        """The place that the edit belongs in: that of the module of its function."""
        is_own = self.is_control or self.form.place == "must-fail"
        return self.form.place if is_own else f"wrong/{module_of(self.function)}"

    def look(self, folder):
        """Notes whether the edit can be applied, whether it moves steps that explicit proofs may
        name, and what kind of function it changes."""
        texts, self.made = self.applied_and_made(folder.read)
        for path, text in texts.items():
            bodies = [(it, sources.body_of(self.crate, path, it, self.function))
                      for it in (folder.read(path), text)]
            old, new = [it[slice(*body)] for it, body in bodies]
            self.moves_steps |= steps.are_moved(old, new)
            self.has_loop |= bool(re.search(r"\b(for|while|loop)\b", new))
            self.is_recursive |= sources.is_in_cycle(self.crate, path, text, self.function)
        self.moves_steps &= steps.names_steps(self.function, folder)
        self.is_recursive |= bool(steps.shared_proof(self.function, folder)[0])

    def own_text(self):
        """All that a check and its verdict take from this edit, whatever the form of its file."""
        kinds = [self.is_constant, self.is_outside, self.moves_steps, self.has_loop,
                 self.is_recursive]
        return [self.label, self.function, self.mutated, self.goal, self.by, str(kinds),
                *(it for pair in self.pairs for it in pair), *self.made]

    def span(self, path, text, old):
        """Where the body, the constant or the text of the file starts and ends in which the old
        text is once."""
        body = sources.body_of(self.crate, path, text, self.mutated)
        times = text[slice(*body)].count(old)
        if times == 1:
            return body
        at = text.find(old)
        if times == 0 and text.count(old) == 1:
            around = [it for it in sources.constants_of(text) if it[0] <= at < it[1]]
            bodies = [it[1:3] for it in sources.bodies_of(self.crate, path, text)]
            if around:
                self.is_constant = True
                return around[0]
            if not any(start <= at < end for start, end in bodies):
                self.is_outside = True
                return at, at + len(old)
        raise BadEdit(f"{self.where()}: its old text is {times} times in the body of {self.mutated}"
                      f" in {path}, and is not once in the file, in a constant or outside all "
                      f"bodies: {old}")


def edits_in(crate, folder, places=("wrong",)):
    """The edits of a crate, whose folder this is, and the paths of files in these places that have
    none."""
    found = [(it, forms_in(folder, it)) for place in places for it in folder.files(place)]
    edits = [Edit(crate, form) for _, forms in found for form in forms or ()]
    return edits, [path for path, forms in found if forms is None]
