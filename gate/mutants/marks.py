"""A checksum of all that the verdict on a mutant depends on.

That is: the edit as it is read, and what it makes of the body that it changes; that body, the
contracts of the functions that this text names, and all else in `src/` of the crate but bodies of
functions and comments; `specs/`, the lemmas of `proofs/` and the proofs beside the function's own;
of each library below what a crate above sees of it: the same of `src/`, `specs/` and lemmas; and
the code that judges. The toolchain is compared too (`seen`). Where an edit has equal sums in two
states of the repository, it has equal verdicts.

The code that judges is the module `batches` and those that it imports. The others read mutants,
choose which are tried, and count. What they give to a check is in the sum, and not their text: so
the form of the files of mutants may change, and no verdict with it.

A free function, or a method of no trait, is reached by its name alone. So the contract of one that
neither the edit, the body, the rest of `src/` outside of functions, nor an import of `specs/` or
`proofs/` names is left out. A function of a trait or of its impl may be called without being named,
as `==` or a drop is, and its contract is never left out.
"""
import functools
import hashlib
import re

from .crates import BadEdit, Folder, below, crates_of, folder_of
from .edits import edits_in
from .sources import UNSEEN, bodies_of, heads_of, may_be, names_in, place_of, visible

# A line of specs/ or proofs/ that is a comment.
COMMENT = re.compile(r"^\s*--( .*)?\n", re.M)
# The module of the code that judges by which all of it is found, and its imports.
JUDGES = "batches"
IMPORT = re.compile(r"^from \.(\w*) import ([\w, ]*)", re.M)


class Marks:
    """The sums of one state of the repository, in a folder."""

    def __init__(self, root):
        self.root, self.crates = root, crates_of(root)
        for it in ("library", "judge", "read", "files", "uncommented", "base", "heads", "edits"):
            setattr(self, it, functools.cache(getattr(self, it)))

    def mark(self, edit):
        """The sum of an edit in this state. BadEdit where it cannot be applied here."""
        self.look(edit)
        beside = self.files(edit.crate, "/".join(["proofs", *edit.function.split("::")[1:-1]]))
        shown = {edit.function, edit.mutated}
        libraries = below(self.crates, edit.crate)
        own = [(it, text) for it, text in self.parts_of(edit.crate, shown, beside)
               if (it, text) not in self.base(edit.crate)[0]]
        texts = [*edit.own_text(), *self.bodies(edit.crate, shown)]
        words = re.findall(r"\w+", " ".join(texts))
        named = {*words}.union(*(names_in(*it) for it in own),
                               *(self.base(it)[1] for it in [edit.crate, *libraries]))
        parts = [self.judge(), *edit.own_text(), self.library(edit.crate)]
        parts += [text for it in own for text in it] + [self.library(it) for it in libraries]
        parts += [text for it in [edit.crate, *libraries] for name, path, head in self.heads(it)
                  if name in named and path not in shown for text in (path, head)]
        return total(parts)

    def own(self, edit):
        """The sum of an edit's own text and of the function that it changes, with its contract."""
        self.look(edit)
        shown, functions = {edit.function, edit.mutated}, []
        for path in self.files(edit.crate, "src"):
            text = self.read(edit.crate, path)
            functions += [text[place_of(path, text, name)[0] : end]
                          for name, _, end, _, _ in bodies_of(edit.crate, path, text)
                          if any(may_be(name, function) for function in shown)]
        return total([*edit.own_text(), *(UNSEEN.sub("", it) for it in functions)])

    def look(self, edit):
        if not edit.made:
            edit.look(folder_of(edit.crate, self.root))

    def library(self, name):
        """The sum of the text of a crate that every verdict over it depends on."""
        return total([name, *(text for it in self.base(name)[0] for text in it)])

    def base(self, name):
        """That text, by files, and the words of it that may name functions."""
        parts = self.parts_of(name, set(), ())
        return parts, frozenset().union(*(names_in(*it) for it in parts))

    def bodies(self, name, shown):
        """The bodies of these functions of a crate."""
        texts = [(it, self.read(name, it)) for it in self.files(name, "src")]
        return [text[start:end] for path, text in texts
                for it, start, end, _, _ in bodies_of(name, path, text)
                if any(may_be(it, function) for function in shown)]

    def heads(self, name):
        """The heads of the functions of a crate that are reached by their names alone."""
        return [it for path in self.files(name, "src")
                for it in heads_of(name, path, self.read(name, path))]

    def read(self, crate, path):
        return folder_of(crate, self.root).read(path)

    def files(self, crate, path):
        return folder_of(crate, self.root).files(path)

    def parts_of(self, name, shown, proofs):
        """The texts of a crate that verdicts depend on, each with its path, where the functions in
        `shown` are read whole."""
        parts = [("", " ".join(self.crates[name]))]
        for path in self.files(name, "src"):
            text = self.read(name, path)
            here = {it[0] for it in bodies_of(name, path, text)
                    if any(may_be(it[0], function) for function in shown)}
            parts.append((path, visible(name, path, text, frozenset(here))))
        read = {*self.files(name, "specs"), *lemmas(folder_of(name, self.root)), *proofs}
        return parts + [(it, self.uncommented(name, it)) for it in sorted(read)]

    def uncommented(self, crate, path):
        return COMMENT.sub("", self.read(crate, path))

    def judge(self):
        """The sum of the code that judges."""
        top, left, texts = Folder(self.root), [JUDGES], {}
        while left:
            name = left.pop()
            path = f"gate/mutants/{name}.py"
            if path not in texts and top.has(path):
                texts[path] = top.read(path)
                for module, names in IMPORT.findall(texts[path]):
                    left += [module] if module else re.findall(r"\w+", names)
        return total([text for it in sorted(texts.items()) for text in it])

    def edits(self, crate):
        """The edits of a crate in this state, by their names."""
        found = edits_in(crate, folder_of(crate, self.root))[0] if crate in self.crates else []
        return {it.label: it for it in found}

    def of(self, label, crate, sum_of):
        """What `sum_of`, which is `mark` or `own`, gives for the edit of that name in this state,
        or nothing where none of that name can be applied."""
        try:
            edit = self.edits(crate).get(label)
            return sum_of(edit) if edit else ""
        except (BadEdit, OSError):
            return ""


def lemmas(folder):
    """The files of lemmas of a crate: those directly in proofs/."""
    return {f"proofs/{it}" for it in folder.names("proofs") if folder.has(f"proofs/{it}")}


def total(parts):
    """A sum of texts, which depends on where each one ends."""
    made = hashlib.sha256()
    for it in parts:
        made.update(f"{len(it)} {it}".encode())
    return made.hexdigest()
