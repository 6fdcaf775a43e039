"""Which functions are laws: those that do nothing, and are there for their contracts alone.

A law is a function outside `impl` and `trait`, without a result and without a `&mut` parameter.
Its body is empty, or has only calls of laws, or of a getter of a shared reference that it was
given. So a call of it changes nothing, and what it computes is dropped. The arguments of a call
only name values, which is checked.

A law of a trait is a function that it declares without parameters, result and body. Its name is
that of no other function.
"""

from .items import free_words, function_parts

# What an argument of a law has none of: it would do more than name a value.
DOES = ("?", "!", "mut", ".", "=", "|", "{")


def after_angles(source, index):
    """The index after the arguments of types whose `<` is at the index."""
    depth = 0
    while True:
        depth += (source.at(index) == "<") - (source.at(index) == ">")
        index += 1
        if depth == 0:
            return index


def call_at(source, index):
    """Of a statement that is a call by a path: the path and the index after its `;`, or None."""
    path, at = [], index
    while source.is_word(at):
        path.append(source.at(at))
        at += 1
        if not source.is_path(at):
            break
        at += 2
        if source.at(at) == "<":
            at = after_angles(source, at)
    if not path or source.at(at) != "(" or source.at(source.close(at) + 1) != ";":
        return None
    return path, source.close(at) + 2


def is_getter(source, index):
    """Whether `.name();` is at the index."""
    return source.at(index) == "." and source.reads(index + 2, "(", ")", ";")


def calls_alone(source, body, shared):
    """The paths that a body calls, if it has nothing but calls, else None."""
    at, end, paths = body + 1, source.close(body), []
    while at < end:
        if source.at(at) in shared and is_getter(source, at + 1):
            at += 6
            continue
        call = call_at(source, at)
        if not call:
            return None
        paths.append(call[0])
        at = call[1]
    return paths


def candidates(source):
    """The functions that may be laws: the index of `fn`, that of the body, and what is called."""
    for index in free_words(source):
        if source.at(index) != "fn" or source.kind(index + 1) != "word":
            continue
        start, body = function_parts(source, index)
        if body is None or source.at(source.close(start) + 1) == "-":
            continue
        given = range(start, source.close(start))
        changes = any(source.reads(k, "&", "mut") for k in given)
        shared = {source.at(k) for k in given if source.reads(k + 1, ":", "&")}
        paths = calls_alone(source, body, shared)
        if not changes and paths is not None:
            yield index, body, paths


def methods(source):
    """The indices of `fn` of functions of traits and types without parameters and result."""
    free = set(free_words(source))
    for index in source.words():
        if source.at(index) == "fn" and index not in free and source.reads(index + 2, "(", ")"):
            if source.at(index + 4) in (";", "{"):
                yield index


def stem(file):
    """The name of the module that a file is."""
    return file.removesuffix(".rt").split("/")[-1]


class Laws:
    """The laws of some crates: where each is, and by name the modules that define it."""

    def __init__(self, crates, earlier=None):
        self.items = set()
        self.modules = dict(earlier.modules) if earlier else {}
        self.others = set(earlier.others) if earlier else set()
        self.gone = set(earlier.gone) if earlier else set()
        self.aliases = dict(earlier.aliases) if earlier else {}
        self.methods = set(earlier.methods) if earlier else set()
        files = [(c.name, file, source) for c in crates for file, source in c.sources.items()]
        self.methods |= {
            source.at(index + 1) for _, _, source in files for index in methods(source)
            if source.at(index + 4) == ";"
        }
        for _, _, source in files:
            self.note_aliases(source)
        found = {
            (crate, file, source.at(index + 1)): paths
            for crate, file, source in files
            for index, _, paths in candidates(source)
        }
        while self.grow(found):
            pass
        self.others |= {
            source.at(index + 1)
            for crate, file, source in files
            for index in free_words(source)
            if source.at(index) == "fn" and (crate, file, source.at(index + 1)) not in self.items
        }

    def note_aliases(self, source):
        """Other names by `as` in imports."""
        for index in source.words():
            if source.at(index) == "as" and source.at(index + 2) in (",", ";", "}"):
                self.aliases.setdefault(source.at(index + 1), set()).add(source.at(index - 1))

    def grow(self, found):
        """Takes up each function whose every call is one of a law; says whether there was one."""
        before = len(self.items)
        for item, paths in found.items():
            if all(self.is_law(path) for path in paths):
                self.items.add(item)
                self.modules.setdefault(item[2], set()).add(stem(item[1]))
        return len(self.items) > before

    def names(self, word):
        """The names that a word may be another name of, and itself."""
        return {word} | self.aliases.get(word, set())

    def is_law(self, path):
        """Whether a call by this path is that of a law."""
        if len(path) > 1 and path[-1] in self.methods:
            return True
        for name in self.names(path[-1]):
            if name not in self.modules:
                continue
            if len(path) == 1 and name not in self.others:
                return True
            if len(path) > 1 and self.names(path[-2]) & self.modules[name]:
                return True
        return False
