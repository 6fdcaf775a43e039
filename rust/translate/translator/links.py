"""Makes links of the names of items in doc comments of the library.

A name in backticks is linked where it is that of a public type, trait or function, of a member of
one (`Family::Frame`, `Nla::fit_len`), or of a member of the type that the comment is about. The
text keeps the name; a line at the end of the comment has the path that it links to.
"""

import re

from .imports import imported_names, use_items
from .items import begins_item, impl_head, item_front

NAME = re.compile(r"(?<!\[)`((?:layers::)?[A-Za-z_]\w*(?:::[A-Za-z_]\w*)?)`(?!\])")
OF_TYPES = ("struct", "enum", "trait", "impl")


def exported(root):
    """The names that the root of a crate exports from modules of its own."""
    own = {root.at(k + 1) for k in root.words() if root.at(k) == "mod"}
    return {
        root.at(index)
        for start, end in use_items(root)
        if root.at(start - 1) == "pub" and root.at(start + 1) in own
        for index in imported_names(root, start, end)
    }


def variants_in(source, body):
    """The names of the variants of the enum with this body."""
    at = body.start + 1
    while at < body.stop:
        while source.kind(at) == "doc" or source.at(at) == "#":
            at = source.close(at + 1) + 1 if source.at(at) == "#" else at + 1
        if source.kind(at) == "word":
            yield source.at(at)
        at = source.end_of(at, (",", "}")) + 1


def functions_in(source, word, body):
    """The names of the functions of a trait, or of the public ones of an impl."""
    for k in body:
        if source.at(k) == "fn" and source.kind(k + 1) == "word":
            if word == "trait" or "pub" in (source.at(k - 1), source.at(k - 2)):
                yield source.at(k + 1)


def items_of_types(source):
    """Of each item about a type: its index, its word, the type, and the range of its body."""
    for index in source.words():
        word = source.at(index)
        if word not in OF_TYPES or not begins_item(source, index) and source.at(index - 1) != "]":
            continue
        end = source.end_of(index, ("{", ";"))
        name = impl_head(source, index)[1] if word == "impl" else source.at(index + 1)
        if word == "impl" and name is None:
            name = inherent(source, index)
        stop = source.close(end) if source.at(end) == "{" else end
        yield index, word, name, range(end, stop)


def inherent(source, index):
    """The type of an impl without a trait: the last name outside its parameters."""
    at = index + 1
    if source.at(at) == "<":
        depth = 1
        while depth:
            at += 1
            depth += (source.at(at) == "<") - (source.at(at) == ">" and source.at(at - 1) != "-")
        at += 1
    return source.at(at)


class Names:
    """What may be linked: `paths` of names, and `members` of types and traits."""

    def __init__(self, crates):
        self.paths, self.members, self.aliases = {}, {}, {}
        for crate in crates:
            self.add(crate)

    def add(self, crate):
        module = crate.place.own
        self.paths[module.removeprefix("crate::")] = module
        public = exported(crate.sources["lib.rt"])
        self.paths |= {name: f"{module}::{name}" for name in public}
        for source in crate.sources.values():
            for index in source.words():
                if source.at(index) == "type" and source.at(index + 2) == "=":
                    self.aliases[source.at(index + 1)] = source.at(index + 3)
            for _, word, name, body in items_of_types(source):
                if name in public:
                    found = variants_in(source, body) if word == "enum" else functions_in(
                        source, word, body
                    )
                    if word != "struct":
                        self.members.setdefault(name, set()).update(found)

    def path_of(self, name, about):
        """The path that a name links to in a comment about a type, or None."""
        if name in self.members.get(about, ()):
            return f"{self.paths[about]}::{name}"
        if name in self.paths:
            return None if name == about or name.isupper() else self.paths[name]
        outer, _, member = name.partition("::")
        outer = self.aliases.get(outer, outer)
        return f"{self.paths[outer]}::{member}" if member in self.members.get(outer, ()) else None


def subjects(source):
    """The types that doc comments are about: the first and last index in `tokens`, and the type."""
    return [
        (source.kept[item_front(source, index)].index, source.kept[body.stop].index, name)
        for index, _, name, body in items_of_types(source)
    ]


def subject_of(spans, token):
    """The type that the comment with this token is about, or None."""
    return next((name for first, last, name in spans if first <= token.index <= last), None)


def linked(text, names, about, found):
    """The text with links; `found` gets their paths by their names."""

    def link(match):
        path = names.path_of(match.group(1), about)
        if path is None:
            return match.group()
        found[match.group(1)] = path
        return f"[{match.group()}]"

    return NAME.sub(link, text)


def definitions(found):
    """The lines that say what the links are."""
    lines = [f"[`{name}`]: {path}" for name, path in found.items()]
    return ["", *lines] if lines else []
