"""Macros of all crates: those that only deleted text expanded, and those that are exported."""


def definitions(source):
    """Of each `macro_rules!`: its name, and the first and last index."""
    for index in source.words():
        if source.reads(index, "macro_rules", "!"):
            yield source.at(index + 2), index, source.close(index + 3)


def mentions(source):
    """The words of a file, but for a macro's own name inside its definition."""
    inside = {k: name for name, start, end in definitions(source) for k in range(start, end + 1)}
    return {source.at(k) for k in source.words() if inside.get(k) != source.at(k)}


def attributed_start(source, index):
    """The first index of the attributes and docs before the item."""
    while source.at(index - 1) == "]":
        index -= 1
        while source.at(index) != "#":
            index -= 1
    return source.front(index)


def delete_unexpanded(sources):
    """Deletes each macro that no text names any more, until none is left."""
    again = True
    while again:
        named = set().union(*(mentions(source) for source in sources))
        again = False
        for source in sources:
            for name, start, end in reversed(list(definitions(source))):
                if name not in named:
                    source.delete(attributed_start(source, start), end + 1, "macro")
                    again = True
            source.refresh()


def hide_exported(sources):
    """`#[macro_export]` puts a macro at the root of the crate; its docs are in its module."""
    for source in sources:
        for _, start, _ in definitions(source):
            if source.reads(start - 4, "#", "[", "macro_export", "]"):
                source.put_before(start - 4, "#[doc(hidden)]\n", "docs")


def exported(sources):
    """The names of the macros with `#[macro_export]`."""
    names = []
    for source in sources:
        for name, start, _ in definitions(source):
            if source.reads(start - 4, "#", "[", "macro_export", "]"):
                names.append(name)
    return sorted(names)
