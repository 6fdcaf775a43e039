"""Deletes the allocator and, in tests and programs, the runtime.

`Global` is a value without a size that represents the one allocator of the process, so no call
depends on which `Global` it gets. So do `HostRuntime` and `impl Abort` represent the process.
"""

from .source import CLOSING

ALLOCATORS = ("alloc", "_alloc")
RUNTIMES = ("rt", "_rt")
STREAMS = ("stdin", "stdout", "stderr")
TYPES = {
    ("Global",): "allocator",
    ("ident",): "allocator",
    ("&", "impl", "Abort"): "runtime",
    ("&", "HostRuntime"): "runtime",
    ("HostRuntime",): "runtime",
}
BEFORE = ("(", "[", "{", ",", "|")
AFTER = (",", ")", "]", "}", "|")


def expression_end(source, index):
    """The end and the kind of the allocator or the runtime at the index, or None."""
    at = index + 1 if source.at(index) == "&" else index
    if source.at(at) == "$" and source.is_word(at + 1, *RUNTIMES):
        at += 1
    if source.is_word(at, *RUNTIMES):
        if source.reads(at + 1, ".", "alloc", "(", ")"):
            return at + 5, "allocator"
        return at + 1, "runtime"
    if at == index and source.reads(index, "self", ".", "alloc"):
        return index + 3, "allocator"
    if source.at(at) == "$":
        at += 1
    if source.is_word(at, *ALLOCATORS):
        return at + 1, "allocator"
    return None


def declared_end(source, end):
    """The end of the type of a parameter or field, if one follows, and its kind."""
    if source.at(end) != ":" or source.at(end + 1) == ":":
        return end, None
    for words, kind in TYPES.items():
        if source.reads(end + 1, *words) and source.at(end + 1 + len(words)) in AFTER:
            return end + 1 + len(words), kind
    return end, None


def whole_front(source, index):
    """The index of the visibility of a field, `pub(crate)`, or that of the field."""
    return index - 4 if source.reads(index - 4, "pub", "(", "crate", ")") else index


def whole_argument(source, index):
    """The ends and the kind of an argument, parameter or field that is the allocator or runtime."""
    start = whole_front(source, index)
    if source.at(start - 1) not in BEFORE and source.kind(start - 1) != "doc":
        return None
    found = expression_end(source, index)
    if not found:
        return None
    end, declared = declared_end(source, found[0])
    return (start, end, declared or found[1]) if source.at(end) in AFTER else None


def delete_argument(source, start, end, kind):
    """Deletes an argument with one comma beside it."""
    start = source.front(start)
    if source.at(end) == ",":
        end += 1
    elif source.at(start - 1) == ",":
        start -= 1
    source.delete(start, end, kind)
    source.refresh()


def delete_arguments(source):
    """Every argument, parameter and field that is the allocator or the runtime."""
    index, in_use = 0, False
    while index < len(source.kept):
        in_use = source.is_word(index, "use") or (in_use and source.at(index) != ";")
        found = None if in_use else whole_argument(source, index)
        if found:
            delete_argument(source, *found)
            index = max(found[0] - 2, 0)
        else:
            index += 1


def delete_allocator_statements(source):
    """`let alloc = rt.alloc();`"""
    for index in source.words():
        if source.reads(index, "let", "alloc", "="):
            found = expression_end(source, index + 3)
            if found and found[1] == "allocator" and source.at(found[0]) == ";":
                source.delete(index, found[0] + 1, "allocator")
    source.refresh()


def delete_from_pattern(source, index):
    """`$rt:expr;` in the patterns of the macro at the index."""
    for at in range(index, source.close(index + 3)):
        if source.reads(at, "$", "rt", ":", "expr", ";"):
            source.delete(at, at + 5, "runtime")


def delete_macro_runtime(source):
    """`assert!(rt; ..)` and its like: the runtime that a failed assertion ends."""
    for index in source.words():
        if source.at(index) == "macro_rules":
            delete_from_pattern(source, index)
        if source.at(index + 1) != "!" or source.at(index + 2) not in CLOSING:
            continue
        at = index + 3
        end = at + 1 + (source.at(at) == "&")
        if source.is_word(end - 1, *RUNTIMES):
            if source.at(end) == ";":
                source.delete(at, end + 1, "runtime")
            elif source.at(end) in AFTER:
                source.delete(at, end, "runtime")
    source.refresh()


def name_streams(source):
    """`rt.stdin()` is the process's standard input, as `std::io::stdin()` is."""
    for index in source.words():
        if source.reads(index, "rt", ".") and source.is_word(index + 2, *STREAMS):
            source.replace(index, "std::io::", "stream")
            source.delete(index + 1, index + 2, "runtime")
    source.refresh()
