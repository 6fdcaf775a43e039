"""Derives `Clone` where the source has an explicit fallible one, and deletes derives of `Drop`.

`Clone::clone` of Rust returns the value itself, so it cannot replace an explicit clone that reports
an allocation failure. The derived one clones each field, and aborts where memory runs out.
"""

from .items import begins_item, impl_head
from .source import Unknown


def delete_clone_impls(source):
    """Deletes the explicit impls; returns the types that now derive `Clone`."""
    types = set()
    for index in range(len(source.kept)):
        if source.is_word(index, "impl") and begins_item(source, index):
            trait, target, body = impl_head(source, index)
            if trait == "Clone" and not has_condition(source, index, body):
                source.delete(source.front(index), source.close(body) + 1, "impl Clone")
                types.add(target)
    source.refresh()
    return types


def has_condition(source, index, body):
    """Whether the impl has a `where`, which no derive can state: it is kept."""
    return any(source.is_word(at, "where") for at in range(index, body))


def rewrite_conditional(source):
    """Has the kept impls clone each field, as a derived one does."""
    for index in range(len(source.kept)):
        if source.is_word(index, "impl") and begins_item(source, index):
            trait, _, body = impl_head(source, index)
            if trait == "Clone" and has_condition(source, index, body):
                infallible(source, body, source.close(body))
    source.refresh()


def infallible(source, start, end):
    """Deletes what makes the result of a body a `Result`: the type around, `Ok` and `?`."""
    for at in range(start, end):
        if source.reads(at, "Result", "<"):
            comma = source.end_of(at, ("AllocError",)) - 1
            source.delete(at, at + 2, "Result of a clone")
            source.delete(comma, comma + 3, "Result of a clone")
        elif source.reads(at, "Ok", "("):
            closed = source.close(at + 1)
            source.delete(at, at + 2, "Result of a clone")
            source.delete(closed, closed + 1, "Result of a clone")
        elif source.at(at) == "?":
            source.delete(at, at + 1, "Result of a clone")


def derived_type(source, end):
    """The name of the struct or enum after an attribute that ends before the index."""
    at = end
    while not source.is_word(at, "struct", "enum"):
        at += 1
    return source.at(at + 1)


def derives(source):
    """Of each derive: the index of its `(`, that of its `)`, and the type."""
    for index in range(len(source.kept)):
        if source.reads(index, "#", "[", "derive", "("):
            end = source.close(index + 3)
            yield index + 3, end, derived_type(source, end)


def derive_clones(source, types):
    """`Drop` in a derive is deleted, or is `Clone` where the type had its own."""
    missing = set(types)
    for start, end, target in derives(source):
        for index in range(start + 1, end):
            if not source.is_word(index, "Drop"):
                continue
            if target in missing:
                source.replace(index, "Clone", "derive")
                missing.discard(target)
            elif end == start + 2:
                source.delete(start - 3, end + 2, "derive(Drop)")
            elif source.at(index + 1) == ",":
                source.delete(index, index + 2, "derive(Drop)")
            else:
                source.delete(index - 1, index + 1, "derive(Drop)")
    if missing:
        raise Unknown(f"{source.name}: a type with its own Clone that derives no Drop: {missing}")
    source.refresh()


def rewrite_clones(source):
    derive_clones(source, delete_clone_impls(source))
    rewrite_conditional(source)
