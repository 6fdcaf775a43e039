"""Puts `#[must_use]` before public calls of which the result is all that they do.

They are the public functions and methods, outside impls of traits, that return a value and change
none of their arguments. A `Result` and an iterator of `core` have the attribute themselves.
"""

from .items import begins_item, function_parts, impl_head
from .panics import item_start

# Types with the attribute, as a path that is returned begins.
MARKED = ("Result", "slice", "vec")


def bodies_of_traits(source):
    """The ranges of the bodies of impls of traits."""
    for index in source.words():
        if source.at(index) == "impl" and begins_item(source, index):
            trait, _, body = impl_head(source, index)
            if trait:
                yield range(body, source.close(body))


def returned(source, index):
    """The index of the type that the function at the index returns, and where it ends."""
    start, body = function_parts(source, index)
    end = source.close(start)
    if body is None or not source.reads(end + 1, "-", ">"):
        return None
    changes = any(source.reads(k, "&", "mut") for k in range(start, end)) or any(
        source.kind(k) == "lifetime" and source.at(k + 1) == "mut" for k in range(start, end)
    )
    return None if changes else end + 3


def must_use(source):
    traits = list(bodies_of_traits(source))
    for index in source.words():
        if source.at(index) != "fn" or source.kind(index + 1) != "word":
            continue
        start = item_start(source, index)
        words = range(start, index)
        public = any(source.is_word(k, "pub") and source.at(k + 1) != "(" for k in words)
        if not public or any(index in body for body in traits):
            continue
        result = returned(source, index)
        if result is not None and source.at(result) not in MARKED:
            source.put_before(start, "#[must_use]\n", "must_use")
