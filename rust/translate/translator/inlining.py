"""Puts `#[inline]` before small functions: else rustc does not inline them into other crates.

The toolchain optimizes all crates as one. rustc compiles each crate alone, and a generic function
in the crate that uses it: its calls of functions that are not generic stay calls there, unless
these have `#[inline]`. With link-time optimization they can be inlined, and more of them are with
that attribute.
"""

from .items import function_parts, impl_head

# The methods of impls of these traits, of one attribute each: emission calls them for each one.
TRAITS = ("Nla", "Parseable")
# The functions that copy a payload.
FUNCTIONS = ("copy_of",)


def methods_of_impls(source):
    """The indices of the functions of impls of those traits."""
    for index in source.words():
        if source.at(index) != "impl" or source.at(index - 1) in ("&", "(", ":", "-", ">"):
            continue
        trait, _, body = impl_head(source, index)
        if trait in TRAITS:
            yield from (k for k in range(body, source.close(body)) if source.at(k) == "fn")


def has_inline(source, start):
    """Whether the attribute right before an item is one of inlining."""
    at = start - 1
    while source.at(at) == "]":
        while source.at(at) != "#":
            at -= 1
        if source.at(at + 2) == "inline":
            return True
        at -= 1
    return False


def inline_small(source):
    chosen = set(methods_of_impls(source))
    for index in source.words():
        if source.at(index) == "fn" and source.at(index + 1) in FUNCTIONS:
            chosen.add(index)
    for index in sorted(chosen):
        start = index - (source.at(index - 1) == "pub")
        if function_parts(source, index)[1] is not None and not has_inline(source, start):
            source.put_before(start, "#[inline]\n", "inline")
