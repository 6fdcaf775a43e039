"""Writes each path as the Rust crate names it: `core` and `alloc` for `std`, modules for crates."""

# Where a module of Rattle's `std` is in Rust: in `core`, or in `alloc` for what allocates.
HOMES = {
    "cmp": "core",
    "error": "core",
    "fmt": "core",
    "hash": "core",
    "iter": "core",
    "marker": "core",
    "net": "core",
    "ops": "core",
    "slice": "core",
    "str": "core",
    "string": "alloc",
    "vec": "alloc",
}


class Place:
    """Where a crate's text goes: `own` is written for `crate`, `crates` maps the others' names, or
    the name of a crate in front of one item, as `hex` in `hex::encode`.

    `compat` is the module that replaces `std::alloc`; `support`, of tests, the one that replaces
    `std::test`. With `hosted`, everything else is Rust's `std`. With `checked`, casts are. `glob`
    is imported where a trait of those modules is called; without it, the trait is.
    """

    def __init__(
        self, own, crates, compat, hosted=False, support=None, checked=False, glob=None
    ):
        self.own = own
        self.crates = crates
        self.compat = compat
        self.hosted = hosted
        self.support = support
        self.checked = checked
        self.glob = glob


def std_group(source, index, place):
    """`use std::{slice, vec};`: each module from its own home."""
    end = source.close(index + 3)
    names = [source.at(k) for k in range(index + 4, end) if source.kind(k) == "word"]
    for name in names:
        if name not in HOMES:
            raise source.unknown(index, "a module of std that no rule knows")
    text = "; use ".join(f"{HOMES[name]}::{name}" for name in names)
    source.replace(index, text, "path")
    source.delete(index + 1, end + 1, "path")


def std_path(source, index, place):
    """A path that begins with `std`."""
    module = source.at(index + 3)
    if module == "alloc":
        source.replace(index, place.compat, "path")
        source.delete(index + 1, index + 4, "path")
    elif module == "test" and place.support:
        source.replace(index, place.support, "path")
        source.delete(index + 1, index + 4, "path")
    elif place.hosted:
        return
    elif module == "{":
        std_group(source, index, place)
    elif module in HOMES:
        if HOMES[module] != "std":
            source.replace(index, HOMES[module], "path")
    else:
        raise source.unknown(index, "a module of std that no rule knows")


def macro_path(source, index, place):
    """`$crate::name` in a macro: a macro is at the root of the crate, all else in its module."""
    exported = source.at(index + 4) == "!"
    if not exported and place.own != "crate":
        source.put_after(index, place.own.removeprefix("crate"), "path")


def name_paths(source, place):
    for index in source.words():
        if not source.is_path(index + 1) or source.is_path(index - 2):
            continue
        name = source.at(index)
        item = f"{name}::{source.at(index + 3)}"
        if item in place.crates:
            source.replace(index, place.crates[item], "path")
        elif name == "std":
            std_path(source, index, place)
        elif name == "crate" and source.at(index - 1) == "$":
            macro_path(source, index, place)
        elif name == "crate":
            if place.own != "crate":
                source.replace(index, place.own, "path")
        elif name in place.crates:
            source.replace(index, place.crates[name], "path")
    source.refresh()
