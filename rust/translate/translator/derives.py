"""Derives `Hash`, `PartialOrd` and `Ord` beside `Eq`, as Rust's API guidelines ask of values.

A type that borrows and is not `Copy` is an iterator or a view: it gets none of them. Nor does one
with `Debug` by hand, since it contains types of a layer: `src/orders.rs` has its impls, with
bounds.
"""

from .clones import derives

PUT_IN = ("Hash", "PartialOrd", "Ord")


def borrows(source, end):
    """Whether the type after an attribute that ends before the index has a lifetime."""
    at = end
    while not source.is_word(at, "struct", "enum"):
        at += 1
    return source.at(at + 2) == "<" and source.kind(at + 3) == "lifetime"


def derive_orders(source):
    for start, end, _ in derives(source):
        names = {source.at(k): k for k in range(start + 1, end) if source.kind(k) == "word"}
        if "Eq" not in names or "Debug" not in names:
            continue
        if borrows(source, end) and "Copy" not in names:
            continue
        missing = [name for name in PUT_IN if name not in names]
        source.put_after(names["Eq"], "".join(f", {name}" for name in missing), "derive")
