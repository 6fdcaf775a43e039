"""Checks the casts that could lose bits: in Rattle their operands are proved to fit.

A cast to `usize` or `u64` loses nothing of an unsigned number on a 64-bit machine. One to `u8`,
`u16` or `u32` becomes a call that panics where the number does not fit, since a caller in Rust may
have broken a condition. That of `self` is the number of an enum without fields.
"""

CHECKED = ("u8", "u16", "u32")
WIDE = ("usize", "u64")


def macro_bodies(source):
    """The ranges of `macro_rules!` items: what is cast there is a byte of a literal."""
    for index in source.words():
        if source.reads(index, "macro_rules", "!"):
            yield range(index, source.close(index + 3) + 1)


def operand_start(source, end):
    """The first token of the operand that ends before `end`: a name, a field, or a group."""
    if source.at(end - 1) == ")":
        at = end - 1
        while source.at(at) != "(" or source.close(at) != end - 1:
            at -= 1
        return at
    return end - 1 if source.is_word(end - 1) and source.at(end - 2) not in (".", ":") else None


def check_casts(source, compat="crate::compat"):
    """Puts in `narrow_u16(..)` for `.. as u16`, and its like."""
    in_macros = [k for body in macro_bodies(source) for k in body]
    for index in source.words():
        if source.at(index) != "as" or source.kind(index + 1) != "word":
            continue
        kind = source.at(index + 1)
        if not (kind in CHECKED or kind in WIDE or kind[0] in "iu" and kind[1:].isdigit()):
            continue
        if kind in WIDE or source.at(index - 1) == "self" or index in in_macros:
            continue
        start = operand_start(source, index)
        if kind not in CHECKED or start is None:
            raise source.unknown(index - 1, "a cast that no rule knows")
        name = f"{compat}::narrow_{kind}"
        if source.at(start) == "(":
            source.put_before(start, name, "cast")
        else:
            source.put_before(start, name + "(", "cast")
            source.put_after(index - 1, ")", "cast")
        source.delete(index, index + 2, "cast")
    source.refresh()
