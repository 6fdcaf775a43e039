"""Names the calls that report an allocation failure: in Rust the plain names abort instead.

A call that is given the allocator is known by its path or name. A call that only grows a `Vec` or
a `String` is known by its name, unless the crate defines a method of that name itself.
"""

from .allocator import expression_end

# Calls that are given the allocator. None of `new` allocates.
BY_PATH = {
    ("Vec", "new"): "new",
    ("String", "new"): "new",
    ("Vec", "with_capacity"): "try_with_room",
    ("Vec", "from_array"): "try_from_array",
    ("String", "with_capacity"): "try_with_room",
    ("String", "from_str"): "try_from_text",
    ("Map", "new"): "new",
    ("Value", "try_from_str"): "try_from_str",
    ("hex", "encode"): "encode",
}
BY_NAME = {"to_vec": "try_to_vec", "to_string": "try_to_text", "repeat": "try_repeat"}
# Calls that grow what they are called on. Room for `push_reserved` was reserved before.
GROWING = {
    "push": "try_push",
    "resize": "try_resize",
    "reserve": "try_reserve_room",
    "extend_from_slice": "try_extend_from_slice",
    "push_reserved": "push",
    "clone": "try_clone",
}
IN_MACROS = ("vec", "format")
PRINTING = ("print", "println", "eprint", "eprintln")
# The types on which a crate with a method of the same name may call one of those.
GROWN = ("Vec", "String")


def path_before(source, index):
    """The type before `::name`, without its arguments: `Vec` of `Vec::<u8>::name`."""
    at = index - 3
    if source.at(at) == ">":
        while source.at(at) != "<":
            at -= 1
        at -= 3 if source.is_path(at - 2) else 1
    return source.at(at)


def rename(source, index, name):
    if source.at(index) != name:
        source.replace(index, name, "fallible call")


def name_allocating_calls(source, own):
    """Calls whose first argument is the allocator: of the crates, or of one of the tables."""
    for index in source.words():
        if source.at(index + 1) != "(" or not expression_end(source, index + 2):
            continue
        end, kind = expression_end(source, index + 2)
        if kind != "allocator" or source.at(end) not in (",", ")"):
            continue
        name = source.at(index)
        if source.is_path(index - 2) and (path := (path_before(source, index), name)) in BY_PATH:
            rename(source, index, BY_PATH[path])
        elif source.at(index - 1) == "." and name in BY_NAME and name not in own.here:
            rename(source, index, BY_NAME[name])
        elif name not in own.anywhere:
            raise source.unknown(index, "an allocating call that no rule knows")


def is_grown(source, index):
    """Whether the name at the index is a parameter of its function, a `&mut` of such a type."""
    name, at = source.at(index), index
    if source.at(index - 1) == ".":
        return False
    while at > 0 and not (source.is_word(at, "fn") and source.is_word(at + 1)):
        at -= 1
    return any(
        source.reads(k, name, ":", "&", "mut") and source.at(k + 4) in GROWN
        for k in range(at, index)
    )


def name_growing_calls(source, own):
    """Methods of `Vec` and `String` that may allocate."""
    for index in source.words():
        name = source.at(index)
        if source.at(index - 1) != "." or source.at(index + 1) != "(":
            continue
        if name in GROWING and (name not in own.here or is_grown(source, index - 2)):
            rename(source, index, GROWING[name])
        elif name == "push_str" and source.at(source.close(index + 1) + 1) == "?":
            rename(source, index, "try_push_str")


def name_printing_macros(source):
    """`println!(rt; ..)` and its like give a `Result`."""
    for index in source.words():
        if source.at(index) in PRINTING and source.reads(index + 1, "!", "("):
            source.replace(index, "try_" + source.at(index), "fallible call")


def name_allocating_macros(source):
    """`vec![in alloc; ..]` and `format!(in alloc; ..)` give a `Result`."""
    for index in source.words():
        if source.at(index + 1) == "!" and source.at(index + 3) == "in":
            found = expression_end(source, index + 4)
            if source.at(index) not in IN_MACROS or not found or source.at(found[0]) != ";":
                raise source.unknown(index, "an allocating macro that no rule knows")
            source.delete(index + 3, found[0] + 1, "allocator")
            source.replace(index, "try_" + source.at(index), "fallible call")
    source.refresh()
