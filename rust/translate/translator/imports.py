"""Drops imports of names whose every use was deleted, and imports what Rattle's prelude has."""

from .items import begins_item

# What Rattle's prelude has and that of a crate without `std` has not.
PRELUDE = {"Vec": "alloc::vec::Vec", "String": "alloc::string::String"}
# The traits of `compat` by which fallible and renamed calls are methods.
METHODS = {
    "try_push": "TryVec",
    "try_reserve_room": "TryVec",
    "try_resize": "TryVec",
    "try_with_room": "TryVec",
    "try_from_array": "TryVec",
    "try_extend_from_slice": "TryVec",
    "try_to_vec": "TryToVec",
    "try_from_text": "TryFromText",
    "to_unsigned": "ToUnsigned",
    "to_signed": "ToSigned",
    "fill_zeros": "FillZeros",
    "next_multiple_of_four": "NextMultiple",
}
# Those that tests and the second program alone call; a module of each has them all.
IN_PROGRAMS = {"try_clone", "try_to_text", "try_repeat", "try_push_str", "try_from_str"}


def use_items(source):
    """The first and last index of each `use` item."""
    for index in source.words():
        if source.at(index) == "use" and begins_item(source, index):
            yield index, source.end_of(index, (";",))


def imported_names(source, start, end):
    """The index of each name that a `use` item brings in: its last word, or its alias."""
    return [
        k
        for k in range(start + 1, end)
        if source.is_word(k) and source.at(k + 1) in (",", ";", "}") and source.at(k) != "self"
    ]


def names_outside_imports(source, tokens):
    """How often each word is there outside `use` items."""
    imported = {id(t) for start, end in use_items(source) for t in source.kept[start : end + 1]}
    return {t.text for t in tokens if t.kind == "word" and id(t) not in imported}


def entry_start(source, index):
    """The first index of the entry that ends with the name: of `a as b` that of `a`."""
    return index - 2 if source.at(index - 1) == "as" else index


def delete_entry(source, start, end, index):
    """Deletes a name from a `use` item, or the whole item if it is the last one."""
    first = entry_start(source, index)
    if len(imported_names(source, start, end)) == 1:
        source.delete(source.front(start), end + 1, "import")
    elif source.at(index + 1) == ",":
        source.delete(first, index + 2, "import")
    else:
        source.delete(first - (source.at(first - 1) == ","), index + 1, "import")
    source.refresh()


def called_methods(source):
    """The names after a `.` or a `::`: those for which a trait may have been imported."""
    return {
        source.at(k)
        for k in source.words()
        if source.at(k - 1) == "." or source.is_path(k - 2)
    }


def unused_import(source, had, traits):
    """A name that is imported for this file alone, and whose every use was deleted."""
    has = names_outside_imports(source, source.kept)
    calls = called_methods(source)
    has |= {trait for trait, methods in traits.items() if methods & calls}
    for start, end in use_items(source):
        if source.at(start - 1) in ("pub", ")"):
            continue
        for index in imported_names(source, start, end):
            if source.kept[index].text in had and source.kept[index].text not in has:
                return start, end, index
    return None


def delete_unused(source, traits):
    had = names_outside_imports(source, source.tokens)
    while found := unused_import(source, had, traits):
        delete_entry(source, *found)


def imports_wanted(source, place):
    """The paths to import for the words of the file."""
    has = {source.at(k) for k in source.words()}
    if place.glob:
        return [place.glob] if has & (set(METHODS) | IN_PROGRAMS) else []
    wanted = [path for name, path in PRELUDE.items() if name in has and not place.hosted]
    traits = {trait for name, trait in METHODS.items() if name in has}
    return wanted + [f"{place.compat}::{trait}" for trait in sorted(traits)]


def first_item(source):
    """The index of the first item after the file's own docs and attributes."""
    index = 0
    while source.at(index).startswith("//!") or source.reads(index, "#", "!"):
        index = source.close(index + 2) + 1 if source.at(index) == "#" else index + 1
    return index


def put_imports(source, place):
    """Before the first `use` item of the file, else before its first item."""
    wanted = imports_wanted(source, place)
    if not wanted:
        return
    other = ("pub", ")", "{")
    outside = [start for start, _ in use_items(source) if source.at(start - 1) not in other]
    index = source.front(outside[0]) if outside else first_item(source)
    for path in reversed(wanted):
        source.put_before(index, f"use {path};\n", "import")
    if not outside:
        source.kept[index].before += "\n"
