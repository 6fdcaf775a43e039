"""Deletes laws, the calls of them, and what names them: imports, modules, tests of laws alone."""

from . import imports
from .items import free_words, function_parts, item_front
from .laws import DOES, call_at, methods, stem


def delete_laws(crate, file, laws):
    """Deletes the laws of a file, and the statements that call one."""
    source = crate.sources[file]
    for index in free_words(source):
        if source.at(index) == "fn" and (crate.name, file, source.at(index + 1)) in laws.items:
            start = item_front(source, index)
            _, body = function_parts(source, index)
            source.delete(start, source.close(body) + 1, "law")
    for index in methods(source):
        if source.at(index + 1) not in laws.methods:
            continue
        end = index + 5 if source.at(index + 4) == ";" else source.close(index + 4) + 1
        source.delete(item_front(source, index), end, "law")
    source.refresh()
    index = 0
    while index < len(source.kept):
        if source.is_word(index) and source.at(index - 1) in ("{", "}", ";", ""):
            call = call_at(source, index)
            if call and laws.is_law(call[0]):
                if any(source.at(k) in DOES for k in range(index, call[1])):
                    raise source.unknown(index, "a call of a law with an argument that is computed")
                source.delete(index, call[1], "call of a law")
                index = call[1]
                continue
        index += 1
    source.refresh()


def is_empty(source):
    """Whether a file has nothing but docs and private imports."""
    covered = {k for start, end in imports.use_items(source) for k in range(start, end + 1)}
    rest = [k for k in range(len(source.kept)) if k not in covered]
    return all(source.kind(k) == "doc" for k in rest)


def delete_empty_files(crate, laws):
    """Deletes files without an item, and the `mod` items that name them."""
    empty = [file for file, source in crate.sources.items() if is_empty(source)]
    names = {stem(file) for file in empty}
    laws.gone |= names
    for file in empty:
        del crate.sources[file]
    for source in crate.sources.values():
        for index in source.words():
            if source.at(index) == "mod" and source.at(index + 1) in names:
                if source.at(index + 2) == ";":
                    source.delete(item_front(source, index), index + 3, "module of laws")
        source.refresh()


def delete_imports(source, laws):
    """Deletes laws and their modules from `use` items, public ones too."""
    gone = laws.gone | (set(laws.modules) - laws.others)
    again = True
    while again:
        again = False
        for start, end in imports.use_items(source):
            for index in imports.imported_names(source, start, end):
                if source.at(imports.entry_start(source, index)) in gone:
                    imports.delete_entry(source, start, end, index)
                    again = True
                    break
            if again:
                break


def delete_empty_tests(source):
    """Deletes tests of which nothing is left; returns their names."""
    names = []
    for index in free_words(source):
        if source.at(index) == "fn" and source.reads(index - 4, "#", "[", "test", "]"):
            _, body = function_parts(source, index)
            if source.close(body) == body + 1:
                names.append(source.at(index + 1))
                source.delete(item_front(source, index), body + 2, "test of laws alone")
    source.refresh()
    return names


def delete_all(crates, laws):
    """Deletes the laws of the crates, their calls, and what names them."""
    for crate in crates:
        for file in crate.sources:
            delete_laws(crate, file, laws)
        delete_empty_files(crate, laws)
    for crate in crates:
        for source in crate.sources.values():
            delete_imports(source, laws)
