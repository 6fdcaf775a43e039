"""Rejects what no rule knows: after the rules, every word left must have the same meaning in Rust.

The names that are left are those which the translated crates define, those of the modules that are
not generated, and those of `vocabulary.txt`. The last ones are names of Rust's library that
Rattle's library has with the same meaning. A new name of the library is an error until somebody has
compared the two.
"""

import pathlib

from .source import CLOSING, Unknown

VOCABULARY = pathlib.Path(__file__).with_name("vocabulary.txt")
# Words of Rattle alone, and names for which a rule exists.
FOREIGN = {
    *("ghost", "requires", "ensures", "invariant", "final", "prove", "Global", "Model", "Abort"),
    *("HostRuntime", "AllocGlobal", "cast_unsigned", "cast_signed", "from_octets", "push_reserved"),
    *("from_array", "rattlefmt"),
    *("rt", "_rt", "_alloc"),
}
ATTRIBUTES = {
    *("inline", "derive", "repr", "macro_export", "cfg", "test", "error", "unsafe", "rustfmt"),
}
DERIVES = {"Clone", "Copy", "Debug", "PartialEq", "Eq", "Hash", "Error"}
DEFINING = ("fn", "const", "struct", "enum", "trait", "type", "mod", "static")


def read_vocabulary(path=VOCABULARY):
    """The words of the file; a line that begins with `#` is a comment."""
    lines = path.read_text(encoding="utf-8").splitlines()
    return {word for line in lines if not line.startswith("#") for word in line.split()}


def variants(source):
    """The names of the variants of each enum."""
    for index in source.words():
        if source.at(index) == "enum" and source.kind(index + 1) == "word":
            body = source.end_of(index, ("{",))
            at = body + 1
            while at < source.close(body):
                while source.kind(at) == "doc" or source.at(at) == "#":
                    at = source.close(at + 1) + 1 if source.at(at) == "#" else at + 1
                if source.kind(at) == "word":
                    yield source.at(at)
                at = source.end_of(at, (",", "}")) + 1


def defined(source):
    """The names that a file defines."""
    names = set(variants(source))
    for index in source.words():
        if source.at(index) in DEFINING and source.kind(index + 1) == "word":
            names.add(source.at(index + 1))
        elif source.reads(index, "macro_rules", "!"):
            names.add(source.at(index + 2))
        elif source.at(index) == "const" and source.reads(index + 1, "_"):
            names.add("_")
    return names


def called_names(source):
    """The indices of methods that are called, of macros, and of names after `::`."""
    for index in source.words():
        method = source.at(index - 1) == "." != source.at(index - 2) and (
            source.at(index + 1) == "(" or source.is_path(index + 1)
        )
        macro = (
            source.at(index + 1) == "!"
            and source.at(index + 2) in CLOSING
            and source.at(index - 1) != "$"
            and source.at(index) not in ("if", "while", "match", "return", "in")
        )
        path = source.is_path(index - 2)
        if method or macro or path:
            yield index


def check_attributes(source):
    for index in range(len(source.kept)):
        at = index + 1 + (source.at(index + 1) == "!")
        if source.at(index) != "#" or source.at(at) != "[":
            continue
        if source.at(at + 1) not in ATTRIBUTES:
            raise source.unknown(index, "an attribute that no rule knows")
        if source.at(at + 1) == "derive":
            for k in range(at + 3, source.close(at + 2)):
                if source.kind(k) == "word" and source.at(k) not in DERIVES:
                    raise source.unknown(k, "a derive that no rule knows")


def check_known(source, names):
    """Raises `Unknown` at the first form that is not known."""
    check_attributes(source)
    for index in source.words():
        text = source.kept[index].text
        bare = text == "alloc" and not source.is_path(index + 1)
        if text == source.at(index) and (text in FOREIGN or bare):
            raise source.unknown(index, "a word of Rattle that no rule took away")
    for index in range(len(source.kept)):
        if source.kind(index) == "mark" and not source.at(index).isascii():
            raise source.unknown(index, "a sign of a clause that no rule took away")
    missing = {}
    for index in called_names(source):
        text = source.kept[index].text
        if text == source.at(index) and text not in names:
            missing.setdefault(text, source.kept[index].line)
    if missing:
        raise Unknown(f"{source.name}: names that vocabulary.txt does not have: {missing}")
