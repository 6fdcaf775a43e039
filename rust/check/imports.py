"""Paths as the crate has them, and imports apart from other words."""
import re

from words import Word, item_end, without


def placed(path, paths, crate):
    """A path as the crate has it, by its longest listed prefix; `-` where it has no such thing."""
    if path.split("::")[0] == "crate" and crate:
        return crate + path[len("crate") :]
    front = path
    while front not in paths and "::" in front:
        front = front.rpartition("::")[0]
    return paths[front] + path[len(front) :] if front in paths else path


STARTS_IMPORT = (";", "{", "}", "]", "pub", ")")


def take_imports(words, paths, crate):
    """The other words, each path as the crate has it; and the imported names, one by one."""
    rest, names, at = [], [], 0
    while at < len(words):
        word = words[at]
        if word.text == "use" and (not at or words[at - 1].text in STARTS_IMPORT):
            end = item_end(words, at, (";",))
            public = rest.pop() if rest and rest[-1].text == "pub" else None
            for leaf in leaves(words[at + 1 : end - 1]):
                name = placed(leaf, paths, crate)
                if not name.startswith("-"):
                    names.append(Word(f"use {'pub ' if public else ''}{name}", word.line, ()))
            at -= public is not None
            words = without(words, at, end, False)
            continue
        if "::" in word.text[1:] and not is_macro(words, at):
            word = word._replace(text=placed(word.text, paths, crate))
        rest.append(word)
        at += 1
    return rest, names


def is_macro(words, at):
    """Whether a path is `$crate::name!`: exported macros are at the root of a crate."""
    return at and words[at - 1].text == "$" and words[at + 1].text == "!"


def leaves(words):
    """The names of a tree of imports, written out."""
    tree = "".join(" as " if word.text == "as" else word.text for word in words)
    while group := re.search(r"([^{},]*)\{([^{}]*)\}", tree):
        names = [group[1] + name for name in group[2].split(",") if name]
        tree = tree[: group.start()] + ",".join(names) + tree[group.end() :]
    return [name.removesuffix("::self") for name in tree.split(",")]
