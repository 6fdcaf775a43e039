"""Documents the panics of calls that require something of their caller.

A `requires` is proved at each call in Rattle, and binds nobody in Rust: a breach is a panic.
"""

from .items import traits
from .proofs import clause_end

TEXT = (
    "# Panics",
    "",
    "May panic where a condition of the caller that is named here does not hold. Where it does",
    "not panic then, the result has no meaning.",
)


def function_of(source, index):
    """The index of the word `fn` of the function that has the clause at the index."""
    while not source.is_word(index, "fn") or source.kind(index + 1) != "word":
        index -= 1
    return index


def item_start(source, index):
    """The first index of the function whose `fn` is at the index, with its attributes."""
    while True:
        if source.is_word(index - 1, "pub", "final", "const", "unsafe"):
            index -= 1
        elif source.at(index - 1) == "]":
            index -= 1
            while source.at(index) != "#":
                index -= 1
        else:
            return index


def is_public(source, function, start, bodies):
    return source.at(start) == "pub" or any(function in body for body in bodies) or any(
        source.at(k) == "pub" and source.at(k + 1) != "(" for k in range(start, function)
    )


def indentation(source, index):
    """The spaces before the first token of the item's line."""
    position = source.kept[index].index
    before = source.tokens[position - 1].text if position else ""
    return before.rsplit("\n", 1)[-1]


def document_panics(source):
    """Puts a heading `Panics` into the docs of each public function with a `requires`."""
    bodies = list(traits(source))
    documented = set()
    for index in source.words():
        if source.at(index) != "requires" or not clause_end(source, index):
            continue
        function = function_of(source, index)
        start = item_start(source, function)
        if function in documented or not is_public(source, function, start, bodies):
            continue
        documented.add(function)
        space = indentation(source, start)
        lines = [f"{space}/// {line}".rstrip() for line in TEXT]
        if source.kind(start - 1) == "doc":
            source.put_after(start - 1, "\n" + "\n".join([f"{space}///"] + lines), "panics")
        else:
            source.put_before(start, "\n".join(lines).lstrip() + f"\n{space}", "panics")
