"""Makes tests of the examples in doc comments of the library, by a table.

`examples.txt` has, for each example of the sources, its lines with `- ` before each, as they are
without an allocator, and after them those of the crate with `+ `, hidden ones included. An example
that the table does not have is an error, and so is one that no doc comment has any more.
"""

import pathlib

from .source import Unknown

TABLE = pathlib.Path(__file__).with_name("examples.txt")
FENCE = "```"


def read_table(path=TABLE):
    """The examples of the crate, by the text of those of the sources."""
    table, old, new = {}, [], []
    for line in [*path.read_text(encoding="utf-8").splitlines(), "-"]:
        mark, text = line[:1], line[2:]
        if mark == "-" and new:
            table["\n".join(old)] = new
            old, new = [], []
        if mark not in ("", "#", "-", "+") or mark == "+" and not old:
            raise ValueError(f"examples.txt: neither an example nor a comment: {line!r}")
        if mark in ("-", "+"):
            (old if mark == "-" else new).append(text)
    return table


def tested(lines, table, used):
    """The lines of a doc comment with its examples as tests."""
    result, at = [], 0
    while at < len(lines):
        if lines[at] != FENCE + "text":
            result.append(lines[at])
            at += 1
            continue
        end = lines.index(FENCE, at)
        old = "\n".join(lines[at + 1 : end])
        if old not in table:
            raise Unknown(f"an example that examples.txt does not have: {old}")
        used.add(old)
        result += [FENCE, *table[old], FENCE]
        at = end + 1
    return result
