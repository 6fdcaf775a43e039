"""Reads the form of all tables: a title, a head, and rows of columns with doc comments below them.

Columns are two or more spaces apart, and `-` is an empty cell. A doc comment is a line that begins
with spaces; a line that is indented further continues it. A line that ends with `\\` goes on in the
next, with another column.
"""
import collections
import dataclasses
import re

LINK_HEADER = "include/uapi/linux/if_link.h"


class Bad(Exception):
    """What is wrong in a line of a table."""

    def __init__(self, path, number, said):
        super().__init__(f"{path}:{number}: {said}")


class Line(collections.namedtuple("Line", "path number text")):
    """A line of a table, or a part of it."""

    def bad(self, said):
        """The error of this line."""
        return Bad(self.path, self.number, said)


@dataclasses.dataclass(frozen=True)
class Row:
    """A row: its cells by the names of their columns, and its doc comments."""
    line: Line
    cells: dict
    docs: list

    def __getitem__(self, column):
        return self.cells[column]

    def number(self, column):
        """The number in a cell, decimal or hexadecimal."""
        try:
            return int(self.cells[column], 0)
        except ValueError:
            raise self.line.bad(f"{self.cells[column] or '-'} is no number") from None


# A table: its path, its title, the lines of its head by their first word, and its rows.
Table = collections.namedtuple("Table", ["path", "title", "head", "rows"])


def lines(root, name):
    """The lines of tables/NAME. Rejects an empty file, tabs, trailing blanks, and text that is not
    UTF-8."""
    path = f"tables/{name}"
    try:
        text = (root / path).read_bytes().decode("utf-8")
    except (FileNotFoundError, UnicodeDecodeError) as error:
        missing = isinstance(error, FileNotFoundError)
        raise Bad(path, 1, "there is no such table" if missing else "it is not UTF-8") from None
    if not text.strip():
        raise Bad(path, 1, "the table is empty")
    found = [Line(path, at, line) for at, line in enumerate(text.split("\n"), 1)]
    if found.pop().text:
        raise Bad(path, len(found) + 1, "the last line has no end")
    for line in found:
        if "\t" in line.text or line.text != line.text.rstrip():
            raise line.bad("a tab" if "\t" in line.text else "a trailing blank")
    return joined(found)


def joined(found):
    """The lines, each with those that it goes on in."""
    given = []
    for line in found:
        if given and given[-1].text.endswith("\\"):
            before = given.pop()
            line = before._replace(text=f"{before.text[:-1].rstrip()}  {line.text.strip()}")
        given.append(line)
    if given[-1].text.endswith("\\"):
        raise given[-1].bad("the line goes on, and there is no other")
    return given


def cells(text):
    """The cells of a line: `-` is an empty one."""
    return ["" if cell == "-" else cell for cell in re.split(r"\s{2,}", text.strip())]


def head(found, keys):
    """The title and the head, the lines up to an empty one. Rejects keys that are not expected."""
    given = {}
    if not found[0].text.startswith("# "):
        raise found[0].bad("the first line is not a title, `# ..`")
    for line in found[1:]:
        if not line.text:
            return found[0].text.removeprefix("# "), given
        key, _, value = line.text.partition(" ")
        if key not in keys or key in given or not value.strip():
            raise line.bad(f"{key} is there twice" if key in given else
                           f"{key} is none of {', '.join(keys)} with a value")
        given[key] = Line(line.path, line.number, value.strip())
    raise found[-1].bad("there is no empty line after the head")


def rows(found, columns):
    """The rows. The last cells of one may be missing."""
    given, margin = [], 0
    for line in found:
        named, depth = cells(line.text), len(line.text) - len(line.text.lstrip(" "))
        if not line.text or depth and not given:
            raise line.bad("a doc comment without a row" if line.text else "an empty line")
        if not depth and len(named) > len(columns):
            raise line.bad(f"{len(named)} cells, and not {len(columns)}")
        if not depth:
            named += [""] * (len(columns) - len(named))
            given.append(Row(line, dict(zip(columns, named)), []))
        elif given[-1].docs and depth > margin:
            given[-1].docs[-1] += " " + line.text.strip()
        else:
            margin = depth
            given[-1].docs.append(line.text.strip())
    return given


def read(root, name, columns, keys=(), apart_in=()):
    """The table tables/NAME with these columns, and these keys of its head. In the columns
    `apart_in` no two cells are the same."""
    found = lines(root, name)
    title, given = head(found, keys)
    at = len(given) + 2
    if at >= len(found) or cells(found[at].text) != columns:
        raise found[min(at, len(found) - 1)].bad(f"the columns are not {', '.join(columns)}")
    if at + 1 == len(found):
        raise found[at].bad("the table has no rows")
    table = Table(found[0].path, title, given, rows(found[at + 1:], columns))
    for column in apart_in:
        apart((row.line, row[column]) for row in table.rows)
    return table


def apart(named):
    """Rejects the second of two lines with one name, of pairs of a line and a name."""
    seen = set()
    for line, name in named:
        if name and name in seen:
            raise line.bad(f"{name} is there twice")
        seen.add(name)
