"""Whole files and marked parts of files: what they hold, and which of them are stale.

The first line of a whole file says from which table it is; a part is between two lines, of which
the first one says so. The text between them, and that of a whole file, follows from the tables.
"""
import collections
import pathlib
import re
import subprocess

ATTRIBUTES = ".gitattributes"
COMMENTS = {".rt": "// {}", ".rs": "// {}", ".antt": "-- {}", ".md": "<!-- {} -->",
            ".h": "/* {} */", ".c": "/* {} */", "": "# {}"}
WRITTEN = "Written by tables/generate from tables/{}."
BEGIN = "Begin: written by tables/generate from tables/{}."
END = "End: written by tables/generate."


class Missing(Exception):
    """A part that its file does not hold, or holds twice."""


# A file that the generator writes whole, without its first line; and a part of a file. `name` is
# the table that it is from, with what it is in parentheses if the file has several parts, as
# `kinds (variants)`. It is empty for a file that cannot have a comment.
Whole = collections.namedtuple("Whole", ["path", "name", "text"])
Part = collections.namedtuple("Part", ["path", "name", "text"])


def comment(path, text):
    """A line of comment, as the file of this path has it."""
    return COMMENTS.get(pathlib.PurePath(path).suffix, COMMENTS[""]).format(text)


def pattern(path, name):
    """The lines of a part, by an expression for its name: that before it with the name, its own,
    and those after it, with an empty line if the layout of the file wants one. A ghost block of a
    .rt file has comments as .antt files have."""
    begin, end = (re.escape(comment(path, it)).replace("//", "(?://|--)") for it in (BEGIN, END))
    begin = begin.replace(r"\{\}", f"({name})")
    return re.compile(rf"^( *{begin}\n)(.*?)((?:^\n)?^ *{end}\n)", re.MULTILINE | re.DOTALL)


def with_part(text, output):
    """A file's text with a part in its place."""
    body = output.text.rstrip()
    text, count = pattern(output.path, re.escape(output.name)).subn(
        lambda mark: f"{mark[1]}{body}\n{mark[4]}" if body else mark[1] + mark[4].lstrip("\n"),
        text)
    if count != 1:
        raise Missing(f"{output.path}: {count} parts from tables/{output.name}, and not one")
    return text


def files(root, outputs):
    """The text of each file that an output is in, by path."""
    found = {}
    for output in sorted(outputs, key=lambda output: isinstance(output, Part)):
        if isinstance(output, Whole):
            first = f"{comment(output.path, WRITTEN.format(output.name))}\n" * bool(output.name)
            found[output.path] = first + output.text
        else:
            text = found.get(output.path) or (root / output.path).read_text(encoding="utf-8")
            found[output.path] = with_part(text, output)
    return found


def attributes(outputs):
    """The part of .gitattributes that marks whole files."""
    paths = sorted(output.path for output in outputs if isinstance(output, Whole))
    return Part(ATTRIBUTES, "families",
                "".join(f"/{path} linguist-generated\n" for path in paths))


def without_table(root, outputs):
    """What is generated in the repository and follows from no table any more: whole files, and the
    parts of others, each as its path and its name. Files of rust/ follow from those of crates/."""
    here = {(output.path, isinstance(output, Part) and output.name) for output in outputs}
    marked = (root / ATTRIBUTES).read_text(encoding="utf-8")
    whole = {path for path in re.findall(r"(?m)^/(\S+) linguist-generated$", marked)
             if (root / path).exists()}
    parts = []
    for path in subprocess.run(
            ["git", "-C", root, "grep", "-lE", "--untracked", "ritten by tables/generate", "--",
             ".", ":!tables", ":!rust"], capture_output=True, text=True).stdout.split():
        text = (root / path).read_text(encoding="utf-8")
        first = re.escape(comment(path, WRITTEN)).replace(r"\{\}", r"\S+")
        whole |= {path} if re.match(first, text) else set()
        parts += [(path, found[1]) for found in pattern(path, "[^\n]*").findall(text)]
    return sorted(path for path in whole if (path, False) not in here), \
        [part for part in parts if part not in here]
