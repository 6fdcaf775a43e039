"""Writes the lines of templates, in the form that templates/README says, and those of
templates/places into parts of files."""
import functools
import itertools
import pathlib
import re

from .parts import Part
from .text import MOST, fill, imports

TEMPLATES = pathlib.Path(__file__).resolve().parent.parent / "templates"
FORM = re.compile(r"(?m)^\? (.*)\n")
ONLY_IF = re.compile(r"\[(\w+)\] ?")
GHOST = re.compile(r"( *ghost \w+ = \{ λ[\w ]+\.) ")
RECORD = re.compile(r"( *)record \{ (.*) \}")
IN_CODE = re.compile(r" *(ensures|ghost) ")
EQUATION = re.compile(r"( *⟦[^≡]*) (≡ )")
EQUALS = re.compile(r"(\w.*? =) (.*)")
NOT_WRAPPED = re.compile(r" *(//|--|\||(ghost |pub )*use |pub(\(crate\))? const |\")|.*`")
IMPORT = re.compile(r"( *(?:ghost |pub )?use .*)(\.|::)\{(.*)\}(;?)")


@functools.cache
def sections(name):
    """The sections of a template, by what their first line, `== ..`, has."""
    found = re.split(r"(?m)^== (.*)\n", (TEMPLATES / name).read_text(encoding="utf-8"))
    return dict(zip(found[1::2], found[2::2]))


def chosen(lines, row):
    """The lines whose condition a row meets, with what it has in place of marks."""
    for line in lines:
        only_if = ONLY_IF.match(line)
        if not only_if or row[only_if[1]]:
            yield re.sub("‹(\\w+)›", lambda mark: row[mark[1]],
                         line[only_if.end():] if only_if else line)


def expanded(text, row):
    """The lines of a row, with those that begin with `*` for each of its values."""
    for repeated, group in itertools.groupby(text.split("\n"), lambda line: line.startswith("*")):
        if not repeated:
            yield from chosen(group, row)
            continue
        block = [line[2:] for line in group]
        for value in row["values"]:
            yield from chosen(block, {**row, **value})


def joined(lines):
    """Lines, of which one that ends with ` ¦` takes the next one if both fit."""
    found = []
    for line in lines:
        if found and found[-1].endswith(" ¦"):
            before = found.pop().removesuffix(" ¦")
            both = f"{before} {line.strip()}"
            found += [both] if len(both.removesuffix(" ¦")) <= MOST else [before, line]
        else:
            found.append(line)
    return found


def line_of(line):
    """A line without marks, and broken if it is long: a doc comment, an import, a definition of a
    ghost, a record, an equation, or a block."""
    plain, indent = re.sub("[⟪⟫]", "", line), re.match(" *", line)[0]
    if len(plain) <= MOST:
        return plain
    if line.startswith(f"{indent}/// "):
        return fill(line.split()[1:], f"{indent}/// ")
    used = IMPORT.fullmatch(line)
    if used:
        return imports(used[1], used[2], used[3].split(", "), used[4])
    if GHOST.match(line):
        return GHOST.sub(rf"\1\n{indent}    ", line)
    if RECORD.fullmatch(line):
        fields = RECORD.fullmatch(line)[2].split("; ")
        inner = "".join(f"{indent}  {it};\n" for it in fields)
        return f"{indent}record {{\n{inner}{indent}}}"
    if EQUATION.match(line):
        return EQUATION.sub(rf"\1\n{indent}\2", line)
    return re.sub("⟪(.*)⟫,", f"{{\n{indent}    \\1\n{indent}}}", line)


def wrapped(line):
    """A line of terms, broken where it is longer than any line may be: behind the `=` of an
    equation, then where no more words fit."""
    indent = re.match(" *", line)[0]
    if len(line) <= MOST or NOT_WRAPPED.match(line):
        return line
    head = EQUALS.fullmatch(line)
    if head:
        return f"{head[1]}\n{fill(head[2].split(' '), '    ')}"
    further = "    " if not indent or IN_CODE.match(line) else ""
    return fill(line.split(), indent, MOST - len(further)).replace("\n", "\n" + further)


def put_in(text, row):
    """The text of a template for a row."""
    lines = "\n".join(expanded(text, row)).split("\n")
    return "\n".join(wrapped(line) for it in joined(lines) for line in line_of(it).split("\n"))


def parts(template, selections):
    """The parts of a template: each selection is a list of what the head of a section has in its
    marks, with rows."""
    for head, body in sections(template).items():
        path, name, selection = head.split(" | ")
        first, *others = FORM.split(body)
        forms = {form: text for names, text in zip(others[::2], others[1::2])
                 for form in names.split()}
        for given, rows in selections[selection]:
            text = "".join(put_in(forms.get(row.get("form"), first), {
                **row, "and": "& " if at else "(", "comma": "," * (at + 1 < len(rows))})
                for at, row in enumerate(rows))
            text = re.sub(r"::\{(\w+)\};\n", r"::\1;\n", text.rstrip("\n") + "\n")
            yield Part(put_in(path, given), put_in(name, given), text)
