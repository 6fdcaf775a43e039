"""Reads the rows back out of what is written from the tables: specs, and lists in code."""
import re

SPEC_ROWS = re.compile(r"^(\w+) =\n((?:    .*\n)*?)    \[\]\n", re.M)
SPEC_ROW = re.compile(r"    \((\d+), (\w+(?: family\.\w+)?)\) ∷  -- (.+)")
SPEC_ARM = re.compile(r"^(?:typed_)?rows_of family\.(\w+) = (\w+)$", re.M)
TYPES = re.compile(r"^fn (\w+)\(kind: u16\)(.*?)^}", re.M | re.S)
TYPE = re.compile(r"^ +(\d+) => Some\(Shape::", re.M)
TYPES_ARM = re.compile(r"^ +((?:(?:\| )?Family::\w+\s*)+) => (\w+)\(kind\),$", re.M)
LIST = re.compile(r"^pub\(crate\) const (\w+): &\[Entry\] = (?:&\[|rows! \{)(.*?)[\]}];",
                  re.M | re.S)
NAME_ROW = re.compile(r'\((\d+), "(\w+)"\)')
VIEW_ROW = re.compile(r'\((\d+), "(\w+)", (\w+), (\w+)(?:\(\w+::(\w+)\))?\),')
ARM = re.compile(r"^ +((?:\| )?(?:Family|Table)::[^=]+?) => (\w+),$", re.M)
SHARED = re.compile(r"^fn shared_rows\(.*?^ +(Table::.*?) => (\w+),$", re.M | re.S)
NUMBERS = re.compile(r"^abbrev pub (\w+)_number : \w+ → ℕ\n((?:.+\n)+)", re.M)
NUMBER = re.compile(r"^\w+_number \w+\.(\w+) = (0x[\dA-Fa-f]+|\d+)$", re.M)
FLAGS = re.compile(r"^abbrev pub (\w+)_table : List \(List ℕ × ℕ\)\n\w+ =(.*?)\n\n", re.M | re.S)
FLAG = re.compile(r'codes "(\w+)", (0x[\dA-Fa-f]+|\d+)')


def rows_in(body, row, where):
    """The rows of a list, in which nothing else is there."""
    if re.sub(r"[\s,]", "", row.sub("", body)):
        raise ValueError(f"a line of {where} is no row")
    return row.findall(body)


def shapes(spec):
    """A table of linkinfo_shapes: type, shape and variants of each row, by family."""
    lists = {name: [(int(number), shape.replace("family.", ""), tuple(variants.split(", ")))
                    for number, shape, variants in rows_in(body, SPEC_ROW, name)]
             for name, body in SPEC_ROWS.findall(spec)}
    return {family: lists[name] for family, name in SPEC_ARM.findall(spec)}


def types(code):
    """The families and types that have an arm with a shape."""
    numbers = {name: [int(it) for it in TYPE.findall(body)] for name, body in TYPES.findall(code)}
    return {(family, number) for patterns, name in TYPES_ARM.findall(code)
            for family in re.findall(r"Family::(\w+)", patterns) for number in numbers[name]}


def arms(code):
    """The constant of each variant that an arm of a match selects."""
    return {name: constant for patterns, constant in ARM.findall(code)
            for name in re.findall(r"\w+::(\w+)(?![\w:(])", patterns)}


def names(entries, code):
    """Entries of linkinfo_names: type and kernel's name of each row, by family."""
    lists = {name: [(int(number), kernel) for number, kernel in rows_in(body, NAME_ROW, name)]
             for name, body in LIST.findall(entries)}
    return {family: lists[constant] for family, constant in arms(code).items()}


def view_row(number, member, shape, form, part):
    """A row of the view, with its format as the tables have it."""
    return int(number), member, shape, "" if form == "Plain" else f"{form} {part}".rstrip()


def view(entries, code):
    """Entries of linkinfo_view: type, member, shape and format of each row, by table; with those
    that a table shares with others."""
    lists = {name: [view_row(*row) for row in rows_in(body, VIEW_ROW, name)]
             for name, body in LIST.findall(entries)}
    patterns, shared = SHARED.search(code).groups()
    found = {name: lists[constant] for name, constant in arms(SHARED.sub("", code)).items()}
    for it in patterns.split(" | "):
        name = re.findall(r"\w+", it)[-1]
        found[name] = sorted(found[name] + lists[shared])
    return found


def numbers(specs):
    """Specs of linkinfo_numbers: number and variant of each value, by type, of which the name is
    in lower case without underscores."""
    found = {}
    for spec in specs:
        for head, body in NUMBERS.findall(spec):
            found[head.replace("_", "")] = [(int(number, 0), variant)
                                            for variant, number in NUMBER.findall(body)]
        for head, body in FLAGS.findall(spec):
            found[head.replace("_", "")] = [(int(bits, 0), name)
                                            for name, bits in FLAG.findall(body)]
    return found
