"""Errors that are planted in copies, and the checks that must notice each."""
import dataclasses
import pathlib
import re
import shutil
import tempfile

from . import evidence, headers, rows, written

HEADERS, WITHOUT = "headers", evidence.WITHOUT
YNL, DRIVERS, IP = "rt-link.yaml", "drivers", "ip"
COLUMNS = {name: at for at, name in enumerate(rows.COLUMNS)}
# The table, the cells that are changed (name, column, text), and all checks that notice it. Where a
# name is changed, the right one is in no table.
TABLES = [
    ("vxlan", [("DF", "type", "35")], {HEADERS}),
    ("geneve", [("LOCAL6", "type", "19")], {HEADERS, YNL}),
    ("bridge", [("FDB_MAX_LEARNED", "type", "51")], {HEADERS, YNL}),
    # two rows exchanged, of one layout
    ("vxlan", [("GROUP6", "type", "17"), ("LOCAL6", "type", "16")], {HEADERS}),
    ("gre", [("LOCAL", "type", "7"), ("REMOTE", "type", "6")], {HEADERS, YNL}),
    # another layout of the same length
    ("vxlan", [("LABEL", "layout", "Le32")], {DRIVERS, IP}),
    ("vxlan", [("GROUP", "layout", "Be32")], {DRIVERS}),
    ("amt", [("RELAY_PORT", "layout", "Le16")], {DRIVERS, IP}),
    ("bareudp", [("SRCPORT_MIN", "layout", "Be16")], {DRIVERS, IP}),
    ("macsec", [("PORT", "layout", "Le16")], {DRIVERS}),
    ("macvlan", [("BC_CUTOFF", "layout", "Le32")], {DRIVERS}),
    ("gre", [("IKEY", "layout", "Le32")], {YNL, DRIVERS}),
    ("geneve", [("LABEL", "layout", "Le32")], {YNL, DRIVERS, IP}),
    ("vti", [("FWMARK", "layout", "Be32")], {YNL, DRIVERS, IP}),
    ("vlan", [("ID", "layout", "Be16")], {YNL, DRIVERS, IP}),
    ("bondport", [("LINK_FAILURE_COUNT", "layout", "I32")], {YNL, DRIVERS}),
    # another length
    ("gtp", [("ROLE", "layout", "U8")], {DRIVERS, IP}),
    ("gre6", [("REMOTE", "layout", "V4")], {YNL, IP}),
    ("hsr", [("VERSION", "layout", "Le32")], {YNL, DRIVERS, IP}),
    ("bareudp", [("MULTIPROTO_MODE", "layout", "Truth")], {DRIVERS, IP}),
    # a name that no header has, and that of another row
    ("vxlan", [("GBP", "name", "GPB")], {HEADERS, WITHOUT}),
    ("bond", [("MIIMON", "name", "MII_MON")], {HEADERS, WITHOUT}),
    ("macsec", [("ENCRYPT", "name", "PROTECT")], {HEADERS, WITHOUT}),
    # another member, and two exchanged
    ("vxlan", [("ID", "member", "vni")], {IP}),
    ("bridge", [("HELLO_TIME", "member", "max_age"), ("MAX_AGE", "member", "hello_time")], {IP}),
]
# Likewise of named numbers, each found by its kernel name.
VALUES = [
    ("vxlan", [("VXLAN_DF_INHERIT", "number", "3")], {HEADERS}),
    ("gre", [("GRE_KEY", "number", "0x0020")], {HEADERS}),
    ("macvlan", [("MACVLAN_MODE_VEPA", "name", "MACVLAN_MODE_VEPPA")], {HEADERS, WITHOUT}),
]
TOKEN = re.compile(r"\b(?:[A-Za-z_]\w*\b(?!::)|\d+\b)")


def changed_cell(line, column, text):
    """A line of a table with another text in a cell."""
    indent = line[:len(line) - len(line.lstrip())]
    cells = re.split(r" {2,}", line.strip())
    return indent + "  ".join([*cells[:column], text, *cells[column + 1:]])


def changed_table(path, cells, columns):
    """Changes the cells of the rows of these names; the name is in the second column."""
    lines = path.read_text(encoding="utf-8").split("\n")
    found = {name: at for name, _, _ in cells for at, line in enumerate(lines)
             if (re.split(r" {2,}", line.strip()) + [""] * 2)[1] == name}
    for name, column, text in cells:
        lines[found[name]] = changed_cell(lines[found[name]], columns[column], text)
    path.write_text("\n".join(lines), encoding="utf-8")


def in_tables(tables, given):
    """Whether the checks notice each error of a table, and no other check does."""
    plants = [("", *plant, COLUMNS) for plant in TABLES]
    plants += [("numbers/", *plant, {"number": 0, "name": 1}) for plant in VALUES]
    for folder, table, cells, wanted, columns in plants:
        with tempfile.TemporaryDirectory() as copy:
            inside = pathlib.Path(copy) / "tables"
            shutil.copytree(tables, inside)
            changed_table(inside / folder / table, cells, columns)
            found, _ = evidence.judged(evidence.read_tables(inside), given)
        by = {name for name, lines in found.items() if lines}
        yield (f"planted in tables/{folder}{table}: {cells}",
               [] if by == wanted else [f"it is noticed by {sorted(by)}, not by {sorted(wanted)}"])


def in_headers(tables, given):
    """Whether a new attribute of a header is noticed, and a new enum of attributes."""
    for group in (headers.Group("if_link.h", {"IFLA_VXLAN_UNSPEC": 0, "IFLA_VXLAN_NEW": 99}),
                  headers.Group("new.h", {"IFLA_NEW_UNSPEC": 0, "IFLA_NEW_ID": 1})):
        more = dataclasses.replace(given, groups=[*given.groups, group])
        found, _ = evidence.judged(tables, more)
        yield (f"planted in {group.header}: {group.numbers}",
               [] if len(found[WITHOUT]) == 1 else [f"it is noticed as {found[WITHOUT]}"])


def edits(text, lines):
    """The text with a change of each part of each of these lines, in turn."""
    for start, line in lines:
        for part in TOKEN.finditer(line):
            word = part[0]
            other = str(int(word) + 1) if word.isdecimal() else f"{word}X"
            at = start + part.start()
            yield (f"{other} in place of {word} in {line.strip()}",
                   text[:at] + other + text[at + len(word):])


# How the lines of rows begin in each file.
ROWS = {
    written.SHAPES: r"^    \(\d.*$", written.VIEW: r"^    \(\d.*$",
    written.NAMES: r'\(\d+, "\w+"\)',
    written.FORMAT: r"^\| \d+ (?:under `\w+` )?\| `\w+`.*\| \w+ \| .*$",
    written.SHOW: r"^\| \d+ \| `.*$",
}


def noticed(path, ours, numbers, read):
    """Whether a file is not as in the tables, or the list of IFLA_LINKINFO not as in headers."""
    try:
        return (written.FILES[path][1](read, []) != ours or
                path in (written.NAMES, written.FORMAT) and written.check_list(read, numbers))
    except (ValueError, LookupError, AttributeError):
        return True


def in_written(tables, numbers, read):
    """Whether each change of a row of a file is noticed."""
    for path, row in ROWS.items():
        text, ours = read(path), written.FILES[path][0](*tables)
        lines = [(it.start(), it[0]) for it in re.finditer(row, text, re.M)]
        missed, tried = [], 0
        for said, edited in edits(text, lines):
            tried += 1
            copies = {path: edited}
            if not noticed(path, ours, numbers, lambda it, copies=copies:
                           copies.get(it) or read(it)):
                missed.append(f"{path}: {said} is not noticed")
        yield f"planted in {path}: {tried} changes of rows", missed or ["none"] * (not tried)


def cases(folder, tables, given, read):
    """All of them: what is planted, and what is wrong with its being noticed."""
    yield from in_tables(folder, given)
    yield from in_headers(tables, given)
    yield from in_written(tables, given.numbers, read)
