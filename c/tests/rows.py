#!/usr/bin/env python3
"""rows.py FORMAT.md: writes the shapes of the attributes of each kind and port kind, and of lists
in them, as the tables of that page have them, for rows.c. It writes lines 'link NAME TYPE SHAPE',
'port NAME TYPE SHAPE' and 'list FAMILY TYPE SHAPE', and a line 'link NAME 0 None' for each kind, so
that one without rows is there too. The shape of a list of another family is 'Nested:FAMILY'. A line
'name FAMILY TYPE NAME' has the kernel's name of a type."""
import re
import sys

with open(sys.argv[1], encoding="utf-8") as page:
    text = page.read()
# By family the types and their shapes, and those that one kind alone has.
rows, of_kind = {}, {}
tables = re.findall(r"(?ms)^### (.*?)\n(.*?)(?=^###|\*\*No rows)",
                    text.split("## Rows\n")[1].split("## Names")[0] + "**No rows")
for families, table in tables:
    found = re.findall(r"(?m)^\| (\d+)(?: under `(\w+)`)? \|[^|]*\|[^|]*\| (\w+)(?: ([A-Z]\w+))?"
                       r"(?: \+8000)? \|", table)
    found = [(number, kind, f"{shape}:{inner.lower()}" if inner else shape)
             for number, kind, shape, inner in found]
    for family in re.findall(r"`(\w+)`", families):
        rows[family] = [(number, shape) for number, kind, shape in found if not kind]
    for number, kind, shape in found:
        if kind:
            of_kind.setdefault(kind, []).append((number, shape))
names = text.split("## Names")[1].split("## Numbers")[0]
# (a paragraph may be broken anywhere)
links, ports = re.split(r"The\s+port\s+kinds\s+are", names)
for name, family in re.findall(r"(?m)^\| `(\w+)` \| \w+ \| \w+ \| ?(\w*) ?\|", links):
    print("link", name, 0, "None")
    for number, shape in rows.get(family, []) + of_kind.get(name, []):
        print("link", name, number, shape)
for name, family in re.findall(r"`(\w+)`\s+(\w+)", ports.split("\n\n")[0]):
    print("port", name, 0, "None")
    for number, shape in rows.get({"Vrf": "Vrf"}.get(family, family + "Port"), []):
        print("port", name, number, shape)
# The lists of families that other ones have.
inside = {shape.partition(":")[2] for found in rows.values() for _, shape in found} - {""}
for family in (name for name in rows if name.lower() in inside):
    for number, shape in rows[family]:
        print("list", family.lower(), number, shape)
# The kernel's names: where a table is of two families, of both, or one name for each.
listed = text.split("## The list inside IFLA_LINKINFO")[1].split("## Rows")[0]
for families, table in [*tables, ("`LinkInfo`", listed)]:
    families = re.findall(r"`(\w+)`", families)
    for number, column in re.findall(r"(?m)^\| (\d+)(?: under `ipip`)? \|([^|]*)\|", table):
        called = re.findall(r"`(\w+)`", column)
        for at, family in enumerate(families):
            print("name", family.lower(), number, called[at if len(called) > 1 else 0])
