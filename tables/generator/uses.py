"""Writes which attributes not both a request sets and a reply has (tables/uses)."""
import types

from . import form
from .lists import either, others, whole
from .parts import Part

COLUMNS = ["family", "use", "types"]
USES = ["ReadOnly", "Command", "NeverReturned"]
# The list itself, which has no table.
LINK_INFO = types.SimpleNamespace(name="LinkInfo", families=["LinkInfo"], snake="link_info",
                                  numbers={1, 2, 3, 4, 5}, names="`IFLA_INFO_*`.")


def known(tables):
    """The families whose attributes have names, by their names."""
    found = {"LinkInfo": LINK_INFO}
    for family in tables.families:
        found[family.name] = types.SimpleNamespace(
            **{**vars(family), "numbers": {row.number for row in family.typed}})
    return found


def row_of(row, families):
    """The types of a row. Rejects a family, a use and types that there are not."""
    family = families.get(row["family"])
    if not family or row["use"] not in USES:
        raise row.line.bad(f"{row['family']} {row['use']} is no family with a use")
    for number in row["types"].split():
        if not number.isdecimal() or int(number) not in family.numbers:
            raise row.line.bad(f"{number} is no type of {row['family']}")
        yield {"number": int(number), "use": row["use"]}


def read(tables):
    """The types of each family that has some, in order."""
    families, found = known(tables), {}
    for row in form.read(tables.root, "uses", COLUMNS).rows:
        found.setdefault(row["family"], []).extend(
            {**it, "line": row.line} for it in row_of(row, families))
    for name, rows in found.items():
        form.apart((it["line"], f"type {it['number']} of {name}") for it in rows)
        rows.sort(key=lambda it: it["number"])
        family = families[name]
        yield {"name": name, "snake": family.snake, "arm": either(family.families),
               "about": family.names, "families": [{"family": it} for it in family.families],
               "twin": family.families[1] if len(family.families) > 1 else "",
               "values": [{"number": str(it["number"]), "use": it["use"]} for it in rows],
               "all": family.families}


def page(found):
    """The table of docs/FORMAT.md: the types of each use, by family."""
    yield "| family | read only | commands | never returned |\n|---|---|---|---|\n"
    for row in found:
        types_of = [", ".join(it["number"] for it in row["values"] if it["use"] == use)
                    for use in USES]
        names = ", ".join(f"`{it}`" for it in row["all"])
        yield f"| {names} | " + " | ".join(types_of) + " |\n"


def outputs(tables):
    """The code, the specs and the page."""
    found = list(read(tables))
    has = {name for row in found for name in row["all"]}
    without = [row["family"] for row in tables.coded if row["family"] not in has]
    used = ", ".join(f"{row['snake']}_uses" for row in found)
    yield Part("docs/FORMAT.md", "uses", "".join(page(found)))
    for path, name in (("src/uses.rt", "uses"), ("specs/Uses.antt", "uses_spec")):
        yield whole(f"crates/linkinfo_names/{path}", name, found, used=used,
                    without=others(without, "None"))._replace(name="uses")
