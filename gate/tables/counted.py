"""How many of the kernel's attributes of data have a type, and where each of them has a row: in the
tables, in code, among names, and in the view."""
import re

from . import written_code
from .written import FORMAT, NAMES, TABLES_OF_VIEW, VIEW, names_read

SHAPES = ("crates/linkinfo_shapes/src/table.rt", "crates/linkinfo_shapes/src/typed.rt")
# The places, what docs/FORMAT.md calls each, and the attribute with a type that has no row there:
# its shape depends on the kind; its family and type are those of `IFLA_VRF_TABLE`; it is shown as
# an element of its list.
PLACES = {
    "code": ("`table_shape` and `typed_shape`", "IFLA_IPTUN_FLAGS"),
    "names": ("`attribute_name`", "IFLA_VRF_PORT_TABLE"),
    "view": ("`table_row`", "IFLA_VLAN_QOS_MAPPING"),
}


def names_of(families):
    """The kernel's names of the rows of each family and type."""
    found = {}
    for family in families:
        for at, name in enumerate(family.names):
            for row in family.rows:
                own = row.names if len(family.names) == 1 else (row.names[at:] or row.names)[:1]
                found.setdefault((name, row.number), set()).update(own)
    return found


def in_code(families, read):
    """The names of what has a shape in code."""
    named = names_of(families)
    return set().union(*(named[it] for path in SHAPES for it in written_code.types(read(path))))


def in_names(_families, read):
    """The names that are in the lists of names."""
    return {name for rows in names_read(read).values() for _, name in rows}


def in_view(families, read):
    """The names of what has a row in a table of the view."""
    named = names_of(families)
    family_of = {table: family.names[0] for family in families for table in family.views.values()}
    rows = written_code.view(read(VIEW), read(TABLES_OF_VIEW))
    return set().union(*(named[family_of.get(table, table), number]
                         for table, of_table in rows.items() for number, *_ in of_table))


def places(families, read):
    """What has a row, by place."""
    return {place: found(families, read) for place, found in (
        ("code", in_code), ("names", in_names), ("view", in_view))}


def kinds(families, numbers, apart):
    """The kernel's names of attributes in data that have a type in every layer, those that have one
    in the typed layer alone, and those that have none: of rows without a variant, and those that
    `apart` says have no row."""
    present, layered, none = set(), set(), set()
    for family in families:
        for row in family.rows:
            (none if not row.variants else layered if family.layered else present).update(row.names)
    none |= {name for name in numbers if apart.reasons.get(name) == "has no row"}
    return present, layered - present, none - present - layered


def sentences(present, layered, none, found):
    """What docs/FORMAT.md must say."""
    typed = len(present | layered)
    yield (f"define {typed + len(none)} attributes in data of links and of ports. {typed} of them "
           f"have a type: {len(present)} in every layer, and {len(layered)} in the typed one. The "
           f"other {len(none)} are kept verbatim")
    for place, (called, without) in PLACES.items():
        have = len(found[place] & (present | layered))
        yield f"{called} {'has' if place != 'code' else 'have'} {have}, all but `{without}`"
    seen = " and ".join(f"`{name}`" for name in sorted(found["view"] & none))
    yield f"Of the other {len(none)} it has {seen}".replace(" and ", ", ", seen.count(" and ") - 1)


def check(read, families, numbers, apart):
    """What is not so, a line each: an attribute with a type that has no row in a place, one that
    should have none, and what docs/FORMAT.md does not say."""
    present, layered, none = kinds(families, numbers, apart)
    typed, found = present | layered, places(families, read)
    for place, names in found.items():
        without = {PLACES[place][1]}
        yield from (f"{place}: no row of {name}" for name in sorted(typed - names - without))
        yield from (f"{place}: there is a row of {name}" for name in sorted(
            names & without | names - typed - none))
    said = " ".join(read(FORMAT).split())
    for wanted in sentences(present, layered, none, found):
        if wanted not in said:
            yield f"{FORMAT}: it does not say: {wanted}"


def told(read, families, numbers, apart):
    """How many there are, on one line."""
    present, layered, none = kinds(families, numbers, apart)
    typed = present | layered
    return ", ".join([f"{len(typed)} of {len(typed | none)} have a type", *(
        f"{len(names & typed)} are in {place}" for place, names in places(families, read).items())])
