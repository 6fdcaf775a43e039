"""What is written from the tables beside the tables: each row is read back."""
from . import written_code, written_pages

SHAPES = "crates/linkinfo_shapes/specs/Table.antt"
TYPED = "crates/linkinfo_shapes/specs/Typed.antt"
NAMES = "crates/linkinfo_names/src/entries.rt"
FAMILIES_OF_NAMES = "crates/linkinfo_names/src/names.rt"
VIEW = "crates/linkinfo_view/src/entries.rt"
TABLES_OF_VIEW = "crates/linkinfo_view/src/table.rt"
FORMAT = "docs/FORMAT.md"
SHOW = "docs/SHOW.md"
NUMBERS = "crates/linkinfo_numbers/specs"
# The attributes of IFLA_LINKINFO itself are no table.
LIST = "LinkInfo"


def typed(family):
    """The rows that have a variant."""
    return [row for row in family.rows if row.variants]


def shapes(families, _values):
    """The rows of specs, by family: those that all kinds have."""
    return {name: [(row.number, row.layout, row.variants) for row in typed(family)
                   if not row.under]
            for family in families if typed(family) and not family.layered
            for name in family.names}


def layered(families, _values):
    """The rows of specs of the typed layer, by family: those with payloads of types of their own
    are before the others."""
    found = {}
    for family in (it for it in families if it.layered):
        rows = sorted(typed(family), key=lambda row: not row.has_own_type)
        found[family.names[0]] = [(row.number, f"{row.layout} {row.inner}".split(" +")[0].rstrip(),
                                   row.variants) for row in rows]
    return found


def names(families, _values):
    """The kernel's names, by family; of two families each has its own, if there are two."""
    return {name: list(dict.fromkeys((row.number, row.names[min(at, len(row.names) - 1)])
                                     for row in typed(family)))
            for family in families if typed(family)
            for at, name in enumerate(family.names)}


def seen(family, row):
    """The shape by which a row is shown: `ip` has booleans of the typed layer as numbers."""
    if row.has_own_type:
        return "Raw"
    return "U8" if family.layered and row.layout == "Truth" and not row.format else row.layout


def shown(family, kind):
    """The rows that are shown of a kind."""
    return [(row.number, row.member, seen(family, row), row.format)
            for row in family.of_kind(kind) if row.member]


def view(families, _values):
    """The rows to show, by the table of the view."""
    return {name: shown(family, kind) for family in families
            for kind, name in (family.views.items() or [("", name) for name in family.names])}


def variants(row):
    """The variants of a row as docs/FORMAT.md has them."""
    return " (empty), ".join(row.variants) + " (one byte)" * (len(row.variants) > 1)


def format_rows(families, _values):
    """The rows of docs/FORMAT.md, by families."""
    return {family.names: [(row.number, row.under, row.names[:len(family.names)], variants(row),
                            f"{row.layout} {row.inner}".rstrip(), row.value)
                           for row in typed(family)]
            for family in families if typed(family)}


def show_rows(families, _values):
    """The rows of docs/SHOW.md, by the links of a section."""
    return {kind or family.links.removesuffix(" (Other)"): shown(family, kind)
            for family in families for kind in family.views or [""]}


def values(_families, every):
    """The number and the variant of each value, by type in lower case."""
    found = {}
    for value in every:
        found.setdefault(value.type.lower(), []).append((value.number, value.variant))
    return found


def names_read(read):
    """The kernel's names in code, but for the list itself."""
    found = written_code.names(read(NAMES), read(FAMILIES_OF_NAMES))
    return {name: rows for name, rows in found.items() if name != LIST}


def values_on_page(_families, every):
    """The values of the types that are in the tables of docs/FORMAT.md."""
    return values([], [value for value in every if not value.by_hand])


def numbers_read(read, every):
    """The numbers in specs: a group of types has a file of its name."""
    groups = dict.fromkeys(value.place.split("/")[-1].split(":")[0] for value in every)
    return written_code.numbers(read(f"{NUMBERS}/{it.capitalize()}.antt") for it in groups)


def page_values(read, every):
    """The numbers on the page, by type in lower case, but for those that are there by hand."""
    by_hand = {value.type for value in every if value.by_hand}
    return {name.lower(): it for name, it in written_pages.values(read(FORMAT)).items()
            if name not in by_hand}


# What the tables say of each file, and what it has, by a function that reads files.
FILES = {
    SHAPES: (shapes, lambda read, _: written_code.shapes(read(SHAPES))),
    TYPED: (layered, lambda read, _: written_code.shapes(read(TYPED))),
    NAMES: (names, lambda read, _: names_read(read)),
    VIEW: (view, lambda read, _: written_code.view(read(VIEW), read(TABLES_OF_VIEW))),
    NUMBERS: (values, numbers_read),
    FORMAT: (format_rows, lambda read, _: written_pages.format_rows(read(FORMAT))),
    f"numbers of {FORMAT}": (values_on_page, page_values),
    SHOW: (show_rows, lambda read, _: written_pages.show_rows(read(SHOW))),
}


def differences(path, ours, theirs):
    """What of a file is not as in the tables, a line each."""
    for key in sorted(ours.keys() | theirs.keys(), key=str):
        one, other = ours.get(key, []), theirs.get(key, [])
        for row in [it for it in other if it not in one]:
            yield f"{path}: {key}: the tables do not have {row}"
        for row in [it for it in one if it not in other]:
            yield f"{path}: {key}: it does not have {row}"
        if one != other and sorted(one) == sorted(other):
            yield f"{path}: {key}: the rows are in another order"


def check(path, tables, read):
    """What of a file is not as in the tables."""
    ours, theirs = FILES[path]
    return list(differences(path, ours(*tables), theirs(read, tables[1])))


def check_list(read, numbers):
    """What of the attributes of IFLA_LINKINFO itself is not as in the headers."""
    in_code = written_code.names(read(NAMES), read(FAMILIES_OF_NAMES))[LIST]
    on_page = written_pages.link_info(read(FORMAT))
    wanted = sorted((number, name) for name, number in numbers.items()
                    if name.startswith("IFLA_INFO_") and number)
    return [f"{path}: {row} is not as in the kernel's headers"
            for path, rows in ((NAMES, in_code), (FORMAT, on_page))
            for row in set(rows) ^ set(wanted)]


def check_show(read, families):
    """What docs/SHOW.md says otherwise of its tables: how many rows, and which formats."""
    said, counts = written_pages.counts(read(SHOW))
    described = written_pages.formats(read(SHOW))
    used = {row.format.split(" ")[0] for family in families for row in family.rows} - {""}
    return [f"{SHOW}: it says {said} rows and tables, and has {counts}"] * (said != [counts]) + [
        f"{SHOW}: {'no row has' if it in described else 'it does not describe'} the format {it}"
        for it in sorted(described ^ used)]
