"""Writes the lists of all families: shapes, and the kernel's names."""
from . import places
from .marks import of_row
from .parts import Whole
from .text import MOST, enclosed, listed

SHAPES = "crates/linkinfo_shapes"


def either(names, between=" | "):
    """Alternatives of a match."""
    return between.join(f"Family::{name}" for name in names)


def others(names, result):
    """The alternatives of the last arm of a match, on one line if that fits."""
    line = either(names)
    return line if len(f"        {line} => {result},") <= MOST else either(names, "\n        | ")


def whole(path, name, rows, **given):
    """The file of a list: a section of templates/lists, with another one for each row in it."""
    found = places.sections("lists")
    each = "".join(places.put_in(found[f"{name} of a family"], row) for row in rows)
    given = {**given, "values": rows, "each": each.removesuffix("\n")}
    return Whole(path, "families", places.put_in(found[name], given))


def marks(family):
    """What templates/lists has in its marks of a family: of its rows, and of itself."""
    apart = dict.fromkeys((row.number, row.kernel) for row in family.typed if row.under)
    why = "has no row, since its shape depends on the kind of the link"
    about = "".join(f" Type {number}, `{kernel}`, {why}." for number, kernel in apart)
    return {**vars(family), "both": listed(family.families), "arm": either(family.families),
            "about": family.names + about, "values": [of_row(row) for row in family.typed],
            "apart": "".join(f"; its type {number} {why}" for number, _ in apart)}


def names(family):
    """The constants of names, each with its families: a twin may have names of its own."""
    shared = family.twin_prefix == family.prefix
    found = [(family.families if shared else [family.name], family.constant, family.prefix)]
    if not shared:
        found.append(([family.twin], family.twin.upper(), family.twin_prefix))
    for of, constant, prefix in found:
        rows = [f'({number}, "{kernel.replace(family.prefix, prefix)}")' for number, kernel in
                dict.fromkeys((row.number, row.kernel) for row in family.typed)]
        line = enclosed(f"pub(crate) const {constant}: &[Entry] = &[", rows, "];")
        yield {"prefix": prefix, "names": line, "constant": constant, "arm": either(of),
               "name": of[0], "twin": of[1:] and of[1]}


def constant_parts(crate, file, values, constants, **given):
    """The parts of files that name constants. rustfmt has an underscore before other letters."""
    entries = sorted([*constants, "Entry"], key=lambda name: name.upper().replace("_", "\x01"))
    given = {"crate": crate, "file": file, "spec": file.capitalize(), "values": values,
             "constants": ", ".join(sorted(constants)), "entries": ", ".join(entries), **given}
    return places.parts("constants", {"constants": [(given, [given])]})


def layered(tables):
    """The shapes of the typed layer. Rows with payloads of types of their own come first, as in
    the rows of their family."""
    values = [{**marks(it), "values": sorted(map(of_row, it.typed), key=lambda row: row["table"])}
              for it in tables.layered]
    shapes = {row.shape for family in tables.layered for row in family.typed}
    yield whole(f"{SHAPES}/src/typed.rt", "typed_shapes", values,
                used=", ".join(f"{family.snake}_rows" for family in tables.layered))
    yield whole(f"{SHAPES}/specs/Typed.antt", "typed_shapes_spec", values,
                names_of_shapes=", ".join(it for it in tables.layouts if it in shapes))


def outputs(tables):
    """The shapes and the names."""
    typed = [family for family in tables.present if family.plain]
    values = [marks(it) for it in typed]
    called = [*typed, *tables.layered]
    named = [it for family in called for it in names(family)]
    shapes = {row.shape for family in typed for row in family.plain}
    yield from layered(tables)
    has = {name for family in typed for name in family.families}
    without = [row["family"] for row in tables.coded if row["family"] not in has]
    yield whole(f"{SHAPES}/src/table.rt", "shapes", values,
                used=", ".join(f"{family.snake}_rows" for family in typed),
                without=others(without, "None"))
    yield whole(f"{SHAPES}/specs/Table.antt", "shapes_spec", values,
                names_of_shapes=", ".join(it for it in tables.layouts if it in shapes))
    yield whole("crates/linkinfo_names/src/entries.rt", "names", named)
    has |= {"LinkInfo", *(name for family in called for name in family.families)}
    without = [row["family"] for row in tables.coded if row["family"] not in has]
    named.insert(0, {"constant": "LINK_INFO", "arm": "Family::LinkInfo", "name": "LinkInfo",
                     "twin": ""})
    yield from constant_parts("linkinfo_names", "names", named, [it["constant"] for it in named],
                              of="names_of", call="rows", without=others(without, "&[]"))
