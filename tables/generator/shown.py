"""Writes what people see of rows: how linkinfo_view shows them, docs/SHOW.md, docs/FORMAT.md, and
the stored lines that the program rejects or accepts by a row (gate/lines/rows.in and rows.out)."""
from .lists import constant_parts, either, whole
from .parts import Part, Whole
from .places import parts as parts_of, put_in, sections
from .text import fill, listed, snake

PARTS = {"Word": "Words", "List": "Elements", "Nested": "Family", **dict.fromkeys(
    ["Bits", "FlagNames", "Mask", "Names", "Options", "SecondNames"], "Flags")}


def views(family):
    """The tables to show: constant, comment, title, and rows. If kinds of a family differ, each has
    the rows in which it does, and one table the others."""
    rows = [row for row in family.rows if row.member]
    apart, found = {row.number for row in family.rows if row.under}, []
    for kind, name in family.parts.items():
        own = {row.number: row for row in rows if row.number in apart and row.under in ("", kind)}
        header = f" ({family.header})" * (not found)
        found.append((snake(name).upper(), f"`{family.prefix}*`{header} of `{kind}` links.", kind,
                      list(own.values())))
    if not found:
        return [(family.constant, family.names, family.links, rows)]
    found.insert(1, ("TUNNEL", f"`{family.prefix}*` that all tunnels over IP have.", family.links,
                     [row for row in rows if row.number not in apart]))
    return found


def shown(row):
    """How code has the format of a row."""
    name, _, part = row.shown.partition(" ")
    if part and name not in PARTS:
        raise row.line.bad(f"{name} is none of {', '.join(PARTS)}")
    return f"{name}({PARTS[name]}::{part})" if part else name or "Plain"


def seen(family, row):
    """The shape by which a row is shown. A boolean of the typed layer without a format is shown as
    its number."""
    if row.payload:
        return "Raw"
    return "U8" if family.layered and row.shape == "Truth" and not row.shown else row.shape


def view_marks(family):
    """What templates/lists has in its marks of each table to show."""
    for constant, said, title, rows in views(family):
        yield {"constant": constant, "said": said,
               "head": fill(f"**{title}**: {said}".split()),
               "others": family.links if family.parts and constant != "TUNNEL" else "",
               "values": [{**vars(row), "number": str(row.number), "format": shown(row),
                           "shape": seen(family, row)} for row in rows]}


def page_marks(family):
    """What templates/lists has in its marks of a family in docs/FORMAT.md."""
    rows = []
    for row in family.typed:
        names = dict.fromkeys([row.kernel, row.kernel.replace(family.prefix, family.twin_prefix)])
        value = row.value and row.value.name + ", for each" * (row.made == "sets")
        rows.append({
            "number": f"{row.number} under `{row.under}`" if row.under else str(row.number),
            "names": ", ".join(f"`{name}`" for name in names),
            "shape": " ".join(filter(None, [row.shape, row.inner, "+8000" * row.flagged])),
            "variants": f"{row.variants[0]} (empty), {row.variant} (one byte)" if row.two
            else row.variant, "made_into": f" {value} " if value else " "})
    return {"heading": listed([f"`{name}`" for name in family.families]), "values": rows,
            "note": fill(family.note.split())}


def attribute(kind, payload):
    """The bytes of an attribute, with padding."""
    data = (len(payload) + 4).to_bytes(2, "little") + kind.to_bytes(2, "little") + payload
    return data + bytes(-len(data) % 4)


def lines(family, kind):
    """The lines of one kind for the program, and its output: each row with a payload that its
    layout rejects, or accepts if it takes any."""
    name = family.families[family.kinds.index(kind) if family.twin else 0].lower()
    for row in family.typed:
        if row.under in ("", kind) and row.layout.rejects:
            given, cause = row.layout.rejects.split()
            payload = bytes.fromhex(given[2:]) if given[:2] == "0x" else bytes(int(given))
            inner = attribute(2, attribute(row.number, payload))
            data = attribute(1, kind.encode() + b"\0") + inner
            said = {"ok": "ok", "header": "err frame 0 header"}.get(
                cause, f"err {name} {row.number} {cause}")
            yield f"check {data.hex()}", said


def others(tables):
    """The kinds that `InfoKind` does not name and whose data has rows."""
    named = {kind.name for kind in tables.kinds}
    return [{"kind": kind, "family": it.name} for it in tables.layered
            if not it.inner and not it.links.startswith("ports of ")
            for kind in it.kinds if kind not in named]


def outputs(tables):
    """The rows to show, the pages, and the lines."""
    parts, coded = sections("lists"), {row["family"] for row in tables.coded}
    shown_in = [it for it in tables.families if any(row.member for row in it.rows)]
    found = [it for family in shown_in for it in view_marks(family)]
    yield whole("crates/linkinfo_view/src/entries.rt", "view", found)
    named = [{**vars(it), "arm": either(it.families)} for it in shown_in if it.name in coded]
    yield from constant_parts("linkinfo_view", "table", named, [it["constant"] for it in found],
                              of="family_rows", call="lines", without="")
    yield from parts_of("others", {"others": [({}, [{"values": others(tables)}])]})
    count = f"{sum(len(it['values']) for it in found)} rows in {len(found)} tables.\n\n"
    yield Part("docs/SHOW.md", "families", count + "".join(
        put_in(parts["page of a view"], it) for it in found))
    for name, of in (("families", tables.present), ("families (typed)", tables.layered)):
        yield Part("docs/FORMAT.md", name, "".join(
            put_in(parts["page of a family"], page_marks(it)) for it in of if it.typed))
    stored = [line for family in tables.present for kind in family.kinds
              for line in lines(family, kind)]
    for at, name in enumerate(("in", "out")):
        yield Whole(f"gate/lines/rows.{name}", "", "".join(f"{line[at]}\n" for line in stored))
