"""Says of each kind, family and variant of data what the lines of templates/places have."""
import re

from . import kinds, number_types, places
from .marks import of_family
from .shown import others
from .text import fill, listed, snake

LIST_KINDS = 512        # what the code of a list exceeds that of its family by
DATA = {"data": "data (`IFLA_INFO_DATA`)", "port data": "port data (`IFLA_INFO_SLAVE_DATA`)"}


def group_row(group):
    """What templates have of a group of data: files, functions, and what their clauses name."""
    crate = kinds.GROUPS[group]
    files = re.split("::|_", crate)[-1]
    return {"Group": group, "group": group.lower(), "of": crate, "groups": files,
            "specs": f"{files.removesuffix('s').capitalize()}Data",
            "given": {"Lower": "layer", "Peered": "t peer"}.get(group, "t"),
            "holding": {"Lower": "layer each", "Peered": "types peer each"}.get(group, "types"),
            "flagged": "h " * (group == "Tunnel")}


def coded(rows):
    """The families of rows of tables/families. Lists of one in others have a code of their own."""
    return [{"family": row["family"], "name": row["family"].lower(), "NAME": row["family"].upper(),
             "code": row["code"], "list_code": str(int(row["code"]) + LIST_KINDS),
             "doc": f"{row['what'][:1].upper()}" + re.sub(
                 "port data|data", lambda mark: DATA[mark[0]], row["what"][1:]) + "."}
            for row in rows]


def form_of(family):
    """The form of the data of a family: empty if it is a list by one table of rows."""
    shapes = {row.shape for row in family.typed} if family and not family.layered else set()
    if "Peer" in shapes:
        return "first" if shapes == {"Peer"} else "peers"
    if not shapes or "SelfList" in shapes:
        return "lists" if shapes else "opaque"
    return "tagged" if family.parts else "twin" if family.twin else ""


def data_row(ours, families, names):
    """A variant of data, of these kinds."""
    kind = ours[0]
    family = next((it for it in families if kind.name in it.kinds), None)
    crate = None if family and family.layered else family and family.crate
    name = kind.data if kind.data in names else family.name if family else None
    if not name or crate not in (None, kinds.GROUPS[kind.group]):
        raise kind.line.bad(f"no family of {kinds.GROUPS[kind.group]} is {kind.data}, and no table "
                            f"of one has the kind {kind.name}")
    form, first = form_of(family), bool(family) and name == family.name
    form = "supplied" if kind.data in kinds.SUPPLIED else form
    holder = f"Info{name}" + "Of" * (form in ("first", "peers"))
    of = {"first": f"{holder}<P::Peer>", "peers": f"{holder}<P::Peer>", "supplied": f"P::{name}"}
    prefix = family and (family.prefix if first else family.twin_prefix)
    return {
        "form": form, "data": kind.data, "variant": kind.variant, "family": name,
        "plain": snake(name), "it": family.snake if family else "", "holder": holder,
        "declared": family.snake if form == "twin" else name,
        "module": family.module if first else name.lower(),
        "type": of.get(form, holder),
        "called": f"<$layer as LinkLayer>::{name}" if form == "supplied" else
                  f"{kinds.GROUPS[kind.group]}::" + of.get(form, holder).replace(
                      "P::Peer", "<$layer as LinkLayer>::Peer"),
        "members": family and f"{family.type}Of {int(not first)}", "crate": crate,
        "spec": family and family.spec, "names": f" (`{prefix}*`)" if family else "",
        "these": listed(family.kinds) if family else "",
        "verbatim": {"opaque": ", kept verbatim", "supplied": ", which the layer supplies"}.get(
            form, ""),
        "links": listed([f"`{it.name}`" for it in ours]),
        "tags": " | ".join(f"KindTag::{it.variant}" for it in ours), **group_row(kind.group)}


def data_rows(tables):
    """The variants of data, in the order of their first kinds."""
    names, held = {row["family"] for row in tables.order}, {}
    for kind in (it for it in tables.kinds if it.group):
        held.setdefault((kind.group, kind.data), []).append(kind)
    return [data_row(ours, tables.families, names) for ours in held.values()]


def unique(rows, key):
    """The first of rows that have the same in `key`."""
    found = {}
    for row in rows:
        found.setdefault(row[key], row)
    return list(found.values())


def named(rows):
    """A row for each family, with the patterns of its variants."""
    return [{**row, "patterns": " | ".join(
        f"{it['Group']}Family::{it['data']}" + "(_)" * (it["form"] in ("lists", "tagged"))
        for it in rows if it["family"] == row["family"])} for row in unique(rows, "family")]


def typed(rows):
    """The types of rows, in one row."""
    return [{**rows[0], "types": ", ".join(sorted({row["holder"] for row in rows}))}]


def returned(row):
    """That the errors in a payload of a row have causes that C returns."""
    if row["inner"]:
        return f"nested_errors family.{row['inner']} _ {row['inner_it']}_rows q"
    which = "addresses" if row["shape"] in ("V4List", "V6List") else "exact"
    return f"{which}_errors {row['shape']} tt {row['codec']} {row['own']}_payload q"


def layered(tables):
    """The selections that are of the families of the typed layer, and of the lists in their data.
    Data of a kind that `InfoKind` does not name is bytes, so that no layer has its family."""
    without = {row["family"] for row in others(tables)}
    rows = [{**marks, "form": "nesting" * marks["nested"], "values": [
        {**row, "returned": returned(row)} for row in marks["values"] if row["payload"]]}
        for marks in map(of_family, (it for it in tables.layered if it.name not in without))]
    for row in rows:
        its = [f"{row['it']}_plain", *row["suffixes"].split(", ")[1:]] if row["nested"] else []
        row["used"] = ", ".join([*its, f"{row['it']}_rows"])
    codecs = sorted({f"{row['own']}_{end}" for marks in rows for row in marks["values"]
                     if row["own"] for end in ("codec", "payload")})
    return {"layered": rows, "nesting": [row for row in rows if row["nested"]],
            "outer": [row for row in rows if not row["is_inner"]],
            "codecs": [{"codecs": ", ".join(codecs)}],
            "lists": coded(row for row in tables.coded if row["family"] in {
                family.name for family in tables.layered if family.inner})}


def of_kinds(tables, ports, variants):
    """The selections that are of kinds, port kinds, or families by C's code."""
    rows = [kinds.row_of(kind) for kind in tables.kinds]
    held = [{**row, **variants[kind.data], "variant": kind.variant}
            for kind, row in zip(tables.kinds, rows) if kind.group]
    of = {row["name"]: f" {row['family']} " for row in held}
    codes = coded(tables.coded)
    return {"kinds": rows, "kinds with data": held, "families": codes,
            "ports": [kinds.row_of(kind) for kind in ports],
            "names": [{"values": [{**row, "of": of.get(row["name"], " ")} for row in rows]}],
            "known kinds": [{"known": kinds.known(tables.kinds)}],
            "known ports": [{"known": kinds.known(ports)}],
            "family names": [{"names": fill(", ".join(it["family"] for it in codes[2:]).split())}],
            "last codes": [{"family": codes[-1]["code"], "kind": rows[-1]["code"],
                            "port": str(ports[-1].code)}]}


def outputs(tables):
    """The parts of templates/places."""
    rows = data_rows(tables)
    groups = [[row for row in rows if row["Group"] == group] for group in kinds.GROUPS]
    ordered = unique([row for group in groups[1:] for row in group], "plain")
    own = [[row for row in group if row["form"] != "supplied"] for group in groups]
    listed_in = [row for row in ordered
                 if row["form"] not in ("opaque", "supplied", "peers", "first")]
    found = of_kinds(tables, kinds.read(tables.root, "ports"), {row["data"]: row for row in rows})
    found |= {"data": rows, "tables": unique(listed_in, "declared"), "plain": listed_in,
              "flat": [row for row in ordered if not row["form"]], "Tunnel": groups[2],
              "asked": [{**row, "goal": "of_list-requires" + f"-in-{row['data']}" * (at > 0)}
                        for at, row in enumerate(groups[2])],
              "laws": [row for row in unique(rows, "plain")
                       if row in listed_in and row["form"] != "twin"]}
    return list(places.parts("places", {
        **{name: [({}, given)] for name, given in found.items()},
        **{name: [({}, given)] for name, given in layered(tables).items()},
        **number_types.selections(tables.numbers),
        "group": [(group[0], group) for group in groups],
        "inside": [(group[0], group) for group in groups
                   if any(row["form"] == "supplied" for row in group)],
        "named": [(group[0], named(group)) for group in groups],
        # (the opaque type of tun is one of linkinfo_peers, which lib.rt names beside these)
        "types by group": [(group[0], typed([row for row in group if row["data"] != "Tun"]))
                           for group in groups],
        "own types by group": [(group[0], typed(group)) for group in own if group],
        "rows by group": [(group[0], typed([row for row in group if row in listed_in]))
                          for group in groups[1:]],
        "length": [({"word": word}, [row for row in found["kinds"] if len(row["name"]) == length])
                   for length, word in kinds.LENGTHS.items()]}))
