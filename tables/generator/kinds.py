"""Reads tables/kinds and tables/ports."""
import collections
import re

from . import form

COLUMNS = ["code", "kind", "variant", "data", "what"]
# Each group of data, and the crate of its families.
GROUPS = {"Lower": "linkinfo_table::lower", "Device": "linkinfo_devices",
          "Tunnel": "linkinfo_tunnels", "Peered": "linkinfo_peers"}
# The data whose families the layer supplies (`LinkLayer` of linkinfo_table).
SUPPLIED = {"Bond", "Bridge", "Vlan", "Can", "Hsr", "Dsa", "Tun"}
# The lengths of names for which `tag_of_name` has an arm; those above four are compared as u64.
LENGTHS = {3: "three", 4: "four", 5: "five", 6: "six", 7: "seven", 9: "nine"}

# A kind of links, or a port kind. `group` and `data` are the group and the variant of its data, or
# empty.
Kind = collections.namedtuple("Kind", "line code name variant group data what")


def kind_of(row):
    """The kind of a row."""
    group, _, data = row["data"].partition(" ")
    if row["data"] and (group not in GROUPS or not data):
        raise row.line.bad(f"{row['data']} is not one of {', '.join(GROUPS)}, and a variant")
    if not re.fullmatch("[a-z0-9_]+", row["kind"]) or len(row["kind"]) not in LENGTHS:
        raise row.line.bad(f"`tag_of_name` has no arm for a name of {len(row['kind'])} bytes")
    if not row["variant"] or not row["what"]:
        raise row.line.bad("a kind has a variant, and what it is")
    return Kind(row.line, row.number("code"), row["kind"], row["variant"], group, data, row["what"])


def read(root, name="kinds"):
    """The kinds, whose codes are in order: C's numbers never change."""
    found = [kind_of(row) for row in form.read(root, name, COLUMNS).rows]
    for before, kind in zip(found, found[1:]):
        if kind.code <= before.code:
            raise kind.line.bad(f"code {kind.code} is after code {before.code}")
    for key in ("name", "variant"):
        form.apart((kind.line, getattr(kind, key)) for kind in found)
    return found


def row_of(kind):
    """What lines have of a kind."""
    wide = len(kind.name) > 4
    padded = kind.name + "\\0" * ((8 if wide else 4) - len(kind.name))
    name = kind.name.upper()
    return {"name": kind.name, "NAME": name, "variant": kind.variant, "code": str(kind.code),
            "what": kind.what, "data": kind.data or "Other", "padded": padded,
            "bits": "64" if wide else "32", "wide": "eight" if wide else "four",
            "pattern": f"({name}, b'{kind.name[8:]}')" if kind.name[8:] else name}


def known(found):
    """The list of kinds in specs, as `rt fmt` lays it out: a kind that no longer fits on a line is
    alone on the next one."""
    text = " ∷ ".join([*(f"kind.{kind.variant}" for kind in found), "[]"])
    return "    " + re.sub(r"(?=.{97})(.{,96}) ∷ (\S+) ∷ ", r"\1\n    ∷ \2 ∷\n    ", text)
