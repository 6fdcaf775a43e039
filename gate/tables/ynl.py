"""The types and layouts of the tables beside those of the kernel's own description of them,
Documentation/netlink/specs/rt-link.yaml, of which an extract is stored."""
import dataclasses
import re

from . import plain_yaml

PATH = "Documentation/netlink/specs/rt-link.yaml"
MESSAGES = ("linkinfo-data-msg", "linkinfo-member-data-msg")
# The layouts of a row that each layout of the description allows.
LAYOUTS = {
    "u8": {"U8", "Truth", "TruthOne", "EmptyOrByte"},
    "u16": {"Le16"}, "u32": {"Le32", "Scrub"}, "u64": {"Le64"},
    "u16 be": {"Be16"}, "u32 be": {"Be32"}, "u64 be": {"Be64"},
    "s32": {"I32"}, "flag": {"Mark"}, "string": {"Name"},
    "u32 be ipv4": {"V4", "GeneveV4"},
    "binary": {"Raw", "Peer"},
    "binary ipv4": {"V4"}, "binary ipv6": {"V6", "GeneveV6"},
    "binary ipv4-or-v6": {"Ip", "V4", "V6"}, "binary mac": {"Mac"},
    "binary u16 be+u16 be": {"BePair"}, "binary u32+u32": {"FlagPair"},
    "binary u16+binary": {"BridgeId"},
    "indexed-array u32 be ipv4": {"V4List"}, "indexed-array binary ipv6": {"V6List"},
    "nest": {"Nested", "SelfList"},
}
# A layout that says nothing of the payload.
OPAQUE = "Raw"


@dataclasses.dataclass(frozen=True)
class Attribute:
    """What the description says of an attribute."""
    name: str
    number: int
    layout: str


@dataclasses.dataclass
class Set:
    """A set of attributes, and the kinds of links or of ports that have it."""
    name: str
    kinds: list
    attributes: list


def kernel_name(given, attribute):
    """The name of an attribute in the headers."""
    prefix = attribute.get("name-prefix", given.get("name-prefix", f"{given['name']}-"))
    return (prefix + attribute["name"]).upper().replace("-", "_")


def order(attribute):
    """Where a number is big-endian, that it is."""
    return ["be"] * (attribute.get("byte-order") == "big-endian")


def layout(attribute, structs):
    """The layout of an attribute, as words."""
    words = [attribute["type"], *filter(None, [attribute.get("sub-type")]), *order(attribute),
             *filter(None, [attribute.get("display-hint")])]
    if attribute.get("struct") in structs:
        words.append("+".join(" ".join([it["type"], *order(it)])
                              for it in structs[attribute["struct"]]))
    return " ".join(words)


def described(given, base, structs):
    """The attributes of a set; one that is a subset has numbers and layouts of its base, but for
    what it says itself."""
    at = 0
    if base:
        known = {it["name"]: it for it in base["attributes"]}
        numbers = {it.name: it.number for it in described(base, None, structs)}
        for it in given["attributes"]:
            name = kernel_name(base, it)
            yield Attribute(name, numbers[name], layout({**known[it["name"]], **it}, structs))
        return
    for it in given["attributes"]:
        at = int(it.get("value", at + 1))
        yield Attribute(kernel_name(given, it), at, layout(it, structs))


def kinds_of(document):
    """The kinds of each set, of links and of ports."""
    found = {}
    for message in document["sub-messages"]:
        if message["name"] in MESSAGES:
            for form in message["formats"]:
                found.setdefault(form["attribute-set"], []).append(form["value"])
    return found


def extract(text):
    """The sets of attributes of data and port data that a description has."""
    document = plain_yaml.read(text)
    structs = {it["name"]: it["members"] for it in document["definitions"] if "members" in it}
    every = {it["name"]: it for it in document["attribute-sets"]}
    kinds = kinds_of(document)
    wanted = list(kinds)
    for name in wanted:
        wanted += [it["nested-attributes"] for it in every[name]["attributes"]
                   if it.get("nested-attributes") not in (None, *wanted)]
    return [Set(name, kinds.get(name, []),
                list(described(it, every.get(it.get("subset-of")), structs)))
            for name, it in every.items() if name in wanted]


def to_store(version, sets):
    """The text of an extract."""
    parts = [f"# Types and layouts in {PATH} of Linux {version}"]
    for one in sets:
        lines = [f"    {it.name} {it.number} {it.layout}" for it in one.attributes]
        parts.append("\n".join([" ".join([one.name, *one.kinds]), *lines]))
    return "\n\n".join(parts) + "\n"


def stored(text):
    """The version and the sets of a stored extract."""
    title, *parts = text.rstrip("\n").split("\n\n")
    sets = []
    for part in parts:
        (name, *kinds), *lines = (line.split() for line in part.splitlines())
        sets.append(Set(name, kinds, [Attribute(it[0], int(it[1]), " ".join(it[2:]))
                                      for it in lines]))
    return title.split()[-1], sets


def descriptions(family, row, sets):
    """What is said of a row: by the sets of its kinds, or if they have no such name by any set."""
    kinds = [row.under] if row.under else re.findall(r"\w+", family.links)
    found = [(bool(set(one.kinds) & set(kinds)), it) for one in sets for it in one.attributes
             if it.name in row.names]
    return [it for of_kind, it in found if of_kind] or [it for _, it in found]


def agrees(row, said):
    """Whether a row is as described: its number by all, its layout by one of them, since a kind of
    a family may take less than another."""
    return all(it.number == row.number for it in said) and (
        row.layout == OPAQUE or any(row.layout in LAYOUTS.get(it.layout, ()) for it in said))


def check(families, sets, known):
    """What differs from the description, a line each, and how many rows agree, are known to
    differ, and are not described. `known` lists attributes that differ for a reason."""
    differ, counts = [], {"agree": 0, "known": 0, "not described": 0}
    for family in families:
        for row in family.rows:
            said = descriptions(family, row, sets)
            if not said:
                counts["not described"] += 1
            elif agrees(row, said):
                counts["agree"] += 1
            elif known.has(f"{said[0].name}/{row.under}".rstrip("/")):
                counts["known"] += 1
            else:
                it = said[0]
                differ.append(f"{row.place}: {it.name} is {it.number} {it.layout} in the kernel's "
                              f"rt-link.yaml, not {row.number} {row.layout}")
    return differ + [f"gate/tables/not_as_ynl: {entry} does not differ"
                     for entry in known.unused()], counts
