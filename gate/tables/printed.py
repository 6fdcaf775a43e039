"""The members and layouts of the tables beside what `ip -d -j link` prints of real links: each line
of gate/show/ip.json has the contents of an IFLA_LINKINFO, and what iproute2 makes of them."""
import json
import re

# In the list: the type that names a kind, that of its data, and the object that `ip` prints of it.
SECTIONS = {"link": (1, 2, "info_data"), "port": (4, 5, "info_slave_data")}
MASK = 0x3fff
# Formats of which `ip` prints other members than that of the attribute.
PARTS = {"Bits", "FlowInfo", "Names", "SecondNames", "Options", "Nested", "Supported"}
NUMBERS = {"U8": (1, "little"), "Truth": (1, "little"), "TruthOne": (1, "little"),
           **{f"Le{bits}": (bits // 8, "little") for bits in (16, 32, 64)},
           **{f"Be{bits}": (bits // 8, "big") for bits in (16, 32, 64)}, "I32": (4, "little")}


SIZES = {**{name: size for name, (size, _) in NUMBERS.items()}, "V4": 4, "GeneveV4": 4, "V6": 16,
         "GeneveV6": 16, "Mac": 6, "BePair": 4, "FlagPair": 8, "Scrub": 4}


def attributes(data):
    """The payload of the last attribute of each type."""
    found, at = {}, 0
    while at + 4 <= len(data):
        size = int.from_bytes(data[at:at + 2], "little")
        found[int.from_bytes(data[at + 2:at + 4], "little") & MASK] = data[at + 4:at + size]
        at += max((size + 3) & ~3, 4)
    return found


def by_kind(families):
    """The family of each kind of links and of ports."""
    found = {}
    for family in families:
        words = re.findall(r"\w+", family.links)
        if words[0] == "ports":
            found["port", words[-1].removesuffix("s")] = family
        elif words[0] != "in":
            found.update((("link", word), family) for word in words)
            if words[-1] == "ports":
                found["port", words[0]] = family
    return found


def pairs(families, lines):
    """Each attribute of the lists that has a row: the row, its payload, and what `ip` prints."""
    known = by_kind(families)
    for line in lines:
        one = json.loads(line)
        whole = attributes(bytes.fromhex(one["hex"]))
        for section, (kind_type, data_type, printed) in SECTIONS.items():
            kind = whole.get(kind_type, b"").rstrip(b"\0").decode()
            family = known.get((section, kind))
            if family and data_type in whole:
                data = attributes(whole[data_type])
                members = one["linkinfo"].get(printed, {})
                yield from ((row, data[row.number], members) for row in family.of_kind(kind)
                            if row.number in data and row.member)


def number(text):
    """What is printed as a number, or None."""
    if isinstance(text, str) and re.fullmatch(r"0x[\da-f]+", text):
        return int(text, 16)
    return text if isinstance(text, (bool, int, float)) else None


def is_other(row, payload, printed):
    """Whether a payload by the row's layout is another number than the one that is printed."""
    size, order = NUMBERS.get(row.layout, (None, None))
    given = number(printed)
    if size is None or given is None or len(payload) != size:
        return False
    value = int.from_bytes(payload, order, signed=row.layout == "I32")
    return bool(value) != given if isinstance(given, bool) else value != given


def check(families, lines, known):
    """What `ip` prints otherwise, a line each, and payloads of another length; and how many rows
    it prints, is known not to print, and are in no list. `known` lists the rows of which it prints
    no such member."""
    seen, other, lengths = {}, {}, {}
    for row, payload, members in pairs(families, lines):
        is_there = row.member in members
        seen[row] = seen.get(row, False) or is_there
        lengths.setdefault(row, set()).add(len(payload))
        if is_there and is_other(row, payload, members[row.member]):
            other[row] = (f"{row.place}: ip prints {row.member} {members[row.member]} of "
                          f"{payload.hex()}, which is another number as {row.layout}")
    missing = [row for row, is_there in seen.items()
               if not is_there and row.format.split(" ")[0] not in PARTS]
    differ = [f"{row.place}: ip prints no member {row.member} of {row.names[0]}"
              for row in missing if not known.has(f"{row.names[0]}/{row.member}")]
    # (some lists have a payload that is rejected)
    longer = [f"{row.place}: no list has a payload of {row.names[0]} with the length of "
              f"{row.layout}, but of {sorted(found)}" for row, found in lengths.items()
              if SIZES.get(row.layout) not in (None, *found)]
    every = sum(1 for family in families for row in family.rows if row.member)
    counts = {"printed": sum(seen.values()), "not printed": len(seen) - sum(seen.values()),
              "in no list": every - len(seen)}
    unused = [f"gate/tables/not_printed: {it} is printed, or in no list" for it in known.unused()]
    return [*other.values(), *longer, *differ, *unused], counts
