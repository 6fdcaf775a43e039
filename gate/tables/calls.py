"""The layouts of the tables beside the calls by which the kernel's drivers write and read each
attribute, and its type in their policies: an extract of the kernel's source is stored."""
import re

COMMENT = re.compile(r"/\*.*?\*/|//[^\n]*", re.S)
PUT = re.compile(r"\bnla_(put_\w+|nest_start)(?:_noflag)?\(\s*[^,;]+,\s*(\w+)\b")
GET = re.compile(r"\bnla_get_(\w+?)(?:_default)?\(\s*[\w>.-]+\[(\w+)\]")
POLICY = re.compile(r"\[(\w+)\]\s*=\s*(?:\{[^{}]*?\.type\s*=\s*|NLA_POLICY_\w+\(\s*)NLA_(\w+)")
ATTRIBUTE = re.compile(r"(IFLA|BRIDGE_QUERIER)_\w+|\w+_INFO_PEER")

BYTE = {"U8", "Truth", "TruthOne", "EmptyOrByte"}
LISTS = {"Nested", "SelfList", "V4List", "V6List"}
# The layouts that each call allows, and each type of a policy, which has no byte order. A new
# layout is added here, and to LAYOUTS of ynl.py.
CALLS = {
    "u8": BYTE, "u16": {"Le16"}, "u32": {"Le32", "Scrub"}, "u64": {"Le64"}, "s32": {"I32"},
    "be16": {"Be16"}, "be32": {"Be32"}, "be64": {"Be64"}, "sci": {"Le64", "Be64"},
    "flag": {"Mark", "EmptyOrByte"}, "string": {"Name"}, "nest": LISTS,
    "in_addr": {"V4", "GeneveV4", "Ip"}, "in6_addr": {"V6", "GeneveV6", "Ip"},
}
POLICIES = {
    "U8": BYTE, "U16": {"Le16", "Be16"}, "U32": {"Le32", "Be32", "V4", "GeneveV4", "Ip", "Scrub"},
    "U64": {"Le64", "Be64"}, "S32": {"I32"}, "BE16": {"Be16"}, "BE32": {"Be32", "V4", "GeneveV4"},
    "FLAG": {"Mark", "EmptyOrByte"}, "STRING": {"Name"}, "NUL_STRING": {"Name"}, "NESTED": LISTS,
}
# A layout that says nothing of the payload.
OPAQUE = "Raw"


def noted(text):
    """The attributes of a source, each with a word for what is done to it: `put be32`."""
    text = COMMENT.sub("", text)
    for call, name in PUT.findall(text):
        yield name, "put " + call.removeprefix("put_").removesuffix("_start").removesuffix("_64bit")
    for call, name in GET.findall(text):
        yield name, f"get {call}"
    for name, kind in POLICY.findall(text):
        yield name, f"policy {kind}"


def extract(sources):
    """The words of each attribute, in order; those that say nothing of a layout are left out."""
    found = {}
    for text in sources:
        for name, said in noted(text):
            how, word = said.split()
            if ATTRIBUTE.fullmatch(name) and word in (POLICIES if how == "policy" else CALLS):
                found.setdefault(name, set()).add(said)
    return {name: sorted(found[name]) for name in sorted(found)}


def to_store(version, calls):
    """The text of an extract."""
    lines = [f"# What the drivers of Linux {version} do to each attribute of links", ""]
    return "\n".join(lines + [f"{name} {', '.join(said)}" for name, said in calls.items()]) + "\n"


def stored(text):
    """The version and the words of a stored extract."""
    title, _, *lines = text.splitlines()
    parts = (line.split(" ", 1) for line in lines)
    return title.split(" of Linux ")[1].split()[0], {it[0]: it[1].split(", ") for it in parts}


def decisive(said):
    """Of the words of an attribute the calls that write it, or if there is none those that read
    it: some drivers read a big-endian number as a native one."""
    by_how = {how: [it.split()[1] for it in said if it.startswith(how)] for how in ("put", "get")}
    return by_how["put"] or by_how["get"]


def agrees(row, said):
    """Whether a layout is one that a policy allows, and a call that decides, where there are such:
    kinds that share a name may differ."""
    policies = [POLICIES[it.split()[1]] for it in said if it.startswith("policy")]
    calls = [CALLS[it] for it in decisive(said)]
    return row.layout == OPAQUE or all(
        not allowed or any(row.layout in it for it in allowed) for allowed in (policies, calls))


def check(families, calls, known):
    """What differs from the calls, a line each, and how many rows agree, are known to differ, and
    are not described. `known` lists attributes that differ for a reason."""
    differ, counts = [], {"agree": 0, "known": 0, "not described": 0}
    for family in families:
        for row in family.rows:
            said = next((calls[name] for name in row.names if name in calls), None)
            if said is None:
                counts["not described"] += 1
            elif agrees(row, said):
                counts["agree"] += 1
            elif known.has(row.names[0]):
                counts["known"] += 1
            else:
                differ.append(f"{row.place}: {row.names[0]} is not {row.layout} in the kernel's "
                              f"drivers: {', '.join(said)}")
    return differ + [f"gate/tables/not_as_drivers: {entry} does not differ"
                     for entry in known.unused()], counts
