"""The table of uses beside the calls of the kernel's drivers: an attribute that no driver writes is
in no reply, and one that drivers only write is in no request."""
import re

WRITE_ONLY = {"Command", "NeverReturned"}


def read(folder):
    """The use of each type in tables/uses, by family and type."""
    found = {}
    lines = (folder / "uses").read_text(encoding="utf-8").splitlines()
    for line in lines[lines.index("") + 2:]:
        family, use, types = re.split(r" {2,}", line)
        found.update({(family, int(number)): use for number in types.split()})
    return found


def wrong(use, said):
    """What the calls of an attribute say otherwise than its use."""
    how = {it.split()[0] for it in said}
    if use in WRITE_ONLY and "put" in how:
        return "drivers write it in replies"
    if use == "ReadOnly" and "get" in how:
        return "drivers read it from requests"
    if use == "ReadWrite" and how == {"put"}:
        return "drivers only write it in replies"
    if use in ("ReadOnly", "ReadWrite") and "put" not in how:
        return "no driver writes it in replies"
    return None


def check(families, calls, known, uses):
    """What differs from the calls, a line each, and how many rows agree, are known to differ, and
    are not described. `known` lists attributes that differ for a reason."""
    differ, counts = [], {"agree": 0, "known": 0, "not described": 0}
    for family in families:
        for row in (row for row in family.rows if row.variants):
            said = next((calls[name] for name in row.names if name in calls), None)
            use = uses.get((family.names[0], row.number), "ReadWrite")
            why = said and wrong(use, said)
            how = "not described" if said is None else "known" if why and known.has(
                row.names[0]) else None if why else "agree"
            if how:
                counts[how] += 1
            else:
                differ.append(f"{row.place}: {row.names[0]} is {use} in tables/uses, but {why}: "
                              f"{', '.join(said)}")
    return differ + [f"gate/tables/not_as_used: {entry} does not differ"
                     for entry in known.unused()], counts
