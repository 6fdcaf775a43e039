"""Writes what follows from the table of a flat family: its module, its specs, its conditions, an
explicit proof if it has many rows, and its lines and clauses in its crate. Of a family by hand it
writes the variants and the rows."""
from .marks import of_family, of_row, of_rows
from .parts import Part, Whole
from .places import parts, put_in, sections
from .text import tidy

MANY = 6        # from so many rows on, `store_decoded` has an explicit proof
PATHS = {"module": "crates/‹crate›/src/‹module›.rt",
         "spec": "crates/‹crate›/specs/‹spec›.antt",
         "conditions": "crates/‹crate›/specs/‹spec›Conditions.antt",
         "answers": "crates/‹crate›/proofs/‹module›/‹info›RowFamily/store_decoded/Answers.antt"}


def by_hand(family):
    """The parts of modules by hand. Of two families, the second one has names of its own."""
    for at, name in enumerate(family.modules):
        text = put_in(sections("family")["variants"], {"values": map(of_row, family.typed)})
        text = text.replace("‹info›", f"Info{family.families[at]}")
        if at:
            text = text.replace(f"`{family.kinds[0]}`", f"`{family.kinds[1]}`")
            text = text.replace(family.prefix, family.twin_prefix)
        yield Part(f"crates/{family.crate}/src/{name}.rt", f"{family.table} (variants)", text)
    if family.listed_in:
        yield Part(f"crates/{family.crate}/src/{family.listed_in}.rt", f"{family.table} (rows)",
                   put_in(sections("family")["rows"], {"values": map(of_row, family.plain)}))


def crate_parts(crate, families):
    """The lines and clauses of the flat families of a crate."""
    given = {"crate": crate, "values": [
        {**vars(it), "types": ", ".join(filter(None, [it.type, it.alias]))} for it in families]}
    for mark in ("conditions", "stated"):
        given[mark] = ", ".join(sorted(f"{it.snake}_{mark}" for it in families))
    lists = {it.name: [
        {**vars(it), **row, "kind": str(int(row["number"]) + 0x8000 * row["flagged"])}
        for row in of_rows(it, True) if row["payload"]] for it in families if it.layered}
    nesting = [{**vars(it), "values": lists[it.name]} for it in families if lists.get(it.name)]
    rows = [row for it in nesting for row in it["values"]]
    owned = [row for row in rows if row["own"]]
    has = {name: [it for it in nesting if any(row[name] for row in it["values"])]
           for name in ("inner", "own")}
    among = {row["inner"] for it in has["own"] for row in it["values"]} - {""}
    listed = [row for it in has["inner"] for row in it["values"] if row["own"]]
    codecs, listed = ([{mark: ", ".join(sorted({row[of] for row in found})) for mark, of in (
        ("codecs", "codec"), ("shapes", "shape"))}] if found else [] for found in (owned, listed))
    return parts("crate", {"crate": [(given, [given])], **{
        name: [({"crate": crate}, found)] if lists else [] for name, found in {
            "typed": [{**vars(it), "is_flat": not lists[it.name], "nests": bool(lists[it.name]),
                       "as_set": str(it.is_set).lower(),
                       "inside": "".join(
                           f"family.{row['inner']} ∷ " for row in lists[it.name]
                           if row["inner"])} for it in families if it.layered],
            "inner": [vars(it) for it in families if it.inner],
            "inner in own": [vars(it) for it in families if it.name in among],
            "inner in any own": [{}] * bool(among),
            "nesting": nesting, "listing": has["inner"], "owning": has["own"],
            "codecs": codecs, "listed codecs": listed,
            "lists": [row for row in rows if row["inner"]], "payloads": owned}.items()}})


def outputs(tables):
    """The files of flat families, and all parts."""
    flat = sorted((it for it in tables.families if it.flat), key=lambda it: it.module)
    for family in flat:
        marks = of_family(family)
        for name, path in PATHS.items():
            if name != "answers" or len(family.typed) >= MANY:
                yield Whole(put_in(path, marks), family.table,
                            tidy(put_in(sections("family")[name], marks)))
    for crate in sorted({family.crate for family in flat}):
        yield from crate_parts(crate, [family for family in flat if family.crate == crate])
    for family in tables.families:
        yield from by_hand(family) if family.crate and not family.flat else ()
