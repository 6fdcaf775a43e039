"""What templates/family has in its marks: of a flat family, and of each of its rows."""
import re

from .families import NEST
from .text import CALL, MOST, broken, constructor, fill, laid, pairs, snake, spelled

OWNING = {"Name", "Raw"}            # shapes whose values own memory
FOUND = {"I32", *OWNING}            # shapes of which a search finds that a row is stored
LISTED = 2      # up to so many rows of payloads are a list; more are a tree of such lists
SEARCHED = 10   # up to so many variants, `ExactEq` is found by a search
LONG = 8        # from so many rows on, what a label keeps is a line for each row
KNOWN = {"number": "Decides-eqb", "truth": "booleans_Decides",
         "sets": "(λ a b. Prim.search rules)",
         "pair": "(two_fields Decides-eqb Decides-eqb)",
         "numbers": "(pointwise_decides Decides-eqb)"}
CONTRACTS = {"[u8; 6]": "ArrayU86", "i32": "I32"}     # how names of contracts have a type
ADDRESSES = {"ipv4_list": "Ipv4Addr", "ipv6_list": "Ipv6Addr"}      # of lists, by their entries
HOW = {"number": " as ‹›", "reference": " as &‹›", "flags": " as flags ‹›", "record": " as ‹›",
       "pair": " by flags_of, pair_of", "sets": " by flags_of, pair_of",
       "scrub": " by scrub_of, is_by_default"}


def kept(row, marks):
    """The proof that a label keeps number and datum."""
    if row.two:
        return f"{marks['either']}_keeps"
    if row.numbered:
        label = f"ap (typed {row.number} {row.shape})"
        return f"λ n. {label} (key-value_of {marks['value']}_table_holds n)"
    return f"λ {'n' if marks['bits_of'] else row.layout.variable}. refl"


def keeps(rows):
    """What the labels keep."""
    proofs = [row["kept"] for row in rows]
    if len(rows) >= LONG or "\n" in pairs(proofs, "    ") and "\n" not in pairs(proofs):
        proofs = [it if it.endswith("_keeps") else f"({it})" for it in proofs]
        return f"\n    ({proofs[0]}" + "".join(f"\n    & {it}" for it in [*proofs[1:], "tt"]) + ")"
    text, apart = pairs(proofs, "    "), pairs(proofs)
    return f" {apart}" if "\n" in text else f"\n    {text}"


def stored(row, marks, seen):
    """The proofs of what a row's arm of `store_decoded` reads, and of what it makes. A later call
    of a function has the arm in its name."""
    def result(call):
        name = f"c.store_by_rows-{call}" + f"-in-{row.number}" * (call in seen)
        seen.add(call)
        return name

    read, made = "(λ _. refl)", "refl"
    if row.layout.read:
        call, clause = row.layout.read.split()
        read = f"{result(call)}.ensures.{clause}"
    if row.made == "flags":
        bits = result("from_bits_retain")
        made = f"(ap (λ n. {constructor(row.variant)} ({marks['value']} n)) ({bits}.ensures tt))"
    elif row.value:
        call = result("flags_of" if row.made in ("pair", "sets") else "from")
        made = f"(ap (λ x. {constructor(row.variant)} x) {call}.ensures)"
    return {"read": read, "made": made}


def exact(row, at, lets, is_listed):
    """The entry of a row in `ExactEq`."""
    entry = row.value.exact if row.value else row.layout.exact
    entry, field, decides = "sets" if row.made == "sets" else entry, row.field, "{}_exact"
    where = f"linkinfo_numbers.specs.contracts.{row.value.module}" if row.value else \
        "nla_frame.specs.contracts.exact_eq"
    if row.inner:
        field, decides, entry = row.inner, "(pointwise_decides {}_exact)", snake(row.inner)
        where = f"{row.inner_crate}.specs.contracts.{row.inner_module}"
    elif entry in ADDRESSES:
        field, decides = ADDRESSES[entry], "(pointwise_decides {}_exact)"
    elif row.payload:
        where = "linkinfo_payloads.specs.contracts.records"
    elif entry in ("bytes", "text"):
        where = f"nla_frame.specs.contracts.{entry}"
    field = CONTRACTS.get(field, field)
    is_new = is_listed and bool(field) and entry not in lets
    found = {"entry": entry, "decides": KNOWN.get(entry, decides.format(entry)),
             "law": is_new and entry not in KNOWN and f"{where}.{field}ExactEq.TheImpl.Laws",
             "let_first": is_new and not lets, "let_later": is_new and bool(lets),
             "entry_first": is_listed and not at, "entry_later": is_listed and at > 0,
             "two_later": is_listed and row.two}
    lets.update([entry] * is_new)
    return found


def made_marks(row):
    """The marks of a row whose number, or pair of numbers, is made into a value without names: the
    field of a set or of a record, and those of both sets of a pair."""
    fields = [name for name, _ in row.value.fields] if row.value else []
    first, second = fields if row.made == "pair" else ("0", "1")
    return {"bits_of": {"flags": "0", "record": (fields or [""])[0]}.get(row.made, ""),
            "pair": row.made in ("pair", "sets"), "first": first, "second": second}


def of_row(row):
    """The marks of a row that need nothing else."""
    field, either = row.field, spelled(row.variant)
    bits, bare = row.value.bits if row.value else 0, row.shape == "Mark"
    simple = not (row.value or row.two or bare or row.payload)
    kind = f"written_kind true {row.number}" if row.flagged else str(row.number)
    it, own = snake(row.inner), row.layout.codec
    return {
        **vars(row), "number": str(row.number), "held": f"({field})" if field else "",
        "table": not row.payload,
        "in_code": row.shape + f"(Family::{row.inner})" * bool(row.inner),
        "in_specs": f"{row.shape} family.{row.inner}" if row.inner else row.shape,
        "term": f"({row.shape} family.{row.inner})" if row.inner else row.shape,
        "own": own, "codec": f"(list_of {it}_members)" if row.inner else f"{own}_codec",
        "lawful": f"(list_of_is_codec {it}_members {it}_lawful)" if row.inner else
        f"{own}_payload.codec",
        "headers": f"headers_in {it}_members" if row.inner else f"{own}_codec.headers",
        "spelled": "custom" if row.payload or row.shape in ("Peer", "SelfList") else
        spelled(row.shape),
        "how": f" or {row.variants[0]}" if row.two else HOW.get(row.made, "").replace("‹›", field),
        "doc": row.doc(len(row.variants) - 1), "first_doc": row.doc(0), "empty": row.variants[0],
        "constructor": constructor(row.variant), "either": either, "short": either.split("_")[0],
        "value": row.value and snake(row.value.name), "word": row.value and row.value.in_specs,
        "bits": str(bits), "most": "256" if bits == 8 else f"(2 ^ {bits})", "bare": bare,
        **made_marks(row), "simple": simple, "written": kind,
        "flag": str(row.flagged).lower(), "inner_it": snake(row.inner),
        **{f"inner_{it}": row.inner and getattr(row, f"inner_{it}") for it in
           ("spec", "module", "crate")},
        "made_from": row.made in ("flags", "record") or row.numbered,
        "variable": row.layout.variable,
        "condition": row.layout.condition,
        "said": (simple or bool(own)) and row.layout.condition,
        "owning": row.shape in OWNING,
        "arm": not (row.two or row.payload or row.shape in FOUND), "plain": not row.under,
        "names": ", ".join(row.variants)}


def of_rows(family, is_listed):
    """The marks of the rows."""
    seen, lets, found = set(), set(), []
    for at, row in enumerate(family.typed):
        marks = of_row(row)
        found.append({**marks, **stored(row, marks, seen), **exact(row, at, lets, is_listed),
                      "at": str(at), "after": str(at + 1), "kept": kept(row, marks)})
    return found


def numbers(family):
    """The imports of value types, one of each module: numbers, then flag sets."""
    names, head = {}, "use Rattle.linkinfo_numbers.specs"
    for value in family.values:
        it = snake(value.set_of or value.name)
        names.setdefault(value.module, ([], []))[value.made in ("flags", "pair")].extend(
            [it, f"{it}_number", f"{it}_table", f"{it}_table_holds"])
    return "".join([*(f"{head}.{module.capitalize()}.{{{', '.join(first + flags)}}}\n"
                      for module, (first, flags) in names.items()),
                    *dict.fromkeys(
                        f"{head}.declared.{it.value.module}.{it.value.name}.{{{it.value.name}}}\n"
                        for it in family.typed if it.made in ("pair", "sets"))])


def reads(family, shapes):
    """What the doc comment of the parser says."""
    said = "Reads the attribute."
    if shapes - {"Name", "Mark"}:
        said += f" A payload of invalid length is rejected as `({family.name}, type, Length)`"
        said += ", and an address of the other IP version as " \
            f"`({family.name}, type, AddressKind)`" * ("GeneveV4" in shapes) + "."
    if NEST in shapes:
        said += " A list is rejected with the first error in it: that of an attribute inside, or "
        said += "`(Frame, 0, Header)`."
    if shapes & {"V4List", "V6List"}:
        said += " So is a list of addresses, in which an attribute of another length has the error "
        said += f"`({family.name}, type, Length)` with the type of the list."
    return said + "".join(
        f" A name that is not UTF-8 is rejected as `({family.name}, {row.number}, Utf8)`."
        for row in family.typed if row.shape == "Name")


def listed_types(rows):
    """The types of rows as a list: a tree of pairs, of which each item has no kind."""
    if not rows:
        return "", "()"
    return ("", f"{rows[0]['variant']}Row<()>"), listed_types(rows[1:])


def halves(rows):
    """The rows of the first and of the second half of a tree of rows, or None if a list has them
    all."""
    return (rows[:len(rows) // 2], rows[len(rows) // 2:]) if len(rows) > LISTED else None


def types_tree(rows, indent):
    """The types of rows as a tree of lists."""
    if not halves(rows):
        return laid(listed_types(rows))
    parts = [types_tree(half, indent + " " * 4) for half in halves(rows)]
    line = f"Both<{', '.join(parts)}>"
    if "\n" not in line and len(indent) + len(line) < MOST:
        return line
    return f"Both<\n{''.join(f'{indent}    {part},{chr(10)}' for part in parts)}{indent}>"


def any_of(rows, of_list):
    """Whether one of the lists of a tree of rows has something."""
    if not halves(rows):
        return of_list(rows)
    return "({} ||\n    {})".format(*(any_of(half, of_list) for half in halves(rows)))


def headers_inside(rows):
    """The headers in a payload `p` of the type `n`, by a tree of rows."""
    if not halves(rows):
        return "".join(f"if n == {row['number']} then {row['headers']} p else\n    "
                       for row in rows) + "0"
    first, second = halves(rows)
    return (f"if {any_of(first, owned)} then (\n    {headers_inside(first)}) else (\n"
            f"    {headers_inside(second)})")


def of_none(rows):
    """That a type of which no list of a tree of rows has a row is not among the types of all."""
    if not halves(rows):
        return "(λ h. h)"
    first, second = (cons(row["number"] for row in half) for half in halves(rows))
    return "(of_none ({}) ({}) n\n    {} {})".format(
        first, second, *map(of_none, halves(rows)))


def cons(items, last="[]"):
    """A list in specs, in lines that begin with four spaces but for the first."""
    return fill([*(f"{item} ∷" for item in items), last], "    ", MOST - len(") n (")).strip()


def owned(rows):
    """Whether a type `n` is that of one of the rows."""
    return f"is_among ({cons(row['number'] for row in rows)}) n" if rows else "false"


def beside(rows, table, indent):
    """That the type of an attribute `d` is that of none of the rows, nor of a row of a table."""
    unknown = f"IsUnknown {table} d"
    numbers = cons(row["number"] for row in rows)
    return f"IsBeside ({numbers}) (masked d.kind) ¦\n{indent}({unknown})" if rows else unknown


def chain(family, inner):
    """The rows from each of those on, the last one first."""
    its, text, rest = family.snake, "", f"(table_row {family.snake}_plain)"
    for row in reversed(inner):
        name = f"{its}_from_{row['either']}"
        text += (f"abbrev pub {name} : ℕ → FamilyRow {family.type}\n{name} n =\n    with_row "
                 f"{row['number']} {row['term']} {row['flag']} {row['codec']}\n"
                 f"    (λ x. {row['constructor']} x) {rest} n\n\n")
        rest = name
    return text.rstrip("\n") + "\n" * bool(text)


def custom(family, inner):
    """The marks of a family that are of its rows with payloads of types of their own."""
    its, spec = family.snake, f"Rattle.{family.crate}.specs"
    suffixes = [f"{its}_from_{row['either']}" for row in inner]
    for at, row in enumerate(inner):
        later = inner[at + 1:]
        row |= {"of_types": "e" if at else "h", "others": "e" if later else "_",
                "rest": suffixes[at + 1] if later else f"(table_row {its}_plain)",
                "rest_owned": f"({owned(later)})" if later else "false",
                "rest_beside": beside(later, f"{its}_plain", " " * 6),
                "rest_shapes": cons((f"({it['number']}, {it['in_specs']})" for it in later),
                                    f"without_labels {its}_plain")}
    lists = [row for row in inner if row["inner"]]
    inside = dict.fromkeys((row["inner_it"], row["inner_spec"]) for row in lists)
    owns = sorted({row["own"] for row in inner} - {""})
    types = sorted({re.match(r"\w+", row["field"])[0] for row in inner if row["own"]})
    return {
        "nested": bool(inner), "flat": not inner, "is_inner": family.inner,
        "is_set": str(family.is_set).lower(),
        "of_family": bool(inner) or family.inner, "inner_types": "\n".join(
            f"use crate::{module}::{name};" for module, name in sorted({
                (row["inner_module"], row["inner"]) for row in lists})),
        "has_lists": bool(lists), "owns": bool(owns), "own_types": ", ".join(types),
        "own_codecs": ", ".join(f"{own}_{end}" for own in owns for end in ("codec", "payload")),
        "pointwise": any(row["inner"] or "<" in row["field"] for row in inner),
        "cloned": ", Clone" * bool(inner), "closing": ")" * len(inner),
        "plain_rows": f"{its}_plain" if inner else f"{its}_rows",
        "all_rows": f"{its}_rows" if inner else f"table_row {its}_rows",
        "suits": f"({its}_suits c.args.decoded c.requires)" if inner else "c.requires",
        "own_variants": "".join(f"{row['constructor']}, " for row in inner),
        "held": ", ".join(f"is_{row['either']}" for row in inner),
        "custom": types_tree(inner, " " * 4), "tree_import": "Both, " * bool(halves(inner)),
        "owned": owned(inner), "suffixes": ", ".join(suffixes), "chain": chain(family, inner),
        "first_rows": suffixes[0] if inner else "",
        "is_held": any_of(inner, lambda rows:
                          f"is_held ({cons('is_' + row['either'] for row in rows)}) x"),
        "headers_inside": headers_inside(inner), "tree": bool(halves(inner)),
        "owned_tree": any_of(inner, owned),
        "of_none": of_none(inner), "of_tree": "_elsewhere" * bool(halves(inner)),
        "beside": beside(inner, f"{its}_plain" if inner else f"{its}_rows", " " * 4),
        "inner_rows": "".join(f"use {spec}.{name}.{{{it}_attribute, {it}_lawful, {it}_members}}\n"
                              for it, name in inside),
        "inner_conditions": "".join(
            f"use {spec}.{name}Conditions.{{{it}_conditions, {it}_stated}}\n"
            for it, name in inside)}


def pair_marks(row):
    """The marks of a family that are of its row with a pair of sets, if it has one: a record, or a
    tuple."""
    if not row:
        return {"both": "", "of_record": False, "of_tuple": False}
    record, one = row.made == "pair", row.value.set_of or row.value.name
    return {**made_marks(row), "both": row.field, "of_record": record, "of_tuple": not record,
            "one": one, "one_of": snake(one),
            "both_in_specs": row.field if record else f"{one} × {one}"}


def of_family(family):
    """The marks of a family, with those of its rows as `values`."""
    variants = [variant for row in family.typed for variant in row.variants]
    is_listed = len(variants) + 1 > SEARCHED or any(row.payload for row in family.typed)
    rows, shapes = of_rows(family, is_listed), dict.fromkeys(row.shape for row in family.typed)
    pair = next((row for row in family.typed if row.made in ("pair", "sets")), None)
    inner = [row for row in rows if row["payload"]]
    either, entries = [row["either"] for row in rows if row["two"]], {row["entry"] for row in rows}
    plain = "plain" if inner else "rows"
    used = {value.name for value in family.values} | {value.set_of for value in family.values}
    return {
        **vars(family), "it": family.snake, "info": family.type, **pair_marks(pair),
        "alias_doc": family.alias_said[:1].upper() + family.alias_said[1:] + ".",
        "flags": pair or any(value.made == "flags" for value in family.values),
        **custom(family, inner),
        "shapes": ", ".join(shapes), "value_names": ", ".join(sorted(used - {""})),
        "reads": reads(family, set(shapes)), "numbers": numbers(family),
        "keeps": keeps([row for row in rows if row["table"]]),
        "all_constructors": ", ".join(map(constructor, variants)),
        "searched": not is_listed, "listed": is_listed,
        "derived": ", ".join(["derived_decides", *["no_field"] * bool(
            either or "no_field" in entries), "one_field", *["two_fields"] * ("pair" in entries)]),
        "has_truth": is_listed and "truth" in entries, "values": rows,
        "not_all": not all(row["numbered"] for row in rows),
        "not_each": any(row["two"] or row["bare"] or row["simple"] and not row["said"]
                        for row in rows),
        "eithers": "".join(f"{it}, " for it in either), "are_typed": f"{family.snake}_typed" if
        either else f"(are_typed {family.snake}_is_other {family.snake}_{plain} refl)"}
