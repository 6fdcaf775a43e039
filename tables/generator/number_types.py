"""Writes the number types and flag sets of linkinfo_numbers: a module, and a file of specs/. Says
of each what the lines of templates/places have: laws, lists of names, tables of docs/FORMAT.md."""
import re

from .form import LINK_HEADER
from .parts import Part, Whole
from .places import put_in, sections
from .text import camel, fill, fitting, pairs, tidy


def value_row(value):
    """What templates have of a value."""
    doc, word = value.docs[0], value["word"]
    return {"variant": value["variant"], "number": value["number"], "word_of": word,
            "digits": value["number"].replace("_", ""),
            "said": doc if doc.endswith(".") else f"`{value['name']}`: {doc}.",
            "clause": re.sub("(?<=[a-z0-9])(?=[A-Z])", "_", value["variant"]).lower(),
            "word_given": f', "{word}"' if word else ""}


def listing(kind):
    """The list of the values of a number type, in specs."""
    it, (first, *others) = kind.snake, [f"{kind.in_specs}.{it['variant']}" for it in kind.values]
    words = [f"({first}", *[f"∷ {name}" for name in others], "∷ [])"]
    head, call = f"{it}_table =", f"by_number {it}_number {kind.in_specs}.Other"
    line = f"{call} {' '.join(words)}"
    return fitting(f"{head} {line}", f"{head}\n    {line}",
                   f"{head} {call}\n{fill(words, '    ')}")


def words_hold(kind):
    """The proof that the words of a number type are read back."""
    it, proofs = kind.snake, pairs(["refl"] * len(kind.values), "    ")
    head = f"{it}_words_hold ="
    call = f"reads_words family.{kind.family} {it}_text {it}_table.named"
    return fitting(f"{head} {call} {proofs}", f"{head}\n    {call} {proofs}",
                   f"{head} {call}\n    {proofs}", f"{head}\n    {call}\n    {proofs}")


def listed(kind):
    """The numbers and names of a type, in docs/FORMAT.md."""
    if kind.is_set:
        return ", ".join(f"{it['variant']} {it['number']}" for it in kind.values)
    made = "; the number is made from a reference" * (kind.made == "reference")
    also, _, of = kind.more.get("also", "").partition(" ")
    numbers = [f"{it['number'].replace('_', '')} {it['variant']}" + f" or {also}" * (
        it["variant"] == of) for it in kind.values]
    return ", ".join(numbers) + made


def doc_of(kind):
    """The doc comment of a type, and its header. One without a full stop gets the header, and a
    flag set that every number is one."""
    text, _, header = kind.doc.partition("; include/")
    header = f"include/{header}" if header else LINK_HEADER
    every = f" Every {kind.bits}-bit number is a valid set." * kind.is_set
    return kind.doc if kind.doc.endswith(".") else f"{text} ({header}).{every}", header


def type_row(kind):
    """What templates have of a type."""
    others, default = kind.more.get("others"), kind.more.get("default")
    ref, (doc, header) = "&" * (kind.made == "reference"), doc_of(kind)
    first = kind.values[0]["name"] if kind.values else ""
    said = f": `{first}` and the others" if first else ""
    also = kind.more.get("also", "").split()
    fields = [{"field": name, "said": f"{text[:1].upper()}{text[1:]}."}
              for name, text in kind.fields]
    return {
        **vars(kind), "file": camel(kind.module), "bits": str(kind.bits), "doc": doc,
        "also": also and also[0], "also_word": also and also[0].lower(),
        "also_of": also and also[1], "true": kind.more.get("true"),
        "false": kind.more.get("false"), "field": fields and fields[0]["field"],
        "first": fields and fields[0]["field"], "second": fields and fields[-1]["field"],
        "header": header, "number": kind.numbered, "ref": ref, "now": ".now" * bool(ref),
        "alias": kind.more.get("alias"), "hash": ", Hash" * ("hashed" in kind.more),
        "default": default, "others": f', "{others.replace("(n)", "({})")}"' if others else "",
        "values": fields or [value_row(value) for value in kind.values],
        "listing": kind.numbered and listing(kind),
        "apart": pairs(["λ p. cc"] * len(kind.values), "  "),
        "words_hold": kind.numbered and words_hold(kind),
        "every": "0x" + "f" * (kind.bits // 4),
        "known": f"{sum(value.number('number') for value in kind.values):#x}",
        "whole": kind.bits == 32, "narrow": kind.bits < 32,
        "wide": "self.0" if kind.bits == 32 else "u32::from(self.0)",
        "other_text": f'codes "{others[:-2]}" ++ decimal n ++ codes ")"' if others else "decimal n",
        "law": f"{kind.snake.removesuffix('s')}_bits", "first_said": said,
        "page_numbers": listed(kind), "page_read": f"yes ({kind.family})" if kind.family else "no",
        "page_default": "none" if default is None else default or "empty",
        "page_fields": ", ".join(f"`{name}` {kind.set_of or f'u{kind.bits}'}"
                                 for name, _ in kind.fields),
        "page_texts": ", ".join([it["word"] for it in kind.values] + [
            f"`{others}`" if others else "n"] * kind.numbered) if kind.worded else "none"}


def text(kind, prefix=""):
    """A type in code, or with a prefix in specs."""
    has = {"number": kind.numbered, "also": "also" in kind.more, "truth": "true" in kind.more,
           "display": kind.numbered and kind.worded, "words": kind.numbered and kind.family,
           "default": kind.numbered and "default" in kind.more, "set": kind.is_set,
           "set display": kind.is_set and kind.worded, "set words": kind.is_set and kind.family,
           "empty": kind.is_set and "default" in kind.more, "record": kind.made == "record",
           "pair": kind.made == "pair", "equal": True}
    found = sections("number_types")
    return "".join(put_in(found[prefix + name], type_row(kind)) for name in has
                   if has[name] and prefix + name in found)


def outputs(tables):
    """The modules and their specs; of a module that also has types by hand, a part of both."""
    found = sections("number_types")
    for group in tables.numbers:
        row = {"title": group.title, "words": any(kind.family for kind in group.written),
               "values": [type_row(kind) for kind in group.written]}
        code = "\n".join(map(text, group.written)) + "".join(
            put_in(found["alias"], it) for it in row["values"] if it["alias"])
        specs = "".join(text(kind, "specs ") for kind in group.written)
        for path, head, body in ((f"src/{group.module}.rt", "head", code),
                                 (f"specs/{camel(group.module)}.antt", "specs head", specs)):
            given = f"crates/linkinfo_numbers/{path}", f"numbers/{group.module}"
            yield Part(*given, body.lstrip("\n")) if len(group.written) < len(group.types) else \
                Whole(*given, tidy(put_in(found[head], row) + body))


def names(kinds, others=True):
    """Types and their other names, as an import has them."""
    aliases = [kind.more["alias"] for kind in kinds if others and "alias" in kind.more]
    return ", ".join(sorted([*(kind.name for kind in kinds), *aliases]))


def laws(kinds):
    """The definitions that the laws of types name."""
    return ", ".join(kind.snake + end for kind in kinds for end in (
        ["", "_number", "_table", *["_text"] * bool(kind.family)] if kind.numbered else
        ["", *["_words"] * bool(kind.family)] if kind.is_set else []))


def selections(groups):
    """The selections of templates/places that are of number types and flag sets."""
    kinds = [kind for group in groups for kind in group.written]
    sets = [type_row(it) for it in kinds if it.is_set]
    plain = [type_row(it) for it in kinds if it.numbered]
    found = {
        "groups": [{"module": group.module, "file": camel(group.module),
                    "types": names(group.types), "laws": laws(group.written), "written": names(
                        [it for it in group.written if not it.fields], False)}
                   for group in groups],
        "all types": [{"types": names([it for group in groups for it in group.types])}],
        "number types": plain, "word types": [row for row in plain if row["family"]],
        "flag sets": sets, "worded sets": [row for row in sets if row["family"]],
        "hashed types": [row for row in plain + sets if row["hash"]],
        "number page": [{"values": plain}], "also types": [it for it in plain if it["also"]],
        "record page": [{"values": [type_row(it) for group in groups for it in group.types
                                    if it.fields]}], "flag page": [{"values": sets}]}
    return {name: [({}, rows)] for name, rows in found.items()}
