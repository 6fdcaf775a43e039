"""Whether what tables name is there, and is spelled as code can have it. `tables/generate` asks
this before it writes, since names, formats and heads go into code as they are."""
import re

from . import header, written_pages

# What a cell of a row may have, by the member of `rows.Row`.
FORMS = {"names": (r"[A-Z][A-Z0-9_]*", "no name of capitals, digits and _"),
         "variants": (r"[A-Z]\w*", "no name of a variant"),
         "member": (r"(?!others$|rest$)[a-z][a-z0-9_]*|", "no member")}
# The most bytes of a name that the library returns (`attribute_name`).
MOST = 47
# The words of a `links` line that are no kind: of families inside others, of ports, and of kinds
# that `InfoKind` does not name.
NO_KIND = re.compile(r"^(in |ports of )|, and its ports$| \(Other\)$")


def cells_wrong(family, formats):
    """The cells of rows that no code can have, a line each."""
    for row in family.rows:
        for name, (pattern, why) in FORMS.items():
            given = getattr(row, name)
            for text in given if isinstance(given, tuple) else (given,):
                if not re.fullmatch(pattern, text):
                    yield f"{row.place}: {text} is {why}"
        if row.variants and max(map(len, row.names)) > MOST:
            yield f"{row.place}: {row.names[0]} has more than {MOST} bytes"
        if row.format.split(" ")[0] not in formats | {""}:
            yield f"{row.place}: {row.format.split(' ')[0]} is no format of docs/SHOW.md"
        if not row.member and not row.variants:
            yield f"{row.place}: a row with neither a variant nor a member"


def heads_wrong(family, place, kinds):
    """What a head lacks, or names that no kind has."""
    if any(row.variants for row in family.rows) and not (family.about or family.by_hand):
        yield f"{place}:1: the head has no line `about`"
    if not NO_KIND.search(family.links) or family.links.endswith(", and its ports"):
        links = family.links.removesuffix(", and its ports").replace(" and ", ", ")
        for kind in links.split(", "):
            if kind not in kinds:
                yield f"{place}:1: {kind} of its line `links` is no kind of tables/kinds"


def codes_wrong(rows):
    """The codes that C's 16 bits do not hold."""
    for place, code in rows:
        if not code.isdecimal() or int(code) >= 1 << 16:
            yield f"{place}: code {code} is not below 65,536"


def check(tables, kept, elsewhere, kinds, page):
    """All of it, and the names that the stored headers do not have, in the order of the tables.
    `kinds` are the names of kinds with the place and the code of each."""
    families, _ = tables
    formats = set(written_pages.formats(page))
    for family in families:
        place = family.rows[0].place.rpartition(":")[0]
        yield from heads_wrong(family, place, {name for name, _, _ in kinds})
        yield from cells_wrong(family, formats)
    yield from codes_wrong((place, code) for _, place, code in kinds)
    yield from header.wrong(list(header.named(*tables)), kept.numbers, kept.version, elsewhere)
