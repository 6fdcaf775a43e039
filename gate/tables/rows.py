"""Reads the rows and values of tables/*. It shares no code with the generator, which writes code,
specs and pages from them."""
import dataclasses
import re

COLUMNS = ["type", "name", "variant", "layout", "member", "shown as"]
NUMBER = re.compile(r"0x[\dA-Fa-f_]+|\d+")
# The layouts of payloads that have a type of their own.
OWN_TYPES = {"Nested", "BridgeId", "LePair16", "Le32x8", "CanBitTimingConst", "Le16s", "Le32s",
             "V4List", "V6List"}


class Bad(Exception):
    """What is wrong in a line of a table."""


@dataclasses.dataclass(frozen=True)
class Row:
    """An attribute; `under` is the kind of link that alone has it, else empty."""
    place: str
    number: int
    under: str
    names: tuple        # the kernel's names: that of each prefix of the family
    variants: tuple
    layout: str         # the first word of the layout
    value: str          # the type that the number is made into, else empty
    member: str
    format: str
    inner: str = ""     # the family of the attributes in a list, and `+8000`

    @property
    def has_own_type(self):
        """Whether its payload has a type of its own."""
        return self.layout in OWN_TYPES


@dataclasses.dataclass(frozen=True)
class Family:
    """The table of a family, or of two with the same rows."""
    names: tuple
    links: str          # which links have them
    views: dict         # the tables of the view by kind, where there are several
    rows: tuple
    about: str = ""     # what completes the sentence of its type, else empty
    by_hand: bool = False   # whether its module is written by hand
    layered: bool = False   # whether its rows are those of the typed layer

    def of_kind(self, kind):
        """The rows of a kind, in order: one of its own stands for that of all kinds."""
        found = {}
        for row in self.rows:
            if row.under in ("", kind) and (row.under or row.number not in found):
                found[row.number] = row
        return [found[number] for number in sorted(found)]


@dataclasses.dataclass(frozen=True)
class Value:
    """A named number of a type; `kernel` is empty where the kernel has no name."""
    place: str
    type: str
    number: int
    kernel: str
    variant: str
    by_hand: bool       # whether code and page of the type are written by hand


def cells(line):
    """The cells of a line; `-` is an empty one."""
    return ["" if cell == "-" else cell for cell in re.split(r" {2,}", line.strip())]


def numbered(path, root):
    """The lines of a file with their places; one that ends with `\\` goes on in the next."""
    found = []
    for at, line in enumerate(path.read_text(encoding="utf-8").splitlines(), 1):
        if found and found[-1][1].endswith("\\"):
            place, before = found.pop()
            found.append((place, f"{before[:-1]}  {line.strip()}"))
        else:
            found.append((f"{path.relative_to(root)}:{at}", line))
    return found


def head(lines):
    """The lines of a head by their first word."""
    return dict(line.split(None, 1) for _, line in lines if " " in line)


def row(place, line, prefixes):
    """The row of a line."""
    kind, name, variant, layout, member, form = (cells(line) + [""] * 6)[:6]
    number, _, under = kind.partition("/")
    if not number.isdecimal() or not name or not layout:
        raise Bad(f"{place}: this is no row")
    words, _, value = layout.partition(" as ")
    shape, _, inner = words.strip().partition(" ")
    return Row(place, int(number), under, tuple(prefix + name for prefix in prefixes),
               tuple(variant.split("/")) if variant else (), shape, value.strip(), member, form,
               inner)


def family(path, root):
    """The table of a family."""
    lines = numbered(path, root)
    top = [line for _, line in lines].index("")
    given = head(lines[1:top])
    names = re.fullmatch(r"(\w+)(?: and (\w+))?(?:,.*)?", given["family"])
    prefixes = re.findall(r"(\w+)\*", " ".join([given["names"], given.get("twin", "")]))
    columns, *body = lines[top + 1:]
    if cells(columns[1]) != COLUMNS:
        raise Bad(f"{columns[0]}: the columns are not {', '.join(COLUMNS)}")
    return Family(tuple(filter(None, names.groups())), given["links"],
                  dict(it.split() for it in given.get("tables", "").split(", ") if it),
                  tuple(row(place, line, prefixes) for place, line in body
                        if line and not line.startswith(" ")),
                  given.get("about", ""), "by hand" in given["family"],
                  bool(re.search(", (typed|shaped|inner|inner set) in ", given["family"])))


def values(path, root):
    """The named numbers of the types of a group; a type `as` another one has those of that one."""
    kind, by_hand, found = None, False, {}
    for place, line in numbered(path, root):
        if re.match(r"[A-Z]\w*  ", line):
            kind, by_hand = line.split()[0], "by hand" in line
            same = re.search(r"\bas (\w+)", line)
            found[kind] = [dataclasses.replace(it, type=kind, by_hand=by_hand)
                           for it in (found[same[1]] if same else [])]
        elif kind and re.match(rf" +({NUMBER.pattern})  ", line):
            number, kernel, variant, *_ = cells(line)
            found[kind].append(Value(place, kind, int(number, 0), kernel, variant, by_hand))
    return [value for of_type in found.values() for value in of_type]


def is_family(path):
    """Whether a file is the table of a family: its second line says which."""
    return path.is_file() and bool(re.match(r"# .*\nfamily  ", path.read_text(encoding="utf-8")))


def listed(tables):
    """The families that each table has, by its name, as the list `families` says."""
    found = {}
    for place, line in numbered(tables / "families", tables.parent):
        code, name, table = (cells(line) + [""] * 3)[:3]
        if re.fullmatch(r"\d*", code) and table:
            if not is_family(tables / table):
                raise Bad(f"{place}: {table} is no table of a family")
            found.setdefault(table, []).append(name)
    return found


def families(tables):
    """The families of a folder of tables. Each is in the list, and no other."""
    found, names = [], listed(tables)
    for path in sorted(path for path in tables.iterdir() if is_family(path)):
        at = f"{path.relative_to(tables.parent)}:1"
        try:
            found.append(family(path, tables.parent))
        except (LookupError, AttributeError, ValueError):
            raise Bad(f"{at}: this is no table of a family, with links, names, and rows after an "
                      "empty line") from None
        if names.get(path.name) != list(found[-1].names):
            raise Bad(f"{at}: tables/families does not list {' and '.join(found[-1].names)} here")
    return found


def kinds(tables):
    """The names of kinds and port kinds, with the place and the code of each."""
    found = []
    for name in ("kinds", "ports"):
        for place, line in numbered(tables / name, tables.parent):
            code, kind, *_ = cells(line) + [""]
            if line and not line.startswith("#") and code != "code":
                found.append((kind, place, code))
    return found


def numbers(tables):
    """The named numbers of a folder of tables."""
    return [value for path in sorted((tables / "numbers").iterdir()) if path.is_file()
            for value in values(path, tables.parent)]
