"""Reads tables/records, and writes the records of linkinfo_payloads: a module, and a file of
specs/. A record is a block: a line of its name and its shape, its doc comment, and a line for each
field."""
import itertools
import re

from . import form
from .parts import Part, Whole
from .places import put_in, sections
from .text import CALL, MOST, broken, fitting, is_pair, laid, snake, tidy

CRATE = "crates/linkinfo_payloads"
HEAD = re.compile(r"(\w+)  +(\w+)")
FIELD = re.compile(r"    ([a-z]\w*)  +(Be16|Le16|Le32|\[(\d+)\])  +(\w.*)")
# Of each layout of a field: its width; its type as a field of the record, and as one of the list of
# fields; in specs its type, and its layout; what its doc comment ends with.
LITERAL = 18        # how many characters rustfmt has on one line in a struct
LAYOUTS = {"Be16": (2, "u16", "BigEndian", "BigEndian", "be16", ", big-endian"),
           "Le16": (2, "u16", "u16", "ℕ", "le16", ", little-endian"),
           "Le32": (4, "u32", "u32", "ℕ", "le32", ", little-endian")}


def layout_of(name, size):
    """The layout of a field."""
    array = f"[u8; {size}]"
    return LAYOUTS.get(name) or (int(size), array, array, "List ℕ", f"octets {size}", "")


def tree(items):
    """Pairs of a list: of its halves, or of the first item and the others if it alone is not like
    them."""
    if len(items) == 1:
        return items[0]
    kinds = [kind for kind, _ in items]
    at = 1 if len(items) > 2 and kinds[0] not in kinds[1:] else len(items) // 2
    return tree(items[:at]), tree(items[at:])


def path_of(node, path):
    """Each item of a tree, and where it is."""
    if not is_pair(node):
        return [(node[1], path)]
    return path_of(node[0], f"{path}.0") + path_of(node[1], f"{path}.1")


def take_apart(names):
    """The statement that takes the fields apart, as rustfmt breaks it."""
    start, line = " " * 8 + "let", laid(names)
    pattern = broken(names, " " * 8, " " * 4, MOST - len("let  = fields;"))
    return fitting(f"{start} {line} = fields;", f"{start} {line} =\n{' ' * 12}fields;",
                   f"{start} {pattern} = fields;")


class Record:
    """A record: its name, its shape, and what templates/records has in its marks."""

    def __init__(self, block):
        self.line, *body = block
        found = HEAD.fullmatch(self.line.text)
        if not found:
            raise self.line.bad("no line NAME SHAPE")
        self.name, self.shape = found.groups()
        fields = [(line, FIELD.fullmatch(line.text)) for line in body]
        docs = list(itertools.takewhile(lambda it: not it[1], fields))
        self.doc = " ".join(line.text.strip() for line, _ in docs)
        self.fields = fields[len(docs):]
        for line, found in self.fields:
            if not found:
                raise line.bad("no line of a field: NAME LAYOUT DOC")
        if not self.doc or not self.fields:
            raise self.line.bad(f"{self.name} has no doc comment, or no fields")
        form.apart((line, found[1]) for line, found in self.fields)

    def row(self):
        """What templates have of the record."""
        layouts = [layout_of(found[2], found[3]) for _, found in self.fields]
        names, kinds = [found[1] for _, found in self.fields], [it[2] for it in layouts]

        def made(items):
            return tree(list(zip(kinds, items)))

        paths = dict(path_of(made(names), "fields"))
        big = [kind == "BigEndian" for kind in kinds]
        values = [{"field": name, "type": kind, "read": paths[name] + ".number" * is_big,
                   "said": f"{found[4][:1].upper()}{found[4][1:]}{tail}.",
                   "given": f"{name}: {name}.number" if is_big else name}
                  for (_, found), name, is_big, (_, kind, _, _, _, tail) in
                  zip(self.fields, names, big, layouts)]
        taken = [f"big_endian(self.{it})" if is_big else f"self.{it}"
                 for it, is_big in zip(names, big)]
        written = [f"big_endian x.{it}" if is_big else f"x.{it}" for it, is_big in zip(names, big)]
        given = ", ".join(it["given"] for it in values)
        return {"name": self.name, "shape": self.shape, "snake": snake(self.name),
                "doc": self.doc if self.doc.endswith(".") else f"{self.doc}.", "values": values,
                "len": str(sum(layout[0] for layout in layouts)),
                "short": len(given) <= LITERAL and given, "long": len(given) > LITERAL,
                "fields": broken(made(kinds), " " * 4, " " * 4, MOST - len("type Fields = ;"),
                                 CALL),
                "take_apart": take_apart(made(names)),
                "taken": broken(made(taken), " " * 8, " " * 4, MOST, CALL),
                "types": laid(made([it[3] for it in layouts]), " × ", ("", "")),
                "layout": laid(made([it[4] for it in layouts]), " ⨾ ", ("", "")),
                "written": broken(made(written), "", "  ",
                                  MOST - len(f"{snake(self.name)}_fields x = "))}


def read(root):
    """All records."""
    found = form.lines(root, "records")
    form.head(found, ())
    blocks = itertools.groupby(found[2:], lambda line: bool(line.text))
    records = [Record(block) for there, block in blocks if there]
    form.apart((record.line, record.name) for record in records)
    return records


def outputs(tables):
    """The module of the records and its specs, and where these are named."""
    rows, found = [record.row() for record in read(tables.root)], sections("records")
    laws = ", ".join(sorted(f"{row['snake']}_{end}" for row in rows for end in (
        "codec", "fields", "layout", "of", "payload")))
    code = "".join(put_in(found["code"], row) for row in rows)
    specs = "".join(put_in(found["specs import"], row) for row in sorted(
        rows, key=lambda row: row["name"])) + "".join(
            put_in(found["specs code"], row) for row in rows)
    yield Whole(f"{CRATE}/src/records.rt", "records",
                put_in(found["head"], {"laws": laws}) + code)
    yield Whole(f"{CRATE}/specs/Records.antt", "records", found["specs head"] + specs)
    names = ", ".join(sorted(row["name"] for row in rows))
    yield Part(f"{CRATE}/src/lib.rt", "records", f"pub use records::{{{names}}};\n")
    named = "\n".join(f"  {row['snake']}_{end}," for row in sorted(
        rows, key=lambda row: row["snake"]) for end in ("codec", "payload"))
    yield Part(f"{CRATE}/specs/Payloads.antt", "records",
               f"pub use Rattle.linkinfo_payloads.specs.Records.{{\n{named}\n}}\n")
