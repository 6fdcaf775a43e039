"""Reads the tables of families, their order (tables/families), and the layouts of payloads."""
import collections
import re

from . import form
from .text import camel, listed, snake

ORDER = ["code", "family", "table", "what"]
LAYOUTS = ["layout", "field", "variable", "read", "exact", "rejects", "codec"]
NEST = "Nested"       # the layout of a list of another family
LISTS = (NEST, "V4List", "V6List")      # the layouts that can be written with NLA_F_NESTED
COLUMNS = ["type", "name", "variant", "layout", "member", "shown as"]
KEYS = ["family", "links", "names", "twin", "tables", "header", "about", "note", "alias", "rows"]
INNER = ("inner ", "inner set ")    # the families of lists inside others, and those that are sets
LAYERED = ("typed ", *INNER)        # the families of the typed layer, and those inside them
UNNAMED = " (Other)"  # of the links of a family whose kind `InfoKind` does not name
FAMILY = re.compile(
    r"(\w+)(?: and (\w+))?"
    r"(?:, (by hand |typed |inner |inner set )?in (\w+)(?:::(\w+)(?: and (\w+))?)?)?")


# What follows from the layout of a payload, a `Shape`: the type of the variant's field, if it has
# one; the datum's variable in specs; the call that gives the datum, and its clause; the entry of
# `ExactEq`; a payload that is rejected, or how many zeros are, and the cause; how definitions of
# linkinfo_payloads begin, if the payload is a value of a type of its own and no list of a family;
# how the doc comment of a row ends; and which data are well formed, of the variable, or empty if
# all are.
Layout = collections.namedtuple("Layout", [
    "name", "field", "variable", "read", "exact", "rejects", "codec", "tail", "condition"])


class Row:
    """An attribute. `under` is the kind of link that alone has it, else empty; `kernel` the
    kernel's name; `value` the type that the number is made into, or none. `variants` are none if it
    is shown, and otherwise opaque; two if an empty payload has one. `payload` is whether its
    payload is a value of a type of its own, and `inner` the family if that is a list of one."""

    def __init__(self, row, prefix, layouts, values):
        self.line, self.docs = row.line, row.docs
        number, _, self.under = row["type"].partition("/")
        self.shape, *value = (row["layout"] or "-").split()
        self.inner = value.pop(0) if self.shape == NEST and value else ""
        self.flagged = value[-1:] == ["+8000"] and bool(value.pop())
        if self.shape == NEST and not self.inner:
            raise self.line.bad(f"{NEST} without a family")
        if self.flagged and self.shape not in LISTS:
            raise self.line.bad(f"+8000 is only of {', '.join(LISTS)}")
        if not number.isdecimal() or int(number) >= 1 << 14:
            raise self.line.bad(f"{number or '-'} is no type")
        if self.shape not in layouts:
            raise self.line.bad(f"{self.shape} is no layout")
        self.number, self.layout = int(number), layouts[self.shape]
        self.payload = bool(self.inner or self.layout.codec)
        self.value = values.get(value[-1]) if value[:1] == ["as"] and len(value) == 2 else None
        if value and not self.value:
            raise self.line.bad(f"{' '.join(value)} is not `as` and a type of tables/numbers")
        bits = re.fullmatch(r"[ui](\d+)", self.layout.field)
        if self.value and bits and self.value.bits != int(bits[1]):
            raise self.line.bad(f"{self.value.name} has {self.value.bits} bits, and {self.shape} "
                                f"has {bits[1]}")
        self.variants = row["variant"].split("/") if row["variant"] else []
        if len(row.docs) != len(self.variants):
            raise self.line.bad("not a doc comment for each variant")
        if not row["name"]:
            raise self.line.bad("a row without a name")
        self.kernel, self.member, self.shown = prefix + row["name"], row["member"], row["shown as"]
        self.variant, self.two = (self.variants or [""])[-1], len(self.variants) == 2
        self.made = self.value.made if self.value else ""
        self.field = self.value.name if self.value else self.layout.field
        if self.shape == "FlagPair" and self.made == "flags":
            self.made, self.field = "sets", f"({self.field}, {self.field})"
        self.field = self.field.replace("‹inner›", self.inner)
        self.numbered = self.made in ("number", "reference")

    def doc(self, at):
        """The doc comment of a variant. A text without a full stop gets the kernel's name and the
        layout; a name in parentheses at its end joins the kernel's name."""
        text = self.docs[at]
        if text.endswith("."):
            return text
        tail = "a presence flag" if at < len(self.variants) - 1 else self.layout.tail
        text, more = re.fullmatch(r"(.*?)(?: \((`[^`]*`)\))?", text).groups()
        return f"{text} (`{self.kernel}`{', ' + more if more else ''}), {tail}."


class Family:
    """A family, or two that have the same rows: the head of the table, and its rows."""

    def __init__(self, root, name, layouts, values):
        table = form.read(root, name, COLUMNS, KEYS)
        head = {key: table.head[key].text if key in table.head else "" for key in KEYS}
        where = FAMILY.fullmatch(head["family"])
        names = re.fullmatch(r"(\w+)\*(.*)", head["names"])
        for key, found in (("family", where), ("links", head["links"]), ("names", names)):
            if key not in table.head:
                raise form.Bad(table.path, 1, f"the head has no line `{key}`")
            if not found:
                raise table.head[key].bad(f"{head[key]} is no {key}: see tables/README.md")
        self.name, self.twin, how, self.crate, module, other = where.groups()
        self.table, self.title = name, table.title
        self.flat, self.layered = bool(self.crate) and how != "by hand ", how in LAYERED
        self.inner, self.is_set = how in INNER, how == "inner set "
        self.families = [self.name, *[self.twin] * bool(self.twin)]
        self.type, self.snake = "Info" * (not self.inner) + self.name, snake(self.name)
        self.module, self.constant = module or self.snake, self.snake.upper()
        self.modules, self.spec = [self.module, *[other] * bool(other)], camel(self.module)
        self.links = head["links"].removesuffix(UNNAMED)
        self.about, self.note = head["about"], head["note"]
        self.prefix, more = names.groups()
        self.twin_prefix = head["twin"].removesuffix("*") or self.prefix
        self.header, self.listed_in = head["header"] or form.LINK_HEADER, head["rows"]
        self.alias, _, self.alias_said = head["alias"].partition(", ")
        self.parts = dict(it.split() for it in head["tables"].split(", ") if it)
        self.rows = [Row(row, self.prefix, layouts, values) for row in table.rows]
        self.typed = [row for row in self.rows if row.variants]
        self.plain = [row for row in self.typed if not row.under]
        self.check()
        self.values = list(dict.fromkeys(row.value for row in self.typed if row.value))
        self.kinds = re.findall(r"\w+", self.links.split(", and its")[0].replace(" and ", ", "))
        kinds = [f"`{kind}`" for kind in self.kinds]
        self.of_links = self.about if self.inner else f"{listed(kinds)} links"
        if self.links.startswith("ports of "):
            self.of_links = self.links
        self.where = "inside" if self.inner else "in the data of"
        self.lookup, self.shape_of = [("table_lookup", "shape_of"),
                                      ("typed_lookup", "typed_shape_of")][self.layered]
        where = f" ({self.header})" * (self.header != form.LINK_HEADER)
        self.names = f"`{self.prefix}*`{where}{more}."

    def check(self):
        """Rejects rows out of order, names that two rows have, and rows that no module has."""
        for row, after in zip(self.rows, self.rows[1:]):
            if after.number < row.number:
                raise after.line.bad(f"type {after.number} is after type {row.number}")
        form.apart((row.line, f"type {row.number}/{row.under}".rstrip("/")) for row in self.rows)
        form.apart((row.line, name) for row in self.rows for name in row.variants)
        for name in ("member", "kernel"):
            form.apart((row.line, getattr(row, name)) for row in self.rows if not row.under)
        for row in self.typed:
            known = row.layout.variable and (row.field or row.shape == "Mark") and not row.under
            if self.flat and not known:
                raise row.line.bad("such a row is only in a module by hand")


def layouts(root):
    """The layouts by name, in the order of `Shape`."""
    return {row["layout"]: Layout(*row.cells.values(), *[*row.docs, "", ""][:2])
            for row in form.read(root, "layouts", LAYOUTS, apart_in=["layout"]).rows}
