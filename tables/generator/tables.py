"""All tables, read."""
from . import families, form, kinds, numbers


class Tables:
    """The tables of a repository: `numbers` are the groups of number types and flag sets, `values`
    their types by name, `kinds` the kinds of links, `layouts` the layouts of payloads, `order` the
    rows of tables/families, `coded` those with a code of C, by it, and `families` the families with
    a table, in their order: `layered` those of the typed layer, `present` the others."""

    def __init__(self, root):
        self.root, self.numbers = root, numbers.read(root)
        self.values = {kind.name: kind for group in self.numbers for kind in group.types}
        self.kinds = kinds.read(root)
        self.order = form.read(root, "families", families.ORDER, apart_in=["code", "family"]).rows
        self.layouts = families.layouts(root)
        self.coded = sorted((row for row in self.order if row["code"]),
                            key=lambda row: row.number("code"))
        names = dict.fromkeys(row["table"] for row in self.order if row["table"])
        self.families = [families.Family(root, name, self.layouts, self.values) for name in names]
        inner = {family.name: family for family in self.families if family.inner}
        for row in (row for family in self.families for row in family.rows if row.inner):
            if row.inner not in inner:
                raise row.line.bad(f"{row.inner} is no family inside others")
            family = inner[row.inner]
            row.inner_spec, row.inner_module = family.spec, family.module
            row.inner_crate = family.crate
        self.layered = [family for family in self.families if family.layered]
        self.present = [family for family in self.families if not family.layered]
