"""Reads tables/numbers: number types and flag sets, a table for each module of linkinfo_numbers. A
type is a block: a line of itself, its doc comment, and a line for each value."""
import collections
import itertools
import re

from . import form
from .text import snake

HEAD = re.compile(r"(\w+)  +u(8|16|32|64)  +(\w+)  +([\w-]+)(?:  +(.*))?")
MORE = re.compile("(alias|also|as|by hand|by reference|default|false|hashed|in ExactEq|in specs|"
                  "others|pair of|record|true|words of)(?: (.+))?")
COLUMNS = ("number", "name", "variant", "word")
VALUE = re.compile(r"    (0x[\dA-Fa-f_]+|\d+)  ")
FIELD = re.compile(r"    ([a-z]\w*)  +(.+)")

# A module: its name, title, types, and those of them that the generator writes.
Group = collections.namedtuple("Group", "module title types written")


def more(line, text):
    """What a type has more."""
    given = {}
    for it in text.split(", ") if text else ():
        found = MORE.fullmatch(it)
        if not found:
            raise line.bad(f"{it} is nothing that a type can have")
        given[found[1]] = found[2] or ""
    return given


def value_of(bits, line, further):
    """A value, of its line and the lines that continue its doc comment."""
    cells = form.cells(line.text)
    doc = " ".join([*cells[4:], *(it.text.strip() for it in further)])
    value = form.Row(line, dict(zip(COLUMNS, [*cells, "", "", ""])), [doc])
    if value.number("number") >= 2 ** bits:
        raise line.bad(f"{value['number']} has more than {bits} bits")
    if not value["variant"] or not doc:
        raise line.bad("a value has a variant and a doc comment")
    return value


class Type:
    """A number type, a flag set, or a record of one number or of a pair of sets, of a module.
    `word` is its variable; `listed` the macro of its values, which are rows with a number, the
    kernel's name, a variant, and a word or none; `fields` those of a record, each a name and a doc
    comment; `family` that in the error of a text that is no word, or empty if texts are not parsed;
    `made` how rows make it: number, reference (a number made from a reference), flags, record,
    pair, or scrub. `in_specs` is its variable in specs, and `exact` the name of its entry in a
    proof of `ExactEq`."""

    def __init__(self, module, block):
        self.module, (self.line, *body) = module, block
        found = HEAD.fullmatch(self.line.text)
        if not found:
            raise self.line.bad(
                "no line NAME WIDTH VARIABLE MACRO with a width of u8, u16, u32 or u64")
        self.name, bits, self.word, self.listed, other = found.groups()
        self.snake, self.bits, self.more = snake(self.name), int(bits), more(self.line, other)
        self.set_of, record = self.more.get("pair of", ""), "record" in self.more
        form_of = FIELD if self.set_of or record else VALUE
        starts = [at for at, line in enumerate(body) if form_of.match(line.text)] + [len(body)]
        each = [body[at:to] for at, to in zip(starts, starts[1:])]
        self.fields = [] if form_of is VALUE else [
            (FIELD.fullmatch(first.text)[1], " ".join([
                FIELD.fullmatch(first.text)[2], *(it.text.strip() for it in further)]))
            for first, *further in each]
        self.values = [value_of(self.bits, first, further)
                       for first, *further in each] if form_of is VALUE else []
        self.doc = " ".join(line.text.strip() for line in body[:starts[0]])
        self.is_set, self.by_hand = self.word == "flags", "by hand" in self.more
        self.worded = any(value["word"] for value in self.values)
        self.family = self.more.get("words of", "")
        self.in_specs = self.more.get("in specs", self.word)
        self.exact = self.more.get("in ExactEq", self.in_specs)
        made = "flags" if self.is_set else "reference" if "by reference" in self.more else "number"
        made = "pair" if self.set_of else "record" if record else made
        self.made = self.word if self.by_hand and not self.set_of else made
        self.numbered = self.made in ("number", "reference")
        self.check()

    def check(self):
        """Rejects a type without a doc comment or values, and values that are not apart."""
        wanted = {"pair": 2, "record": 1}.get(self.made)
        if wanted and len(self.fields) != wanted:
            raise self.line.bad(f"{self.name} has {len(self.fields)} fields, and not {wanted}")
        listed = self.values or self.fields or self.by_hand or "as" in self.more
        if not self.doc or not listed:
            raise self.line.bad(f"{self.name} has no doc comment, or no values")
        if ("true" in self.more) != ("false" in self.more):
            raise self.line.bad("a value for true without one for false, or the other way round")
        form.apart((it.line, str(it.number("number"))) for it in self.values)
        for column in COLUMNS[1:]:
            form.apart((it.line, it[column]) for it in self.values)
        if self.worded and not all(value["word"] for value in self.values):
            raise self.line.bad(f"some values of {self.name} have a word, and some have none")


def with_shared(types):
    """Gives each type that has the values of another one of its module those values."""
    for it in types:
        if "as" not in it.more:
            continue
        found = next((of for of in types if of.name == it.more["as"]), None)
        if not found or it.values or found.bits > it.bits:
            raise it.line.bad(f"no type {it.more['as']} of at most this width, or values too")
        it.values, it.worded = found.values, found.worded


def read(root):
    """All groups."""
    groups = []
    for path in sorted((root / "tables/numbers").iterdir()):
        found = form.lines(root, f"numbers/{path.name}")
        blocks = itertools.groupby(found[2:], lambda line: bool(line.text))
        types = [Type(path.name, block) for there, block in blocks if there]
        with_shared(types)
        if not types or not found[-1].text:
            raise found[-1].bad("no types, or an empty line at the end")
        groups.append(Group(path.name, form.head(found, ())[0], types,
                            [kind for kind in types if not kind.by_hand]))
    form.apart((kind.line, kind.name) for group in groups for kind in group.types)
    return groups
