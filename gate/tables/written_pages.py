"""Reads the rows back out of the pages that are written from the tables."""
import re

FAMILY = re.compile(r"^### (.*)\n\n\| type .*\n\|---.*\n((?:\|.*\n)+)", re.M)
LIST = re.compile(r"^## The list inside IFLA_LINKINFO\n\n\|.*\n\|---.*\n((?:\|.*\n)+)", re.M)
SECTION = re.compile(r"^\*\*([^*]+)\*\*: (?:.+\n)+\n\| type \| member \| shape \| format \|\n"
                     r"\|---\|---\|---\|---\|\n((?:\|.*\n)+)(?:\nAnd those of (.+)\.\n)?", re.M)
COUNTS = re.compile(r"^(\d+) rows in (\d+) tables\.", re.M)
FORMATS = re.compile(r"^\| format \| what is shown \|\n\|---\|---\|\n((?:\|.*\n)+)", re.M)
TYPES = re.compile(r"^\| (\w+) u\d+ \| ([^|]*) \|", re.M)
VALUE = re.compile(r"(0x[\dA-Fa-f]+|\d+) ([A-Z]\w*)|([A-Z]\w*) (0x[\dA-Fa-f]+|\d+)")


def cells(body):
    """The cells of each line of a table."""
    return [[cell.strip() for cell in line.split("|")[1:-1]] for line in body.splitlines()]


def format_rows(page):
    """docs/FORMAT.md: type, kind, kernel's names, variants, shape and value of each row, by
    family."""
    found = {}
    for families, body in FAMILY.findall(page):
        rows = []
        for kind, kernel, variant, shape, value in cells(body):
            number, under = re.fullmatch(r"(\d+)(?: under `(\w+)`)?", kind).groups("")
            rows.append((int(number), under, tuple(re.findall(r"`(\w+)`", kernel)),
                         variant, shape, value.removesuffix(", for each")))
        found[tuple(re.findall(r"`(\w+)`", families))] = rows
    return found


def link_info(page):
    """docs/FORMAT.md: type and kernel's name of each attribute of the list itself."""
    return [(int(number), kernel.strip("`")) for number, kernel, _ in
            cells(LIST.search(page)[1])]


def values(page):
    """docs/FORMAT.md: number and variant of each value, by type."""
    found = {}
    for name, text in TYPES.findall(page.split("\n## Numbers\n")[1]):
        found[name] = [(int(number or bits, 0), variant or flag)
                       for number, variant, flag, bits in VALUE.findall(text)]
    return found


def show_rows(page):
    """docs/SHOW.md: type, member, shape and format of each row, by the links of its section; with
    those that a section shares with others."""
    sections, shared = {}, {}
    for title, body, others in SECTION.findall(page):
        title = " ".join(title.split())
        sections[title] = [(int(number), member.strip("`"), shape, form)
                           for number, member, shape, form in cells(body)]
        if others:
            shared[title] = others
    return {title: sorted(rows + sections[shared[title]]) if title in shared else rows
            for title, rows in sections.items() if title not in shared.values()}


def counts(page):
    """docs/SHOW.md: how many rows and tables it says that it has, and how many it has."""
    rows = [len(body.splitlines()) for _, body, _ in SECTION.findall(page)]
    return [tuple(map(int, it)) for it in COUNTS.findall(page)], (sum(rows), len(rows))


def formats(page):
    """docs/SHOW.md: the formats that it describes."""
    return {name.strip() for names, _ in cells(FORMATS.search(page)[1])
            for name in names.split(",")}
