"""What the kernel and iproute2 say of attributes, and the checks of tables by it."""
import dataclasses
import pathlib
import tempfile

from . import calls, fetch, header, headers, lists, printed, rows, uses, ynl

HERE = pathlib.Path(__file__).resolve().parent
TABLES = HERE.parents[1] / "tables"
# What `ip` prints of real links.
LINKS = HERE.parent / "show/ip.json"
# The check of names that the headers have and no table has.
WITHOUT = "names without a table"
STORED = {name: HERE / f"stored/{name}.txt" for name in ("headers", "ynl", "calls")}


@dataclasses.dataclass
class Evidence:
    """The kernel's headers with their version, its description of attributes, and its calls; and
    what `ip` prints, by line."""
    version: str
    groups: list
    sets: list
    calls: dict
    links: list

    @property
    def numbers(self):
        """The number of each name."""
        return {name: number for group in reversed(self.groups)
                for name, number in group.numbers.items()}


def read_tables(folder):
    """The families and the named numbers of a folder of tables."""
    return rows.families(folder), rows.numbers(folder)


def names_of(tables):
    """The kernel's names that tables have."""
    return {name for _, name, _ in header.named(*tables)}


def stored():
    """What is stored."""
    texts = {name: path.read_text(encoding="utf-8") for name, path in STORED.items()}
    version, groups = headers.stored(texts["headers"])
    return Evidence(version, groups, ynl.stored(texts["ynl"])[1], calls.stored(texts["calls"])[1],
                    LINKS.read_text(encoding="utf-8").splitlines())


def with_fetched_headers(kept, tables):
    """The same with the newest headers that can be fetched, where they are no older than those
    that are stored; and a line that says which were taken."""
    with tempfile.TemporaryDirectory() as folder:
        newest = fetch.headers(pathlib.Path(folder))
        if newest is None:
            return kept, f"no headers could be fetched: the stored list of {kept.version} is taken"
        version, path = newest
        if fetch.is_newer(kept.version, version):
            return kept, f"the stored list of {kept.version} is newer than {version}, and is taken"
        groups = headers.watched(headers.read(path), names_of(tables))
    said = f"those of {version} are taken"
    if version != kept.version:
        said += f"; gate/tables/run --write stores them in place of those of {kept.version}"
    return dataclasses.replace(kept, version=version, groups=groups), said


def altered(kept, given):
    """The names that are stored with another number than headers give them, a line each: the
    kernel never changes one."""
    numbers = given.numbers
    return [f"gate/tables/stored/headers.txt: {name} is {numbers[name]} in the headers of "
            f"{given.version}, not {number}" for name, number in kept.numbers.items()
            if numbers.get(name, number) != number]


def store(tables):
    """Fetches headers and source, and stores what they say. The version, or None."""
    with tempfile.TemporaryDirectory() as folder:
        newest = fetch.headers(pathlib.Path(folder))
        source = newest and fetch.source(pathlib.Path(folder) / "source", newest[0])
        if not source:
            return None
        version, path = newest
        groups = headers.watched(headers.read(path), names_of(tables))
    sets = ynl.extract(source.pop(ynl.PATH))
    texts = {"headers": headers.to_store(version, groups), "ynl": ynl.to_store(version, sets),
             "calls": calls.to_store(version, calls.extract(source.values()))}
    for name, text in texts.items():
        STORED[name].parent.mkdir(exist_ok=True)
        STORED[name].write_text(text, encoding="utf-8")
    return version


def beside_headers(tables, given):
    """What the headers say otherwise than the tables, and the names that no table has, a line
    each."""
    return header.check(tables, given.version, given.groups, lists.read("elsewhere"),
                        lists.read("apart"))


def judged(tables, given):
    """What is said otherwise than in tables, a list of lines by the name of the check; and the
    counts of each."""
    families, _ = tables
    wrong, unnamed = beside_headers(tables, given)
    found = {"headers": wrong, WITHOUT: unnamed}
    counts = {"headers": {"names": len(list(header.named(*tables)))}}
    for name, check, source, known in (
            ("rt-link.yaml", ynl.check, given.sets, "not_as_ynl"),
            ("drivers", calls.check, given.calls, "not_as_drivers"),
            ("ip", printed.check, given.links, "not_printed")):
        found[name], counts[name] = check(families, source, lists.read(known))
    found["uses"], counts["uses"] = uses.check(
        families, given.calls, lists.read("not_as_used"), uses.read(TABLES))
    return found, counts
