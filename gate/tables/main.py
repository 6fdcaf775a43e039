"""The command gate/tables/run."""
import functools
import pathlib
import sys
import unittest

from . import counted, evidence, lists, planted, rows, spelled, written

ROOT = pathlib.Path(__file__).resolve().parents[2]
TABLES = ROOT / "tables"
OPTIONS = {"--stored", "--write", "--spelled"}


@functools.cache
def read(path):
    """The text of a file of the repository."""
    return (ROOT / path).read_text(encoding="utf-8")


def kernel_cases(tables, given, kept):
    """What the kernel says otherwise than the tables, by check. A new name of headers that are
    newer than the stored ones is only reported: no upload of Debian fails a merge."""
    found, said = evidence.judged(tables, given)
    if given is not kept:
        newer, (_, found[evidence.WITHOUT]) = (found[evidence.WITHOUT],
                                               evidence.beside_headers(tables, kept))
        for line in sorted({*newer}.difference(found[evidence.WITHOUT])):
            print(f"tables: headers: new in {given.version}: {line}")
    for name, counts in said.items():
        print(f"tables: {name}: " + ", ".join(f"{count} {it}" for it, count in counts.items()))
    yield from found.items()
    yield "the list inside IFLA_LINKINFO", written.check_list(read, given.numbers)


def written_cases(tables, kept):
    """What files do not have as the tables have it, by file."""
    for path in written.FILES:
        yield path, written.check(path, tables, read)
    given = read, tables[0], kept.numbers, lists.read("apart")
    print(f"tables: attributes: {counted.told(*given)}")
    yield "how many attributes have a type", list(counted.check(*given))
    yield f"counts and formats of {written.SHOW}", written.check_show(read, tables[0])


def each_test(suite):
    """The tests of a suite, which has others."""
    for one in suite:
        yield from each_test(one) if isinstance(one, unittest.TestSuite) else [one]


def unit_tests():
    """What each unit test says, if it fails."""
    suite = unittest.defaultTestLoader.discover(str(evidence.HERE / "tests"),
                                                top_level_dir=str(evidence.HERE.parent))
    count = 0
    for count, test in enumerate(each_test(suite), 1):
        result = unittest.TestResult()
        test.run(result)
        yield test.id(), [text for _, text in result.failures + result.errors]
    if not count:
        yield "unit tests", ["there is none"]


def cases(options):
    """The name of each case, and what is wrong in it, a line each. Errors are planted only where
    there are none."""
    tables, kept = evidence.read_tables(TABLES), evidence.stored()
    given, taken = kept, f"the stored list of {kept.version} is taken"
    if "--stored" not in options:
        given, taken = evidence.with_fetched_headers(kept, tables)
    print(f"tables: headers: {taken}")
    yield "the stored list of names", evidence.altered(kept, given)
    found = [*kernel_cases(tables, given, kept), *written_cases(tables, kept)]
    yield from found
    if any(wrong for _, wrong in found):
        print("tables: no errors were planted, since there are some")
    else:
        yield from planted.cases(TABLES, tables, kept, read)
    yield from unit_tests()


def write():
    """Stores what the newest kernel says."""
    version = evidence.store(evidence.read_tables(TABLES))
    if version is None:
        print("tables: headers and source of a kernel could not be fetched", file=sys.stderr)
        return 1
    print(f"tables: {evidence.HERE}/stored is of Linux {version}")
    return 0


def misspelled():
    """The first thing that tables name and that is not there, if any."""
    try:
        return next(spelled.check(evidence.read_tables(TABLES), evidence.stored(),
                                  lists.read("elsewhere"), rows.kinds(TABLES),
                                  read(written.SHOW)), None)
    except rows.Bad as error:
        return error


def main(options):
    """Runs the command, and returns its status."""
    if not set(options) <= OPTIONS or len(options) > 1:
        print("gate/tables/run [--stored | --write | --spelled]", file=sys.stderr)
        return 2
    if "--spelled" in options:
        wrong = misspelled()
        print(wrong or "", end="\n" * bool(wrong), file=sys.stderr)
        return int(bool(wrong))
    counts = {True: 0, False: 0}
    try:
        if "--write" in options:
            return write()
        for name, wrong in cases(options):
            counts[not wrong] += 1
            for line in wrong:
                print(line, file=sys.stderr if line.startswith("tables/") else sys.stdout)
            if wrong:
                print(f"tables: FAILED: {name}")
    except (rows.Bad, OSError, LookupError, ValueError, AttributeError) as error:
        counts[False] += 1
        known = isinstance(error, (rows.Bad, OSError))
        print(error if known else f"gate/tables: {error!r}", file=sys.stderr)
        print("tables: FAILED: a file cannot be read")
    print(f"{counts[True]} passed, {counts[False]} failed")
    return int(counts[False] != 0)
