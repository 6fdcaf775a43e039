"""The numbers and names of the tables beside those of the kernel's headers."""


def named(families, values):
    """The place, the kernel's name and the number of each row and each value."""
    for family in families:
        for row in family.rows:
            yield from ((row.place, name, row.number) for name in row.names)
    yield from ((value.place, value.kernel, value.number) for value in values if value.kernel)


def wrong(ours, numbers, version, elsewhere):
    """What of the tables is not as in the headers, a line each. `elsewhere` lists the names that no
    header has."""
    for place, name, number in ours:
        if name in numbers:
            if numbers[name] != number:
                yield f"{place}: {name} is {numbers[name]} in the kernel's headers, not {number}"
        elif not elsewhere.has(name):
            yield f"{place}: the kernel's headers have no {name} (Linux {version})"
    for entry in elsewhere.unused():
        yield f"gate/tables/elsewhere: {entry} names nothing that the headers lack"


def unnamed(ours, groups, apart):
    """The names that the headers have, and neither a table nor the list `apart`, a line each."""
    known = {name for _, name, _ in ours}
    for group in groups:
        first = next(iter(group.numbers), "")
        for name, number in group.numbers.items():
            if name not in known and not apart.has(name, first):
                yield (f"{group.header}: {name} ({number}) is in no table, and not in the list "
                       "gate/tables/apart")
    for entry in apart.unused():
        yield f"gate/tables/apart: {entry} names nothing that no table has"


def check(tables, version, groups, elsewhere, apart):
    """Both, for these families and values."""
    ours = list(named(*tables))
    found = {}
    for group in groups:
        for name, number in group.numbers.items():
            found.setdefault(name, number)
    return list(wrong(ours, found, version, elsewhere)), list(unnamed(ours, groups, apart))
