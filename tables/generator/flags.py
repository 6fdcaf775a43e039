"""Writes which attributes are written with the flag `NLA_F_NESTED`."""
from .parts import Part

CRATE = "crates/linkinfo_build"
NAME = "families (flagged)"


def flagged(tables):
    """Each family that has attributes with the flag, and their types in order."""
    for family in tables.families:
        numbers = sorted({row.number for row in family.typed if row.flagged})
        for name in family.families if numbers else []:
            yield name, [str(number) for number in numbers]


def outputs(tables):
    """The arms of the function, and the clauses of the definition that its contract names."""
    rows = list(flagged(tables))
    yield Part(f"{CRATE}/src/rows.rt", NAME, "".join(
        f"        Family::{name} => matches!(kind, {' | '.join(numbers)}),\n"
        for name, numbers in rows))
    yield Part(f"{CRATE}/specs/Build.antt", NAME, "".join(
        f"flagged_rows family.{name} = {' ∷ '.join([*numbers, '[]'])}\n"
        for name, numbers in rows))
