"""Reads the lists beside this file: a name, two or more spaces, and why it is there."""
import fnmatch
import pathlib
import re

HERE = pathlib.Path(__file__).resolve().parent


class Listed:
    """The entries of a list, in which `*` is any text, and `NAME..` a group of names by its first.
    It notes which of them were of use."""

    def __init__(self, text):
        lines = [line for line in text.splitlines() if line and not line.startswith("#")]
        self.reasons = dict(re.split(r" {2,}", line, maxsplit=1) for line in lines)
        self.used = set()

    def has(self, name, group=""):
        """Whether an entry has this name, in the group of which the first name is `group`."""
        found = [entry for entry in self.reasons
                 if fnmatch.fnmatchcase(name, entry) or entry == f"{group}.."]
        self.used.update(found)
        return bool(found)

    def unused(self):
        """The entries that had nothing."""
        return [entry for entry in self.reasons if entry not in self.used]


def read(name):
    """The list of this name."""
    return Listed((HERE / name).read_text(encoding="utf-8"))
