"""Hides from the docs what exists for specifications alone: no call takes or returns it."""

from .items import item_front

NAMES = ("ListedFamily", "Plain", "PlainFamilies", "TypedFamilies", "TypedRows")
DEFINING = ("struct", "trait")


def hide_specified(source):
    for index in source.words():
        if source.at(index) in DEFINING and source.at(index + 1) in NAMES:
            item = index - source.is_word(index - 1, "pub")
            source.put_before(item, "#[doc(hidden)]\n", "docs")
