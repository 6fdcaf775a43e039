"""Reads the part of YAML in which the kernel's netlink specs are written: mappings and lists by
indentation, and plain texts. Python's own library has no YAML."""
import re

BLOCK = re.compile(r"[>|]-?$")


def lines(text):
    """The indentation and the text of each line, without empty ones and comments."""
    for line in text.splitlines():
        line = re.sub(r"(^|\s)#.*", "", line).rstrip()
        if line and line != "---":
            yield len(line) - len(line.lstrip()), line.lstrip()


def scalar(text):
    """A text, or a list of texts in brackets."""
    if re.fullmatch(r"\[.*\]", text):
        return [it.strip() for it in text[1:-1].split(",") if it.strip()]
    return text.strip("\"'")


def block(found, indent):
    """The lines that are indented further than `indent`, which are removed."""
    inner = []
    while found and found[0][0] > indent:
        inner.append(found.pop(0))
    return inner


def listed(found):
    """The items of a list."""
    items = []
    while found:
        indent, text = found.pop(0)
        text = text[1:].lstrip()
        inner = block(found, indent)
        if text:
            inner.insert(0, (indent + 2, text))
        items.append(value(inner))
    return items


def mapped(found):
    """The values of a mapping."""
    given = {}
    while found:
        indent, text = found.pop(0)
        key, _, rest = text.partition(":")
        inner = block(found, indent)
        if BLOCK.match(rest.strip()):
            given[key] = " ".join(line for _, line in inner)
        else:
            given[key] = value(inner) if inner and not rest else scalar(
                " ".join([rest.strip(), *(line for _, line in inner)]))
    return given


def value(found):
    """The value of some lines."""
    if not found:
        return ""
    if found[0][1].startswith("-"):
        return listed(found)
    if re.match(r"[\w-]+:(\s|$)", found[0][1]):
        return mapped(found)
    return scalar(" ".join(line for _, line in found))


def read(text):
    """The value of a document."""
    return value(list(lines(text)))
