"""Reads the names and numbers of the kernel's headers, and the list of them that is stored."""
import ast
import dataclasses
import operator
import re

COMMENT = re.compile(r"^[ \t]*/\*.*?\*/[ \t]*\n|/\*.*?\*/|//[^\n]*", re.S | re.M)
ENUM = re.compile(r"\benum\b[^{};()]*\{([^{}]*)\}")
DEFINES = re.compile(r"(?:^[ \t]*#[ \t]*define[ \t]+\w+[ \t]+\S.*\n)+", re.M)
DEFINE = re.compile(r"#[ \t]*define[ \t]+(\w+)[ \t]+(.+)")
SUFFIX = re.compile(r"\b(0[xX][\da-fA-F]+|\d+)[uUlL]+\b")
OPERATORS = {ast.LShift: operator.lshift, ast.BitOr: operator.or_, ast.Add: operator.add,
             ast.Sub: operator.sub, ast.USub: operator.neg, ast.Invert: operator.invert}


@dataclasses.dataclass(frozen=True)
class Group:
    """The names and numbers of an enum, or of a run of `#define` lines, of a header."""
    header: str
    numbers: dict


def evaluated(node, known):
    """The number of a part of an expression."""
    match node:
        case ast.Constant(value=int(number)):
            return number
        case ast.Name(id=name):
            return known[name]
        case ast.BinOp(left=left, op=how, right=right):
            return OPERATORS[type(how)](evaluated(left, known), evaluated(right, known))
        case ast.UnaryOp(op=how, operand=inner):
            return OPERATORS[type(how)](evaluated(inner, known))
        case ast.Call(func=ast.Name(id="__cpu_to_be16" | "__cpu_to_be32"), args=[inner]):
            return evaluated(inner, known)
    raise KeyError


def number_of(text, known):
    """The number of a constant expression of C, or None."""
    try:
        return evaluated(ast.parse(SUFFIX.sub(r"\1", text).strip(), mode="eval").body, known)
    except (SyntaxError, LookupError, TypeError, ValueError):
        return None


def is_end(name, text):
    """Whether a name is the end of an enum, as in `__IFLA_GRE_MAX` and `(__IFLA_GRE_MAX - 1)`."""
    return name.startswith("__") or bool(re.search(r"\b__\w+\s*-\s*1\b", text))


def enumerated(body, known):
    """The enumerators of an enum, which counts on from each number that it names."""
    found, at = {}, -1
    body = re.sub(r"^[ \t]*#.*$", "", body, flags=re.M)
    for entry in filter(None, (it.strip() for it in body.split(","))):
        name, _, text = (it.strip() for it in entry.partition("="))
        after = None if at is None else at + 1
        at = number_of(text, known) if text else after
        known[name] = at
        if at is not None and not is_end(name, text):
            found[name] = at
    return found


def groups(header, text, known):
    """The groups of a header; `known` gets the number of each name."""
    text = COMMENT.sub("", text.replace("\\\n", " "))
    for body in ENUM.findall(text):
        yield Group(header, enumerated(body, known))
    for run in DEFINES.findall(text):
        found = {}
        for name, expression in DEFINE.findall(run):
            number = number_of(expression, known)
            # (a header may define an enumerator as itself)
            if number is not None and name not in known and not is_end(name, expression):
                found[name] = known[name] = number
        yield Group(header, found)


def read(folder):
    """The groups of all headers below a folder, as `include/linux`."""
    for path in sorted(folder.rglob("*.h")):
        text = path.read_text(encoding="utf-8", errors="replace")
        yield from groups(str(path.relative_to(folder)), text, {})


def is_attribute(name):
    """Whether a name is that of an attribute of links."""
    return bool(re.match(r"IFLA_|\w+_INFO_PEER$", name))


def watched(every, ours):
    """The groups that have an attribute of links, or a name that the tables have."""
    return [group for group in every
            if any(is_attribute(name) or name in ours for name in group.numbers)]


def stored(text):
    """The version and the groups of a stored list."""
    title, *parts = text.rstrip("\n").split("\n\n")
    found = []
    for part in parts:
        header, *lines = part.splitlines()
        found.append(Group(header, {name: int(number) for name, number in map(str.split, lines)}))
    return title.split()[-1], found


def to_store(version, found):
    """The text of a stored list."""
    parts = [f"# Names and numbers of the headers in include/uapi/linux of Linux {version}"]
    for group in found:
        lines = [f"    {name} {number}" for name, number in group.numbers.items()]
        parts.append("\n".join([group.header, *lines]))
    return "\n\n".join(parts) + "\n"
