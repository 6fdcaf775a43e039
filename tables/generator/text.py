"""Lays out text: lines of at most 100 columns, broken as `rt fmt` and rustfmt break them."""
import re

MOST = 100
CALL = 60       # how many characters rustfmt has on one line in a tuple


def snake(name):
    """A name of a type as that of a function: MacSecCipherId gives mac_sec_cipher_id."""
    return re.sub(r"(?<=[a-z0-9])(?=[A-Z])|(?<=[A-Z])(?=[A-Z][a-z])", "_", name).lower()


def camel(name):
    """A name of a module as that of a file: bare_udp gives BareUdp."""
    return "".join(part.capitalize() for part in name.split("_"))


def spelled(name):
    """A name of a variant in lower case, with an underscore before each capital."""
    return re.sub(r"(?=[A-Z])", "_", name).lstrip("_").lower()


def constructor(name):
    """A name of a variant as the logic has it, where `Type` is a word of the language."""
    return f"«{name}»" if name == "Type" else name


def fill(words, start="", most=MOST):
    """Lines of words, as many as fit on each; each line begins with `start`."""
    lines, line = [], start
    for word in words:
        if line == start:
            line += word
        elif len(line) + 1 + len(word) <= most:
            line += " " + word
        else:
            lines.append(line)
            line = start + word
    return "\n".join([*lines, line])


def listed(names):
    """Names as a sentence has them: a, b and c."""
    return " and ".join(filter(None, [", ".join(names[:-1]), names[-1]]))


def enclosed(opening, items, closing, step="    ", most=0):
    """Items on one line if they fit. Else they fill lines of at most `most` columns: each is on its
    own by default."""
    line, indent = f"{opening}{', '.join(items)}{closing}", re.match(" *", opening)[0]
    if len(line) <= MOST:
        return line
    inner = fill([f"{item}," for item in items], indent + step, most)
    return f"{opening}\n{inner}\n{indent}{closing}"


def imports(head, between, names, end):
    """An import of names. In specs (`.`) they fit on one line, or each is on its own. In code they
    fill lines, and a single one is without braces."""
    if between == ".":
        return enclosed(f"{head}.{{", names, f"}}{end}", "  ")
    if len(names) == 1:
        return f"{head}::{names[0]}{end}"
    return enclosed(f"{head}::{{", names, f"}}{end}", most=MOST - 1)


IMPORT = re.compile(r"^((?:ghost )?use [^\s{]+)(\.|::)\{([^}]*)\}(;?)\n", re.MULTILINE)


def tidy(text):
    """A text without imports of what it does not name."""
    code = IMPORT.sub("", re.sub(r"(?m)(//|^--).*", "", text))
    words = {*re.findall(r"[^\s(),;]+", code), *re.findall(r"(?<![\w.])\w+", code)}

    def is_used(name):
        # (of an operator between places for arguments, its first part)
        first = name.split("◌")[name[0] == "◌"]
        return first in words or f"::{name.removesuffix('Rows')}::" in code

    def kept(mark):
        names = [name for name in re.findall(r"[^\s,]+", mark[3]) if is_used(name)]
        return f"{imports(mark[1], mark[2], names, mark[4])}\n" if names else ""

    return IMPORT.sub(kept, text)


def pairs(items, indent=""):
    """A list of pairs that ends with tt, on one line if it fits, else broken into lines."""
    text = "tt"
    for item in reversed(items):
        text = f"({item}, {text})"
    if len(indent) + len(text) + 1 <= MOST:
        return text
    inner = pairs(items[1:], indent + "  ")
    return f"(\n{indent}  {items[0]},\n{indent}  {inner},\n{indent})"


def fitting(*texts):
    """The first text of which all lines fit, or the last one."""
    return next((it for it in texts if max(map(len, it.splitlines())) <= MOST), texts[-1])


def is_pair(node):
    """Whether a node of a tree is a pair, and no item."""
    return isinstance(node[0], tuple)


def laid(node, between=", ", outer="()"):
    """A tree on one line; the outer pair may be without parentheses."""
    if not is_pair(node):
        return node[1]
    first, second = (laid(it, between) for it in node)
    return f"{outer[0]}{first}{between}{second}{outer[1]}"


def broken(node, indent, step, most, width=MOST):
    """A tree, each pair on one line if it ends before `most` and its items have at most `width`
    characters, else in lines of its own, which are indented by `step`."""
    line = laid(node)
    if not is_pair(node) or len(indent) + len(line) <= most and len(line) - 2 <= width:
        return line
    inner = [f"{indent + step}{broken(it, indent + step, step, MOST - 1, width)},\n" for it in node]
    return f"(\n{''.join(inner)}{indent})"
