"""Where the bodies of functions and the constants of a source file are.

The toolchain's gate requires one layout: a block ends at the first line of its indentation that
begins with a closing brace.
"""
import functools
import re

FUNCTION = re.compile(
    r'\s*(?:pub(?:\([^)]*\))? )?(const )?(?:unsafe )?(?:extern "C" )?fn (\w+)'
)
BLOCK = re.compile(r"\s*(pub(\([^)]*\))? )?(unsafe )?(impl|trait)\b")
CONSTANT = re.compile(
    r"^ *(?:pub(?:\([^)]*\))? )?(?:const \w+: |type \w+ = )[^;]*;$", re.M | re.S
)
USED = re.compile(r"\buse [^{;\n]*(?:\{[^}]*\})?")
IMPORT = re.compile(r"^ *(?:pub(?:\([^)]*\))? )?use [^;]*;\n", re.M)
CALLED = re.compile(r"(?:(?<=\.)|(?<=::)|(?<!fn )(?=\w+(?:\(|::<)))\b(\w+)")
CLAUSE = re.compile(r"^ *(?:requires|ensures|ghost(?! use)|measure)\b[^{;\n]*\{", re.M)
MACRO = re.compile(r"^( *)(?:pub(?:\([^)]*\))? )?macro_rules! .*?^\1\}", re.M | re.S)
UNSEEN = re.compile(r"^\s*(//.*|#\[inline(\(\w+\))?\])\n", re.M)


def words_of(kind):
    """A type as the check writes it in the name of an impl: `&'a Vec<u8>` is RefVecU8, `[u8; N]`
    ArrayU8, and `(u8, u16)` Tuple2U8U16. Lifetimes and type parameters are left out."""
    kind = re.sub(r"'\w+", "", kind).replace("&", " Ref ")
    kind = re.sub(r"\(([^()]+)\)", lambda it: f" Tuple{it[1].count(',') + 1} {it[1]} ", kind)
    kind = re.sub(r"\[([^;\]]+);[^\]]*\]", r" Array \1 ", kind)
    words = [it.split("::")[-1] for it in re.findall(r"[\w:]+", kind)]
    return "".join(it[0].upper() + it[1:] for it in words if not re.fullmatch(r"[A-Z]|mut|dyn", it))


def closing(text, at):
    """The index at which the angle bracket at `at` closes."""
    depth = 0
    for index in range(at, len(text)):
        depth += (text[index] == "<") - (text[index] == ">" and text[index - 1] != "-")
        if depth == 0:
            return index
    return len(text)


def block_name(header):
    """The name of an impl or a trait in the paths of its functions: `impl From<u32> for AmtMode`
    is AmtModeFromU32, and `impl<P> From<Vec<Of<P>>> for List<P>` is ListFrom. The unit is Unit."""
    header = re.sub(r"^(\s*(pub(\([^)]*\))? )?(unsafe )?)", "", header)
    if header.startswith("trait"):
        return re.match(r"trait (\w+)", header)[1]
    header, given = re.sub(r"^impl\s*", "", header), ""
    if header.startswith("<"):
        given, header = header[: closing(header, 0)], header[closing(header, 0) + 1 :]
    trait, _, kind = header.rpartition(" for ")
    trait = re.sub(r"<[^<>]*<[^<>]*<.*", "", trait)
    if kind.startswith("("):
        parameters = re.findall(r"[<,]\s*(\w+)", given)
        kind = re.sub(r"\w+", lambda it: "" if it[0] in parameters else it[0], kind)
        name = words_of(kind) if kind != "()" else "Unit"
    else:
        name = words_of(kind.partition("<")[0]) or "Any"
    return name + words_of(trait)


@functools.cache
def bodies_of(crate, path, text):
    """Each function of a file that has a body: its path, where the body starts and ends, whether it
    is const, and where its head starts if only those who name it can call it. That holds outside
    of traits and their impls. A body begins after the clauses."""
    inside = path[len("src/") : -len(".rt")].split("/")
    inside = [it for it in inside if it not in ("lib", "main", "mod")]
    lines, at, bodies, block, is_named = text.split("\n"), 0, [], ("", ""), True
    for number, line in enumerate(lines):
        indent = line[: len(line) - len(line.lstrip())]
        if BLOCK.match(line) and not line.endswith(("}", ";")):
            block = (block_name(line.rstrip(" {")), indent)
            is_named = line.endswith("{") and not re.search(r"\btrait\b| for ", line)
        elif line == block[1] + "}":
            block, is_named = ("", ""), True
        named = FUNCTION.match(line)
        span = body_span(lines, number, at, indent) if named else None
        if span:
            names = [crate, *inside, *[it for it in [block[0]] if it], named[2]]
            bodies.append(("::".join(names), *span, bool(named[1]), at if is_named else None))
        at += len(line) + 1
    return bodies


def may_be(name, function):
    """Whether a function of a file may be the one that a check names so: it names a method by the
    module of its type, which may be another than that of the impl."""
    return name.split("::")[-2:] == function.split("::")[-2:]


def found(crate, path, text, function):
    """What `bodies_of` has of that function, or nothing."""
    bodies = bodies_of(crate, path, text)
    named = [it for it in bodies if it[0] == function]
    return next((it for it in named or bodies if may_be(it[0], function)), ())


def body_of(crate, path, text, function):
    """Where the body of that function starts and ends, or twice the start of the file."""
    return found(crate, path, text, function)[1:3] or (0, 0)


def place_of(path, text, function):
    """Where the attributes of a function of a file may begin and where its first line does, or
    twice the start of the file."""
    body, _ = body_of(function.split("::")[0], path, text, function)
    head = text.rfind(f"fn {function.split('::')[-1]}", 0, body)
    start = text.rfind("\n", 0, head) + 1 if head >= 0 else 0
    ends = [text.rfind(it, 0, start) for it in ("\n\n", "{\n", "}\n")]
    return max([0, *(it + 2 for it in ends if it >= 0)]), start


def is_in_cycle(crate, path, text, function):
    """Whether the function is in this file, below an attribute that names a cycle of calls."""
    start = body_of(crate, path, text, function)[0]
    head = text.rfind(f"fn {function.split('::')[-1]}", 0, start)
    return head >= 0 and "#[cycle(" in text[:head].rpartition("\n\n")[2]


def body_span(lines, number, at, indent):
    """Where the body of the function whose first line this is starts and ends in the text, or None
    where the function has no body."""
    start, depth = None, 0
    for line in lines[number:]:
        # (within a clause, a record opens a brace too, and its fields end with a semicolon)
        depth += len(re.findall(r"[({\[]", line)) - len(re.findall(r"[)}\]]", line))
        opens = line.endswith(" {") and depth == 1 and not is_clause(line, indent)
        if start is None and (line == indent + "{" or opens):
            start = at + len(line)
        if line == indent + "}" and start is not None:
            return start, at
        if start is None and depth == 0 and line.endswith(("{}", ";")):
            return None
        at += len(line) + 1
    return None


def is_clause(line, indent):
    """Whether a line of a function's head begins a clause of several lines, or is one of its
    generic bounds."""
    return bool(re.match(indent + r"\s+(requires|ensures|ghost|measure|where)\b", line))


def constants_of(text):
    """Where each constant of a file starts and ends, and each type alias."""
    return [it.span() for it in CONSTANT.finditer(text)]


@functools.cache
def visible(crate, path, text, shown=frozenset()):
    """The text of a source file that a check of any function reads: all but comments, inlining
    attributes, the bodies of functions, which contracts hide, and the heads that only those read
    who name the function. All of const functions, which a constant may call, and of the functions
    in `shown` stays."""
    shown_text, at = [], 0
    for name, start, end, is_const, head in bodies_of(crate, path, text):
        if name not in shown and not is_const and at <= start:
            shown_text.append(text[at : start if head is None else head])
            at = end
    return UNSEEN.sub("", "".join([*shown_text, text[at:]]))


@functools.cache
def heads_of(crate, path, text):
    """The heads of a source file, that is signatures and contracts, that only those read who name
    the function: its name, its path, and the head."""
    return [(name.split("::")[-1], name, UNSEEN.sub("", text[head:start]))
            for name, start, _, _, head in bodies_of(crate, path, text) if head is not None]


def names_in(path, text):
    """The names of functions that a file may call outside of functions, and those of which it names
    the module. In a file of specifications or proofs an import names that module whole. In a
    source file, clauses and imports without `as` call nothing."""
    if path.endswith(".antt"):
        return {*re.findall(r"\w+", " ".join(USED.findall(text)))}
    text = without_clauses(IMPORT.sub(lambda it: it[0] if " as " in it[0] else "", text))
    whole = [it[0] for kind in (MACRO, CONSTANT) for it in kind.finditer(text)]
    whole += re.findall(r"\bghost use [^;]*;", text)
    return {*CALLED.findall(text), *re.findall(r"\w+", " ".join(whole))}


def without_clauses(text):
    """The text without what is in the braces of clauses and of specifications."""
    kept, at = [], 0
    for it in CLAUSE.finditer(text):
        if it.start() >= at:
            kept.append(text[at : it.end()])
            at = it.end() + balanced(text[it.end() :])
    return "".join([*kept, text[at:]])


def balanced(text):
    """Where the brace closes that is open before the text."""
    depth = 1
    for it in re.finditer(r"[{}]", text):
        depth += 1 if it[0] == "{" else -1
        if depth == 0:
            return it.start()
    return len(text)
