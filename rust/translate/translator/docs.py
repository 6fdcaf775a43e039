"""Fits doc comments to the crate: examples without an allocator, sentences by a table, and links.

`sentences.txt` has pairs of lines, `- ` before a text of the source and `+ ` before what is
written for it. A text that no doc comment has any more is an error: the table has no dead lines.
Examples of the library become tests by `examples.txt`.
"""

import pathlib
import re
import textwrap

from . import examples, links
from .source import Unknown

WIDTH = 100
WHOLE_WORDS = {"break_long_words": False, "break_on_hyphens": False}
TABLE = pathlib.Path(__file__).with_name("sentences.txt")
# The allocator and the runtime in examples and names of calls, as the rules delete them in code.
IN_EXAMPLES = (
    (re.compile(r"\bvec!\[in alloc; (.*?)\]\?"), r"vec![\1]"),
    (re.compile(r"\bformat!\(in alloc; (.*?)\)\?"), r"format!(\1)"),
    (re.compile(r"\((?:rt\.)?alloc, "), "("),
    (re.compile(r"\((?:rt\.)?alloc(?:\(\))?\)"), "()"),
    (re.compile(r", (?:rt\.)?alloc([,)])"), r"\1"),
    (re.compile(r"!\(&?rt; "), "!("),
    (re.compile(r"(println!\(.*\))\?"), r"\1"),
)
# Words that no doc comment of the crate has: they speak of the proofs, or of the other language.
OF_PROOFS = re.compile(
    r"\b(alloc|clauses?|contracts?|ghost|lemmas?|laws?|proofs?|proved?|Rattle|rt)\b|\.(antt|rt)\b"
)


def read_table(path=TABLE):
    """The pairs of the table."""
    lines = path.read_text(encoding="utf-8").splitlines()
    entries = [line for line in lines if line and not line.startswith("#")]
    pairs = []
    for old, new in zip(entries[::2], entries[1::2], strict=True):
        if not old.startswith("- ") or not (new == "+" or new.startswith("+ ")):
            raise ValueError(f"sentences.txt: neither a pair nor a comment: {old!r} {new!r}")
        pairs.append((old[2:], new[2:]))
    return pairs


def blocks(source):
    """The runs of doc comments of one indentation, as lists of tokens, with the indentation."""
    run, column, space = [], 0, ""
    for token in source.tokens:
        if token.kind == "doc" and token.out:
            if not run:
                column = len(space.rsplit("\n", 1)[-1])
            run.append(token)
        elif token.kind == "space" and (not run or token.text.count("\n") == 1):
            space = token.text
        elif token.out:
            if run:
                yield run, column
            run, space = [], ""
    if run:
        yield run, column


def paragraphs(lines):
    """The lines in paragraphs: prose is joined, examples, lists and headings stay by the line."""
    result, prose, example = [], [], False
    for line in lines:
        fence = line.lstrip().startswith("```")
        plain = line and not fence and not example and not re.match(r"(- |\d+\. |#|\||\s)", line)
        if plain:
            prose.append(line)
            continue
        if prose:
            result.append(("prose", " ".join(prose)))
            prose = []
        result.append(("example" if example or fence else "line", line))
        example = example != fence
    if prose:
        result.append(("prose", " ".join(prose)))
    return result


def name_modules(text, crates):
    """Names of crates in backticks, as modules: `layers::table` for `linkinfo_table`."""
    for crate, path in crates.items():
        if crate != "linkinfo" and "layers::" in path:
            text = re.sub(rf"`{crate}\b", f"`layers::{path.split('layers::')[1]}", text)
    return text


def fitted(text, pairs, used):
    """A paragraph with the sentences of the table replaced."""
    for old, new in pairs:
        if old in text:
            used.add(old)
            text = text.replace(old, new)
    return text


class Fit:
    """How the doc comments of some crates are written: by the table of sentences, that of examples,
    and the names that are linked. `used` has the sentences and examples that were met. In programs
    and tests no name is linked and no example is a test."""

    def __init__(self, names=None):
        self.names = names
        self.sentences = read_table()
        self.examples = examples.read_table() if names else {}
        self.used = set()

    def entries(self):
        """What the tables expect in doc comments."""
        return {old for old, _ in self.sentences} | set(self.examples)

    def lines(self, lines, width, about, found):
        """The lines of a doc comment about a type; `found` gets its links."""
        result = []
        for kind, text in paragraphs(lines):
            for pattern, new in IN_EXAMPLES:
                text = pattern.sub(new, text)
            if kind == "example":
                result.append(text)
                continue
            changed = fitted(text, self.sentences, self.used)
            if text and not changed.strip():
                continue
            if self.names:
                changed = links.linked(changed, self.names, about, found)
            hanging = "  " if changed.startswith("- ") else ""
            wrapped = textwrap.wrap(changed, width, subsequent_indent=hanging, **WHOLE_WORDS)
            result.extend(wrapped or [""])
        while result and not result[-1]:
            result.pop()
        return examples.tested(result, self.examples, self.used) if self.names else result

    def source(self, source, place):
        """Rewrites each doc comment in place: its first token gets the text, the others none."""
        spans = links.subjects(source) if self.names else []
        for run, column in list(blocks(source)):
            old = [token.text[3:].removeprefix(" ") for token in run]
            named = [name_modules(line, place.crates) for line in old]
            about, found = links.subject_of(spans, run[0]), {}
            new = self.lines(named, WIDTH - column - 4, about, found)
            if word := OF_PROOFS.search(" ".join(new)):
                where = f"{source.name}:{run[0].line}"
                raise Unknown(f"{where}: a doc comment has {word.group()!r}: {new}")
            write(source, run, column, old, new, links.definitions(found))
        source.refresh()


def write(source, run, column, old, new, ends):
    """Writes the lines in place of a run of doc comments, and the last lines after all that a rule
    put after it."""
    mark, space = run[0].text[:3], "\n" + " " * column
    for token in run:
        token.out = ""
    run[0].out = space.join(f"{mark} {line}".rstrip() for line in new)
    run[-1].after += "".join(space + f"{mark} {line}".rstrip() for line in ends)
    if new + ends != old:
        source.put["docs: a comment"] += 1
